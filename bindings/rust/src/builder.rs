//! How a pool is set up.

use crate::core::{Core, Limits};
use crate::hooks::{Hooks, Metadata};
use crate::pool::Pool;
use crate::shared::Setup;
use crate::{Error, Manager, keeper};
use std::fmt;
use std::time::Duration;

/// How a pool is set up, by setters that take and give the value; [`build`](Builder::build) makes the pool.
///
/// Nobody says otherwise: at most 10 connections and none at least; a connection is waited for 30 s, closed after 10
/// minutes of idleness or 30 of life, and tested before it is lent; no hooks, no log, no thread.
pub struct Builder<M: Manager> {
    max: u32,
    min: u32,
    timeout: Duration,
    lifetime: Option<Duration>,
    idle: Option<Duration>,
    test: bool,
    log: bool,
    upkeep: Option<Duration>,
    hooks: Hooks<M>,
}

impl<M: Manager> Default for Builder<M> {
    fn default() -> Self {
        Builder {
            max: 10,
            min: 0,
            timeout: Duration::from_secs(30),
            lifetime: Some(Duration::from_secs(1800)),
            idle: Some(Duration::from_secs(600)),
            test: true,
            log: false,
            upkeep: None,
            hooks: Hooks::default(),
        }
    }
}

/// Nanoseconds; a duration of 584 years or more is the largest number, which stands for no limit.
#[inline]
pub(crate) fn nanos(time: Duration) -> u64 {
    let seconds = time.as_secs().saturating_mul(1_000_000_000);
    seconds
        .saturating_add(u64::from(time.subsec_nanos()))
        .min(u64::MAX - 1)
}

fn limit(time: Option<Duration>) -> u64 {
    time.map_or(u64::MAX, nanos)
}

impl<M: Manager> Builder<M> {
    /// How many connections there are at most; 0 counts as 1. In r2d2: `max_size`.
    pub fn max(mut self, max: u32) -> Self {
        self.max = max.max(1);
        self
    }

    /// How many connections are kept at least, where nobody waits: by [`build`](Builder::build),
    /// [`keep_minimum`](Pool::keep_minimum), [`reap`](Pool::reap) and the thread of [`upkeep`](Builder::upkeep). In r2d2:
    /// `min_idle`.
    pub fn min(mut self, min: u32) -> Self {
        self.min = min;
        self
    }

    /// How long a connection is waited for. In r2d2: `connection_timeout`.
    pub fn acquire_timeout(mut self, timeout: Duration) -> Self {
        self.timeout = timeout;
        self
    }

    /// Beyond which age a connection isn't kept; None for no limit.
    pub fn max_lifetime(mut self, lifetime: Option<Duration>) -> Self {
        self.lifetime = lifetime;
        self
    }

    /// For how long a connection may be idle, until it is reaped; None for no limit.
    pub fn idle_timeout(mut self, idle: Option<Duration>) -> Self {
        self.idle = idle;
        self
    }

    /// Whether an idle connection is tested by [`is_valid`](Manager::is_valid) before it is lent. In r2d2:
    /// `test_on_check_out`.
    pub fn test_before_acquire(mut self, test: bool) -> Self {
        self.test = test;
        self
    }

    /// A hook that sets a new connection up. Where it fails, the connection is closed, and another one tried later.
    pub fn after_connect(
        mut self,
        hook: impl Fn(&mut M::Connection) -> Result<(), M::Error> + Send + Sync + 'static,
    ) -> Self {
        self.hooks.after_connect = Some(Box::new(hook));
        self
    }

    /// A hook that looks at an idle connection before it is lent, behind its test. Where it says false or fails, the
    /// connection is closed.
    pub fn before_acquire(
        mut self,
        hook: impl Fn(&mut M::Connection, Metadata) -> Result<bool, M::Error> + Send + Sync + 'static,
    ) -> Self {
        self.hooks.before_acquire = Some(Box::new(hook));
        self
    }

    /// A hook that looks at a connection that comes back. Where it says false or fails, the connection is closed. A
    /// transaction that it leaves open is rolled back.
    pub fn after_release(
        mut self,
        hook: impl Fn(&mut M::Connection, Metadata) -> Result<bool, M::Error> + Send + Sync + 'static,
    ) -> Self {
        self.hooks.after_release = Some(Box::new(hook));
        self
    }

    /// Whether the pool keeps a log of all that it does, for [`Pool::log`]. It grows without end.
    pub fn keep_log(mut self, log: bool) -> Self {
        self.log = log;
        self
    }

    /// A thread reaps and keeps the minimum, so often, until the pool is closed or its last handle is dropped.
    pub fn upkeep(mut self, every: Duration) -> Self {
        self.upkeep = Some(every);
        self
    }

    /// Opens the pool, with its minimum of connections; the first refusal of one is the answer.
    pub fn build(self, manager: M) -> Result<Pool<M>, Error<M::Error>> {
        let pool = self.build_lazy(manager)?;
        match pool.keep_minimum() {
            Ok(()) => Ok(pool),
            Err(why) => Err(Error::Refused(why)),
        }
    }

    /// Opens the pool, without a connection.
    pub fn build_lazy(self, manager: M) -> Result<Pool<M>, Error<M::Error>> {
        let limits = Limits {
            max: self.max,
            min: self.min,
            timeout: nanos(self.timeout),
            lifetime: limit(self.lifetime),
            idle: limit(self.idle),
            log: self.log,
        };
        let core = Core::open(limits).ok_or(Error::OutOfMemory)?;
        let setup = Setup {
            limits,
            test: self.test,
            hooks: self.hooks,
        };
        let pool = Pool::new(manager, core, setup);
        if let Some(every) = self.upkeep {
            keeper::start(&pool.0, every).map_err(|_| Error::OutOfMemory)?;
        }
        Ok(pool)
    }
}

impl<M: Manager> fmt::Debug for Builder<M> {
    fn fmt(&self, f: &mut fmt::Formatter<'_>) -> fmt::Result {
        f.debug_struct("Builder")
            .field("max", &self.max)
            .field("min", &self.min)
            .field("acquire_timeout", &self.timeout)
            .field("max_lifetime", &self.lifetime)
            .field("idle_timeout", &self.idle)
            .field("test_before_acquire", &self.test)
            .field("keep_log", &self.log)
            .field("upkeep", &self.upkeep)
            .finish_non_exhaustive()
    }
}
