//! What the handles of a pool share: the manager, the lock and what is under it, the clock.

use crate::Manager;
use crate::builder::nanos;
use crate::core::{Kind, Limits, Reply, Step, Told};
use crate::hooks::{Hooks, Metadata, says_yes};
use crate::state::State;
use std::sync::atomic::{AtomicBool, AtomicU32, Ordering};
use std::sync::{Condvar, Mutex, MutexGuard, PoisonError};
use std::time::{Duration, Instant};

// For how many nanoseconds a caller looks for a connection before it asks for one, at most and at least; one in how many looks
// for long where it didn't pay; and how often it looks before it lets another thread run.
const MOST_PATIENCE: u32 = 20_000;
const LEAST_PATIENCE: u32 = 1_000;
const PROBES: u32 = 4;
const SPINS: u32 = 10;

pub(crate) struct Setup<M: Manager> {
    pub(crate) limits: Limits,
    pub(crate) test: bool,
    pub(crate) hooks: Hooks<M>,
}

pub(crate) struct Shared<M: Manager> {
    pub(crate) manager: M,
    pub(crate) setup: Setup<M>,
    state: Mutex<State<M::Connection>>,
    // As `State::closing` and `State::is_vacant`, to be looked at with the lock free.
    closing: AtomicU32,
    vacant: AtomicBool,
    // For how long a caller looks for a connection before it asks for one.
    patience: AtomicU32,
    tries: AtomicU32,
    closed: Condvar,
    began: Instant,
    pub(crate) keeper: crate::keeper::Bell,
}

pub(crate) type Locked<'a, M> = MutexGuard<'a, State<<M as Manager>::Connection>>;

/// What came of a try to open a connection.
pub(crate) enum Opening<M: Manager> {
    Opened(M::Connection),
    /// A hook refused it.
    Rejected(M::Error),
    Transient(M::Error),
    Fatal(M::Error),
}

impl<M: Manager> Shared<M> {
    pub(crate) fn new(manager: M, setup: Setup<M>, state: State<M::Connection>) -> Self {
        Shared {
            manager,
            setup,
            state: Mutex::new(state),
            closing: AtomicU32::new(0),
            vacant: AtomicBool::new(false),
            patience: AtomicU32::new(MOST_PATIENCE),
            tries: AtomicU32::new(0),
            closed: Condvar::new(),
            began: Instant::now(),
            keeper: crate::keeper::Bell::default(),
        }
    }

    /// The clock, in nanoseconds.
    #[inline]
    pub(crate) fn now(&self) -> u64 {
        nanos(self.began.elapsed())
    }

    /// When the clock shows this; None for a moment that no clock shows.
    pub(crate) fn instant(&self, nanos: u64) -> Option<Instant> {
        self.began.checked_add(Duration::from_nanos(nanos))
    }

    // No step panics, and the manager and the hooks are called with the lock free: what is under a poisoned lock is whole.
    #[inline]
    pub(crate) fn lock(&self) -> Locked<'_, M> {
        self.state.lock().unwrap_or_else(PoisonError::into_inner)
    }

    /// Whether a close came.
    pub(crate) fn is_shut(&self) -> bool {
        self.lock().step(Step::Closing, Told::default()).id != 0
    }

    /// Serves those whose turn came, lets the lock go, and wakes them.
    #[inline]
    pub(crate) fn unlock(&self, state: Locked<'_, M>) {
        if state.somebody_waits() {
            return self.unlock_served(state);
        }
        self.vacant.store(state.is_vacant(), Ordering::Relaxed);
    }

    #[cold]
    #[inline(never)]
    fn unlock_served(&self, mut state: Locked<'_, M>) {
        let served = if state.is_due() {
            state.serve(self.now())
        } else {
            Vec::new()
        };
        self.vacant.store(state.is_vacant(), Ordering::Relaxed);
        drop(state);
        for waiter in served {
            waiter.wake();
        }
    }

    /// How long a caller looks whether a connection comes back, before it asks: nobody has to sleep then for one that is out
    /// for a moment.
    pub(crate) fn patience(&self) -> u64 {
        u64::from(self.patience.load(Ordering::Relaxed))
    }

    /// Whether it paid to look. Where it doesn't, one in many looks for long, to see whether it does now.
    pub(crate) fn pays(&self, paid: bool) {
        let patience = self.patience.load(Ordering::Relaxed);
        let next = if paid {
            (patience * 2).min(MOST_PATIENCE)
        } else if self.tries.fetch_add(1, Ordering::Relaxed) % PROBES == 0 {
            MOST_PATIENCE
        } else {
            (patience / 2).max(LEAST_PATIENCE)
        };
        self.patience.store(next, Ordering::Relaxed);
    }

    /// Looks until a connection is there that nobody waits for, or until then.
    pub(crate) fn look(&self, until: u64) -> bool {
        loop {
            for _ in 0..SPINS {
                if self.vacant.load(Ordering::Relaxed) {
                    return true;
                }
                std::hint::spin_loop();
            }
            if self.now() >= until {
                return false;
            }
            std::thread::yield_now();
        }
    }

    /// Closes a connection that a step took out, whose place is free by that; no other is opened in it until then.
    pub(crate) fn close_taken(&self, mut state: Locked<'_, M>, conn: M::Connection) {
        state.closing += 1;
        self.closing.fetch_add(1, Ordering::Relaxed);
        self.unlock(state);
        let _done = Closing(self);
        drop(conn);
    }

    // Waits until a connection may be opened in a place that the pool gave: not while those that left the pool are still
    // open, and with them there would be more than the maximum.
    fn wait_for_room(&self) {
        if self.closing.load(Ordering::Relaxed) == 0 {
            return;
        }
        let mut state = self.lock();
        while state.closing > 0 {
            let size = state.step(Step::Size, Told::default()).id;
            if size + u64::from(state.closing) <= u64::from(self.setup.limits.max) {
                break;
            }
            state = self
                .closed
                .wait(state)
                .unwrap_or_else(PoisonError::into_inner);
        }
    }

    /// Opens a connection in a place that the pool gave, and sets it up.
    pub(crate) fn open(&self) -> Opening<M> {
        self.wait_for_room();
        let mut conn = match self.manager.connect() {
            Ok(conn) => conn,
            Err(why) if self.manager.is_transient(&why) => return Opening::Transient(why),
            Err(why) => return Opening::Fatal(why),
        };
        let Some(hook) = &self.setup.hooks.after_connect else {
            return Opening::Opened(conn);
        };
        match hook(&mut conn) {
            Ok(()) => Opening::Opened(conn),
            Err(why) => Opening::Rejected(why),
        }
    }

    /// Whether an idle connection may be lent.
    pub(crate) fn passes(&self, conn: &mut M::Connection, idle: &Reply, now: u64) -> bool {
        if self.setup.test && self.manager.is_valid(conn).is_err() {
            return false;
        }
        let meta = Metadata {
            age: Duration::from_nanos(now.saturating_sub(idle.created)),
            idle_for: Duration::from_nanos(now.saturating_sub(idle.when)),
        };
        says_yes::<M>(&self.setup.hooks.before_acquire, conn, meta)
    }

    /// Whether a connection that comes back may be lent again. No transaction is open in one that may.
    pub(crate) fn may_return(&self, conn: &mut M::Connection, created: u64, now: u64) -> bool {
        if std::thread::panicking() || self.manager.has_broken(conn) {
            return false;
        }
        let age = now.saturating_sub(created);
        if age > self.setup.limits.lifetime {
            return false;
        }
        let meta = Metadata {
            age: Duration::from_nanos(age),
            idle_for: Duration::ZERO,
        };
        if !says_yes::<M>(&self.setup.hooks.after_release, conn, meta) {
            return false;
        }
        if !self.manager.is_in_transaction(conn) {
            return true;
        }
        self.manager.roll_back(conn);
        !self.manager.is_in_transaction(conn) && !self.manager.has_broken(conn)
    }

    /// Closes the idle connections that are too old or idle for too long; how many.
    pub(crate) fn reap(&self) -> usize {
        let mut reaped = 0;
        loop {
            let now = self.now();
            let mut state = self.lock();
            let reply = state.step(
                Step::Reap,
                Told {
                    now,
                    ..Told::default()
                },
            );
            let Some(conn) = state.take_for(&reply) else {
                return reaped;
            };
            state.slots.close(reply.raw);
            self.close_taken(state, conn);
            reaped += 1;
        }
    }

    /// Opens connections until the minimum is there; the first refusal.
    pub(crate) fn keep_minimum(&self) -> Result<(), M::Error> {
        loop {
            let mut state = self.lock();
            let placed = state.step(Step::MinimumPlace, Told::default()).kind() == Kind::Done;
            self.unlock(state);
            if !placed {
                return Ok(());
            }
            let place = Place(self);
            match self.open() {
                Opening::Opened(conn) => place.fill(conn),
                Opening::Rejected(why) | Opening::Transient(why) | Opening::Fatal(why) => {
                    return Err(why);
                }
            }
        }
    }
}

// A connection that is being closed; when this is dropped, it is.
struct Closing<'a, M: Manager>(&'a Shared<M>);

impl<M: Manager> Drop for Closing<'_, M> {
    fn drop(&mut self) {
        self.0.lock().closing -= 1;
        self.0.closing.fetch_sub(1, Ordering::Relaxed);
        self.0.closed.notify_all();
    }
}

// A place that is held for a connection of the minimum; it is given up where the connect fails or panics.
struct Place<'a, M: Manager>(&'a Shared<M>);

impl<M: Manager> Place<'_, M> {
    fn fill(self, conn: M::Connection) {
        let shared = self.0;
        std::mem::forget(self);
        let now = shared.now();
        let mut state = shared.lock();
        let raw = state.slots.open();
        let reply = state.step(
            Step::MinimumOpened,
            Told {
                raw,
                now,
                ..Told::default()
            },
        );
        if reply.is(Kind::Done) {
            state.slots.put(raw, conn);
            shared.unlock(state);
        } else {
            state.slots.close(raw);
            shared.close_taken(state, conn);
        }
    }
}

impl<M: Manager> Drop for Place<'_, M> {
    fn drop(&mut self) {
        let now = self.0.now();
        let mut state = self.0.lock();
        state.step(
            Step::MinimumFailed,
            Told {
                now,
                ..Told::default()
            },
        );
        self.0.unlock(state);
    }
}
