//! The pool.

use crate::builder::Builder;
use crate::core::{Core, Kind, Step, Told};
use crate::future::GetAsync;
use crate::log::Mark;
use crate::shared::{Locked, Setup, Shared};
use crate::state::State;
use crate::turn::{Look, Turn};
use crate::waiter::Wake;
use crate::{Error, Manager, PooledConnection};
use std::fmt;
use std::sync::Arc;
use std::thread;
use std::time::Duration;

/// A connection, or a turn that goes on.
pub(crate) type Begun<M> =
    Result<Result<PooledConnection<M>, Turn<M>>, Error<<M as Manager>::Error>>;

/// A pool; clones are handles on the same one.
pub struct Pool<M: Manager>(pub(crate) Arc<Shared<M>>);

impl<M: Manager> Clone for Pool<M> {
    fn clone(&self) -> Self {
        Pool(self.0.clone())
    }
}

/// The counts of a pool, of one moment.
#[derive(Clone, Copy, Debug, PartialEq, Eq)]
#[non_exhaustive]
pub struct Stats {
    /// How many connections there are or are being opened, leaked ones among them: never more than the maximum.
    pub size: u64,
    /// How many are idle.
    pub idle: u64,
    /// How many are lent.
    pub held: u64,
    /// How many were leaked.
    pub leaked: u64,
    /// How many calls ask for one.
    pub tickets: u64,
}

impl<M: Manager> Pool<M> {
    /// How a pool is set up.
    pub fn builder() -> Builder<M> {
        Builder::default()
    }

    pub(crate) fn new(manager: M, core: Core, setup: Setup<M>) -> Self {
        let looks = setup.test || setup.hooks.before_acquire.is_some();
        let state = State::new(core, looks);
        Pool(Arc::new(Shared::new(manager, setup, state)))
    }

    /// Waits for a connection: turns come in the order of asking. A call that finds none looks for some microseconds whether
    /// one comes back, and asks then.
    #[inline]
    pub fn get(&self) -> Result<PooledConnection<M>, Error<M::Error>> {
        let mut state = self.0.lock();
        match self.lend_now(&mut state) {
            Some(conn) => {
                self.0.unlock(state);
                Ok(conn)
            }
            None => self.get_later(state),
        }
    }

    #[cold]
    #[inline(never)]
    fn get_later(&self, state: Locked<'_, M>) -> Result<PooledConnection<M>, Error<M::Error>> {
        match self.ask(state, true, Wake::this_thread)? {
            Ok(conn) => Ok(conn),
            Err(turn) => self.wait(turn),
        }
    }

    // A thread's turn, to its end.
    fn wait(&self, mut turn: Turn<M>) -> Result<PooledConnection<M>, Error<M::Error>> {
        loop {
            match turn.look(Wake::this_thread) {
                Look::Ended(got) => return got,
                Look::Waits => {
                    if let Some(waiter) = turn.waiter() {
                        waiter.sleep(self.left(turn.due()));
                    }
                }
                Look::BacksOff(until) => thread::park_timeout(self.left(until)),
            }
        }
    }

    fn left(&self, until: u64) -> Duration {
        Duration::from_nanos(until.saturating_sub(self.0.now()))
    }

    // The first idle connection, where nobody waits and nobody wants to look at it.
    #[inline]
    fn lend_now(&self, state: &mut Locked<'_, M>) -> Option<PooledConnection<M>> {
        if !state.lends_at_once() {
            return None;
        }
        let client = state.client();
        // A moment before the last one counts as the last one; whoever is served at once needs no deadline.
        let reply = state.step(
            Step::ServeNew,
            Told {
                client,
                ..Told::default()
            },
        );
        if !reply.is(Kind::Ready) {
            return None;
        }
        let conn = state.slots.take(reply.raw);
        Some(PooledConnection::new(self.clone(), client, reply, conn))
    }

    /// A connection that is there, or comes back in a little while if that is waited for; or a ticket.
    pub(crate) fn ask<'a>(
        &'a self,
        mut state: Locked<'a, M>,
        waits: bool,
        wake: impl FnOnce() -> Wake,
    ) -> Begun<M> {
        let mut until = None;
        loop {
            if let Some(conn) = self.lend_now(&mut state) {
                self.0.unlock(state);
                if until.is_some() {
                    self.0.pays(true);
                }
                return Ok(Ok(conn));
            }
            if !waits || !state.is_full(self.max()) {
                break;
            }
            drop(state);
            let until = *until.get_or_insert_with(|| self.0.now() + self.0.patience());
            let came = self.0.look(until);
            state = self.0.lock();
            if !came {
                self.0.pays(false);
                break;
            }
        }
        Turn::ask(self, state, wake).map(Err)
    }

    /// Waits for a connection in a future, which asks when it is polled first, in whichever runtime. Dropped, it gives its
    /// turn up.
    ///
    /// It is woken when its turn comes. Connects, tests and hooks run where it is polled, and block there; the time is looked
    /// at where it is polled too, so a deadline that is to be kept to the moment takes the runtime's timer
    /// ([`GetAsync::wake_at`]).
    ///
    /// ```
    /// # use zangipuk::{Manager, Pool};
    /// # struct Numbers;
    /// # impl Manager for Numbers {
    /// #     type Connection = u32;
    /// #     type Error = std::convert::Infallible;
    /// #     fn connect(&self) -> Result<u32, Self::Error> { Ok(7) }
    /// #     fn is_valid(&self, _: &mut u32) -> Result<(), Self::Error> { Ok(()) }
    /// #     fn is_in_transaction(&self, _: &mut u32) -> bool { false }
    /// # }
    /// # fn block_on<F: Future>(future: F) -> F::Output {
    /// #     let mut future = std::pin::pin!(future);
    /// #     let mut context = std::task::Context::from_waker(std::task::Waker::noop());
    /// #     loop {
    /// #         if let std::task::Poll::Ready(done) = future.as_mut().poll(&mut context) { return done; }
    /// #     }
    /// # }
    /// async fn number(pool: &Pool<Numbers>) -> u32 {
    ///     *pool.get_async().await.unwrap()
    /// }
    ///
    /// let pool = Pool::builder().max(1).build(Numbers).unwrap();
    /// assert_eq!(block_on(number(&pool)), 7);
    /// ```
    pub fn get_async(&self) -> GetAsync<M> {
        GetAsync::new(self.clone())
    }

    /// The first idle connection, without a test, where fewer callers wait than connections may be lent; else nothing.
    pub fn try_get(&self) -> Option<PooledConnection<M>> {
        let now = self.0.now();
        let mut state = self.0.lock();
        let client = state.client();
        let reply = state.step(
            Step::TryAcquire,
            Told {
                client,
                now,
                ..Told::default()
            },
        );
        let conn = state.take_for(&reply);
        self.0.unlock(state);
        Some(PooledConnection::new(self.clone(), client, reply, conn?))
    }

    /// Closes the pool: from now on nobody gets a connection, who waits is told so, the idle connections are closed, and each
    /// that comes back is.
    pub fn close(&self) {
        let now = self.0.now();
        let mut state = self.0.lock();
        let mut left = Vec::new();
        let mut reply = state.step(Step::Close, Told::default());
        while let Some(conn) = state.take_for(&reply) {
            state.slots.close(reply.raw);
            left.push(conn);
            reply = state.step(Step::NextLeft, Told::default());
        }
        let served = state.serve_all(now);
        self.0.unlock(state);
        for waiter in served {
            waiter.wake();
        }
        self.0.keeper.ring();
    }

    /// Whether the pool was closed, and nothing of it is out.
    pub fn is_closed(&self) -> bool {
        self.0.lock().step(Step::Closing, Told::default()).id == 2
    }

    /// Closes the idle connections that are too old or idle for too long, and then opens those that the minimum wants. How
    /// many it closed; a refused connect ends the opening, and is forgotten.
    pub fn reap(&self) -> usize {
        let reaped = self.0.reap();
        let _ = self.0.keep_minimum();
        reaped
    }

    /// Opens connections until the minimum is there, or one is refused: the refusal is the answer.
    pub fn keep_minimum(&self) -> Result<(), M::Error> {
        self.0.keep_minimum()
    }

    /// All that the pool did, where it keeps a log. These marks are the proved pool's own: it is proved that it stands for
    /// them, and that they are fair. [`audit`](crate::audit) reads them once more.
    pub fn log(&self) -> Option<Vec<Mark>> {
        let mut state = self.0.lock();
        let length = state.step(Step::LogLength, Told::default());
        if !length.is(Kind::Done) {
            return None;
        }
        let mut mark = |ticket| {
            Mark::of(&state.step(
                Step::MarkAt,
                Told {
                    ticket,
                    ..Told::default()
                },
            ))
        };
        (0..length.id).map(&mut mark).collect()
    }

    /// The counts, of one moment.
    pub fn stats(&self) -> Stats {
        let mut state = self.0.lock();
        let mut count = |step| state.step(step, Told::default()).id;
        Stats {
            size: count(Step::Size),
            idle: count(Step::NumIdle),
            held: count(Step::NumHeld),
            leaked: count(Step::NumLeaked),
            tickets: count(Step::NumTickets),
        }
    }

    /// How many connections there are at most.
    pub fn max(&self) -> u32 {
        self.0.setup.limits.max
    }
}

impl<M: Manager> fmt::Debug for Pool<M> {
    fn fmt(&self, f: &mut fmt::Formatter<'_>) -> fmt::Result {
        f.debug_struct("Pool")
            .field("max", &self.max())
            .field("stats", &self.stats())
            .finish()
    }
}
