//! Waiting for a connection in a future, on any runtime.

use crate::pool::Pool;
use crate::turn::{Got, Look, Turn};
use crate::waiter::Wake;
use crate::{Error, Manager};
use std::fmt;
use std::future::Future;
use std::pin::Pin;
use std::task::{Context, Poll};
use std::thread;
use std::time::Instant;

/// A connection to come: see [`Pool::get_async`].
#[must_use = "a future does nothing unless it is polled"]
pub struct GetAsync<M: Manager> {
    pool: Pool<M>,
    turn: Option<Turn<M>>,
    // A thread sleeps until then to wake this future.
    alarm: u64,
    done: bool,
}

impl<M: Manager> GetAsync<M> {
    pub(crate) fn new(pool: Pool<M>) -> Self {
        GetAsync {
            pool,
            turn: None,
            alarm: 0,
            done: false,
        }
    }

    /// When this future times out, or tries a refused connect again: it has to be polled then, though nobody wakes it. None
    /// before it was polled first.
    pub fn wake_at(&self) -> Option<Instant> {
        self.pool.0.instant(self.turn.as_ref()?.due())
    }

    // A refused connect is tried again at this moment. At most as many tickets do as the pool has connections.
    fn wake_then(&mut self, until: u64, context: &Context<'_>) {
        if self.alarm == until {
            return;
        }
        self.alarm = until;
        let waker = context.waker().clone();
        let Some(then) = self.pool.0.instant(until) else {
            return;
        };
        let wakes = move || {
            thread::sleep(then.saturating_duration_since(Instant::now()));
            waker.wake();
        };
        if thread::Builder::new()
            .name("zangipuk alarm".into())
            .spawn(wakes)
            .is_err()
        {
            context.waker().wake_by_ref();
        }
    }

    fn go_on(&mut self, context: &Context<'_>) -> Poll<Got<M>> {
        let wake = || Wake::Task(context.waker().clone());
        let turn = match &mut self.turn {
            Some(turn) => {
                if let Some(waiter) = turn.waiter() {
                    waiter.wakes(context.waker());
                }
                turn
            }
            None => match self.pool.ask(self.pool.0.lock(), false, wake) {
                Ok(Ok(conn)) => return Poll::Ready(Ok(conn)),
                Ok(Err(turn)) => self.turn.insert(turn),
                Err(error) => return Poll::Ready(Err(error)),
            },
        };
        match turn.look(wake) {
            Look::Ended(got) => Poll::Ready(got),
            Look::Waits => Poll::Pending,
            Look::BacksOff(until) => {
                self.wake_then(until, context);
                Poll::Pending
            }
        }
    }
}

impl<M: Manager> Unpin for GetAsync<M> {}

impl<M: Manager> Future for GetAsync<M> {
    type Output = Got<M>;

    fn poll(mut self: Pin<&mut Self>, context: &mut Context<'_>) -> Poll<Self::Output> {
        if self.done {
            return Poll::Ready(Err(Error::Closed));
        }
        let polled = self.go_on(context);
        if polled.is_ready() {
            self.done = true;
            self.turn = None;
        }
        polled
    }
}

impl<M: Manager> fmt::Debug for GetAsync<M> {
    fn fmt(&self, f: &mut fmt::Formatter<'_>) -> fmt::Result {
        f.debug_struct("GetAsync")
            .field("wake_at", &self.wake_at())
            .finish_non_exhaustive()
    }
}
