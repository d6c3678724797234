//! A caller's turn: from its ticket to a connection or an error. Threads and futures go through the same stages.

use crate::core::{Kind, Reply, Step, Told};
use crate::pool::Pool;
use crate::shared::{Locked, Opening};
use crate::waiter::{Given, Waiter, Wake};
use crate::{Error, Manager, PooledConnection};
use std::mem::replace;
use std::sync::Arc;

/// How a turn ends.
pub(crate) type Got<M> = Result<PooledConnection<M>, Error<<M as Manager>::Error>>;

// How far a ticket has come.
enum Stage<C> {
    // It stands in the line.
    Waits(Arc<Waiter<C>>),
    // The pool answered this to a step.
    Answered(Given<C>),
    // The next try of a connect is due then.
    BacksOff(u64),
    // This connection is looked at.
    Tests(Reply),
    // A connection is opened.
    Connects,
    // It has ended.
    Ended,
}

pub(crate) struct Turn<M: Manager> {
    pool: Pool<M>,
    client: u32,
    ticket: u64,
    until: u64,
    stage: Stage<M::Connection>,
    // Why the last connect was refused.
    last: Option<M::Error>,
}

/// What a look at a turn came to.
pub(crate) enum Look<M: Manager> {
    Ended(Got<M>),
    Waits,
    /// It tries again then.
    BacksOff(u64),
}

impl<M: Manager> Turn<M> {
    /// Asks for a ticket, which stands at the end of the line then.
    pub(crate) fn ask(
        pool: &Pool<M>,
        mut state: Locked<'_, M>,
        wake: impl FnOnce() -> Wake,
    ) -> Result<Self, Error<M::Error>> {
        let shared = &pool.0;
        let (client, now) = (state.client(), shared.now());
        let asked = state.step(
            Step::Ask,
            Told {
                client,
                now,
                ..Told::default()
            },
        );
        match asked.kind() {
            Kind::Done => {}
            Kind::Closed => return Err(Error::Closed),
            Kind::Exhausted => return Err(Error::Exhausted),
            _ => return Err(Error::OutOfMemory),
        }
        let ticket = asked.id;
        let stage = if state.is_entitled(ticket) {
            Stage::Answered(state.start(client, ticket, now))
        } else {
            let waiter = Arc::new(Waiter::new(ticket, client, wake()));
            state.joins(&waiter);
            Stage::Waits(waiter)
        };
        shared.unlock(state);
        Ok(Turn {
            pool: pool.clone(),
            client,
            ticket,
            until: now.saturating_add(shared.setup.limits.timeout),
            stage,
            last: None,
        })
    }

    fn told(&self, conn: u64, raw: u64, now: u64) -> Told {
        Told {
            client: self.client,
            ticket: self.ticket,
            conn,
            raw,
            now,
        }
    }

    /// When it is to be looked at again, though nobody wakes it.
    pub(crate) fn due(&self) -> u64 {
        match self.stage {
            Stage::BacksOff(until) => until.min(self.until),
            _ => self.until,
        }
    }

    /// The ticket, while it stands in the line.
    pub(crate) fn waiter(&self) -> Option<&Waiter<M::Connection>> {
        match &self.stage {
            Stage::Waits(waiter) => Some(waiter),
            _ => None,
        }
    }

    /// Goes on as far as it goes without waiting.
    pub(crate) fn look(&mut self, wake: impl Fn() -> Wake) -> Look<M> {
        loop {
            match replace(&mut self.stage, Stage::Ended) {
                Stage::Waits(waiter) => match waiter.take() {
                    Some(given) => self.stage = Stage::Answered(given),
                    None if self.pool.0.now() < self.until => {
                        self.stage = Stage::Waits(waiter);
                        return Look::Waits;
                    }
                    None => self.start(Some(waiter), &wake),
                },
                Stage::BacksOff(until) => {
                    self.stage = Stage::BacksOff(until);
                    if self.pool.0.now() < self.due() {
                        return Look::BacksOff(self.due());
                    }
                    self.start(None, &wake);
                }
                Stage::Answered(given) => {
                    if let Some(got) = self.hear(given) {
                        return Look::Ended(got);
                    }
                }
                Stage::Connects => self.connect(),
                Stage::Tests(_) | Stage::Ended => return Look::Ended(Err(Error::Closed)),
            }
        }
    }

    // The start of a poll of one's own, unless somebody else made it meanwhile.
    fn start(&mut self, waiter: Option<Arc<Waiter<M::Connection>>>, wake: &dyn Fn() -> Wake) {
        let pool = self.pool.clone();
        let now = pool.0.now();
        let mut state = pool.0.lock();
        let (client, ticket) = (self.client, self.ticket);
        let given = match waiter.and_then(|waiter| waiter.take()) {
            Some(given) => given,
            None => {
                state.leaves(ticket);
                state.start(client, ticket, now)
            }
        };
        self.stage = if given.0.is(Kind::Waiting) {
            let waiter = Arc::new(Waiter::new(ticket, client, wake()));
            state.joins(&waiter);
            Stage::Waits(waiter)
        } else {
            Stage::Answered(given)
        };
        pool.0.unlock(state);
    }

    // What the pool answered: how the turn ends, if it does.
    fn hear(&mut self, (reply, conn): Given<M::Connection>) -> Option<Got<M>> {
        match (reply.kind(), conn) {
            (Kind::Ready, Some(conn)) => {
                return Some(Ok(PooledConnection::new(
                    self.pool.clone(),
                    self.client,
                    reply,
                    conn,
                )));
            }
            (Kind::Test, Some(conn)) => self.test(reply, conn),
            (Kind::Connect, _) => self.stage = Stage::Connects,
            (Kind::Backoff, _) => self.stage = Stage::BacksOff(reply.when),
            // It is polled again at once, and stands in the line then.
            (Kind::Waiting, _) => self.stage = Stage::BacksOff(0),
            (Kind::TimedOut, _) => return Some(Err(Error::TimedOut(self.last.take()))),
            (Kind::Exhausted, _) => return Some(Err(Error::Exhausted)),
            // Only the last try of a connect ends a ticket so.
            (Kind::Done, _) => return self.last.take().map(|why| Err(Error::Refused(why))),
            _ => return Some(Err(Error::Closed)),
        }
        None
    }

    // Looks at an idle connection. One that isn't lent is closed before the pool hears of it.
    fn test(&mut self, idle: Reply, mut conn: M::Connection) {
        self.stage = Stage::Tests(idle);
        let pool = self.pool.clone();
        let passes = pool.0.passes(&mut conn, &idle, pool.0.now());
        let (step, kept) = if passes {
            (Step::TestAccepted, Some(conn))
        } else {
            drop(conn);
            (Step::TestRefused, None)
        };
        let mut state = pool.0.lock();
        let reply = state.step(step, self.told(idle.id, idle.raw, 0));
        let conn = if reply.is(Kind::Ready) {
            kept
        } else {
            state.slots.close(idle.raw);
            kept.or_else(|| state.take_for(&reply))
        };
        pool.0.unlock(state);
        self.stage = Stage::Answered((reply, conn));
    }

    // Opens a connection, and tells what came of it.
    fn connect(&mut self) {
        self.stage = Stage::Connects;
        let pool = self.pool.clone();
        let (step, conn, why) = match pool.0.open() {
            Opening::Opened(conn) => (Step::Opened, Some(conn), None),
            Opening::Rejected(why) => (Step::Rejected, None, Some(why)),
            Opening::Transient(why) => (Step::Transient, None, Some(why)),
            Opening::Fatal(why) => (Step::Fatal, None, Some(why)),
        };
        if why.is_some() {
            self.last = why;
        }
        let now = pool.0.now();
        let mut state = pool.0.lock();
        let raw = if conn.is_some() {
            state.slots.open()
        } else {
            0
        };
        let reply = state.step(step, self.told(0, raw, now));
        if conn.is_some() && !reply.is(Kind::Ready) {
            state.slots.close(raw);
        }
        pool.0.unlock(state);
        self.stage = Stage::Answered((reply, conn));
    }

    // One step to the end of a turn that is given up.
    fn give_up(&mut self, stage: Stage<M::Connection>) -> Stage<M::Connection> {
        let pool = self.pool.clone();
        let now = pool.0.now();
        let mut state = pool.0.lock();
        let next = match stage {
            Stage::Waits(waiter) => match waiter.take() {
                Some(given) => Stage::Answered(given),
                None => {
                    state.leaves(self.ticket);
                    Stage::BacksOff(now)
                }
            },
            Stage::Answered((reply, conn)) => {
                drop(state);
                return self.give_back(reply, conn);
            }
            Stage::BacksOff(_) => {
                state.step(Step::Cancel, self.told(0, 0, now));
                Stage::Ended
            }
            Stage::Tests(idle) => {
                state.slots.close(idle.raw);
                let reply = state.step(Step::TestRefused, self.told(idle.id, 0, 0));
                let conn = state.take_for(&reply);
                Stage::Answered((reply, conn))
            }
            Stage::Connects => {
                state.step(Step::Fatal, self.told(0, 0, now));
                Stage::Ended
            }
            Stage::Ended => Stage::Ended,
        };
        pool.0.unlock(state);
        next
    }

    // What the pool answered a turn that is given up goes back.
    fn give_back(&mut self, reply: Reply, conn: Option<M::Connection>) -> Stage<M::Connection> {
        match (reply.kind(), conn) {
            (Kind::Ready, Some(conn)) => {
                drop(PooledConnection::new(
                    self.pool.clone(),
                    self.client,
                    reply,
                    conn,
                ));
                Stage::Ended
            }
            (Kind::Test, Some(conn)) => {
                let pool = self.pool.clone();
                let mut state = pool.0.lock();
                let after = state.step(Step::TestAccepted, self.told(reply.id, reply.raw, 0));
                if !after.is(Kind::Ready) {
                    state.slots.close(reply.raw);
                }
                pool.0.unlock(state);
                Stage::Answered((after, Some(conn)))
            }
            (Kind::Connect, _) => Stage::Connects,
            (Kind::Backoff, _) => Stage::BacksOff(reply.when),
            _ => Stage::Ended,
        }
    }
}

// A turn that is given up, or that a panic of the manager or of a hook left, ends here.
impl<M: Manager> Drop for Turn<M> {
    fn drop(&mut self) {
        let mut stage = replace(&mut self.stage, Stage::Ended);
        while !matches!(stage, Stage::Ended) {
            stage = self.give_up(stage);
        }
    }
}
