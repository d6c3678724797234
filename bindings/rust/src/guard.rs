//! A connection that is lent.

use crate::Manager;
use crate::core::{Kind, Reply, Step, Told};
use crate::pool::Pool;
use std::fmt;
use std::ops::{Deref, DerefMut};

/// A connection that is lent; dropped, it goes back.
///
/// One that is broken, too old, in a transaction that can't be rolled back, refused by the hook `after_release`, or dropped
/// by a panic isn't kept: it is closed, and only then is its place free.
pub struct PooledConnection<M: Manager> {
    conn: Option<M::Connection>,
    pool: Pool<M>,
    client: u32,
    id: u64,
    token: u64,
    created: u64,
}

impl<M: Manager> PooledConnection<M> {
    #[inline]
    pub(crate) fn new(pool: Pool<M>, client: u32, reply: Reply, conn: M::Connection) -> Self {
        PooledConnection {
            conn: Some(conn),
            pool,
            client,
            id: reply.id,
            token: reply.raw,
            created: reply.created,
        }
    }

    /// The pool's number of the connection, by which the log names it; no other connection ever has it.
    pub fn id(&self) -> u64 {
        self.id
    }

    /// The number by which the log names this loan's client.
    pub fn client(&self) -> u32 {
        self.client
    }

    /// The pool that lent it.
    pub fn pool(&self) -> &Pool<M> {
        &self.pool
    }

    // The pool is told that the loan ended, and keeps no connection of it.
    fn end(&self, step: Step) {
        let shared = &self.pool.0;
        let told = Told {
            client: self.client,
            conn: self.id,
            ..Told::default()
        };
        let mut state = shared.lock();
        state.step(step, told);
        state.slots.close(self.token);
        shared.unlock(state);
    }

    fn leave(mut self, step: Step) -> M::Connection {
        let conn = self.conn.take().expect("a guard has its connection");
        self.end(step);
        conn
    }

    /// Takes the connection out of the pool, whose place is free again.
    pub fn detach(self) -> M::Connection {
        self.leave(Step::Detach)
    }

    /// Takes the connection out of the pool, which keeps its place for good.
    pub fn leak(self) -> M::Connection {
        self.leave(Step::Leak)
    }

    /// Closes the connection instead of giving it back.
    pub fn close(mut self) {
        let conn = self.conn.take();
        let ends = Ends(&self);
        // Named behind `ends`, so that it is dropped before it, by a panic too.
        let conn = conn;
        drop(conn);
        drop(ends);
    }
}

// Ends a loan when it is dropped: behind its connection, though the manager or a hook panics.
struct Ends<'a, M: Manager>(&'a PooledConnection<M>);

impl<M: Manager> Drop for Ends<'_, M> {
    #[cold]
    fn drop(&mut self) {
        self.0.end(Step::End);
        self.0.pool.0.keeper.ring();
    }
}

impl<M: Manager> Drop for PooledConnection<M> {
    fn drop(&mut self) {
        let Some(conn) = self.conn.take() else {
            return;
        };
        let shared = &self.pool.0;
        let ends = Ends(self);
        // Named behind `ends`, so that it is dropped before it, by a panic too.
        let mut conn = conn;
        let now = shared.now();
        if !shared.may_return(&mut conn, self.created, now) {
            return drop(conn);
        }
        std::mem::forget(ends);
        let told = Told {
            client: self.client,
            conn: self.id,
            raw: self.token,
            now,
            ..Told::default()
        };
        let mut state = shared.lock();
        let reply = state.step(Step::Give, told);
        if reply.is(Kind::Done) {
            state.slots.put(self.token, conn);
            shared.unlock(state);
        } else {
            state.slots.close(self.token);
            shared.close_taken(state, conn);
        }
    }
}

impl<M: Manager> Deref for PooledConnection<M> {
    type Target = M::Connection;

    fn deref(&self) -> &M::Connection {
        self.conn.as_ref().expect("a guard has its connection")
    }
}

impl<M: Manager> DerefMut for PooledConnection<M> {
    fn deref_mut(&mut self) -> &mut M::Connection {
        self.conn.as_mut().expect("a guard has its connection")
    }
}

impl<M: Manager> fmt::Debug for PooledConnection<M>
where
    M::Connection: fmt::Debug,
{
    fn fmt(&self, f: &mut fmt::Formatter<'_>) -> fmt::Result {
        f.debug_struct("PooledConnection")
            .field("id", &self.id)
            .field("conn", &self.conn)
            .finish_non_exhaustive()
    }
}
