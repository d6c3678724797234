//! What is under the lock: the proved pool, its connections, and the tickets that wait.

use crate::core::{Core, Kind, Reply, Step, Told};
use crate::slots::Slots;
use crate::waiter::{Given, Waiter};
use std::collections::VecDeque;
use std::sync::Arc;

pub(crate) struct State<C> {
    core: Core,
    pub(crate) slots: Slots<C>,
    // The tickets that wait in the line, in its order.
    line: VecDeque<Arc<Waiter<C>>>,
    // Behind the ticket that was entitled last, as the last step told.
    edge: u64,
    clients: u32,
    // An idle connection is looked at before it is lent.
    looks: bool,
    /// How many connections left the pool and aren't closed yet.
    pub(crate) closing: u32,
}

impl<C> State<C> {
    pub(crate) fn new(core: Core, looks: bool) -> Self {
        State {
            core,
            slots: Slots::new(),
            line: VecDeque::new(),
            edge: 0,
            clients: 0,
            looks,
            closing: 0,
        }
    }

    /// Makes a step.
    #[inline]
    pub(crate) fn step(&mut self, step: Step, told: Told) -> Reply {
        let reply = self.core.step(step, told);
        self.edge = reply.edge;
        reply
    }

    /// A number for a client: each call that wants a connection is one.
    #[inline]
    pub(crate) fn client(&mut self) -> u32 {
        self.clients = self.clients.wrapping_add(1);
        self.clients
    }

    #[inline]
    pub(crate) fn somebody_waits(&self) -> bool {
        !self.line.is_empty()
    }

    /// Whether a connection is idle that nobody waits for.
    #[inline]
    pub(crate) fn is_vacant(&self) -> bool {
        self.line.is_empty() && self.slots.kept() > 0
    }

    /// Whether all connections are open that there may be, and none is for a new caller.
    #[inline]
    pub(crate) fn is_full(&self, max: u32) -> bool {
        !self.is_vacant() && self.slots.opened() >= max as usize
    }

    /// Whether an idle connection may be there for a new caller, that needs no look.
    #[inline]
    pub(crate) fn lends_at_once(&self) -> bool {
        !self.looks && self.is_vacant()
    }

    /// Takes out the connection that a reply names.
    pub(crate) fn take_for(&mut self, reply: &Reply) -> Option<C> {
        let names = matches!(reply.kind(), Kind::Ready | Kind::Test | Kind::Close);
        names.then(|| self.slots.take(reply.raw))
    }

    /// The start of a ticket's turn. An idle connection that nobody wants to look at is lent at once.
    pub(crate) fn start(&mut self, client: u32, ticket: u64, now: u64) -> Given<C> {
        let told = Told {
            client,
            ticket,
            now,
            ..Told::default()
        };
        let mut reply = self.step(Step::Start, told);
        if reply.is(Kind::Test) && !self.looks {
            let told = Told {
                conn: reply.id,
                raw: reply.raw,
                ..told
            };
            reply = self.step(Step::TestAccepted, told);
        }
        let conn = self.take_for(&reply);
        (reply, conn)
    }

    /// The ticket waits from now on, unless it is entitled already.
    pub(crate) fn joins(&mut self, waiter: &Arc<Waiter<C>>) {
        let at = self
            .line
            .partition_point(|other| other.ticket < waiter.ticket);
        self.line.insert(at, waiter.clone());
    }

    /// Whether the ticket is below the edge: if it waits, it is its turn.
    pub(crate) fn is_entitled(&self, ticket: u64) -> bool {
        ticket < self.edge
    }

    /// The ticket waits no more.
    pub(crate) fn leaves(&mut self, ticket: u64) {
        self.line.retain(|waiter| waiter.ticket != ticket);
    }

    /// Whether somebody waits whose turn it is.
    #[inline]
    pub(crate) fn is_due(&self) -> bool {
        self.line
            .front()
            .is_some_and(|waiter| waiter.ticket < self.edge)
    }

    /// Serves those whose turn it is; they are to be woken.
    pub(crate) fn serve(&mut self, now: u64) -> Vec<Arc<Waiter<C>>> {
        let mut served = Vec::new();
        while self.is_due() {
            let Some(waiter) = self.line.pop_front() else {
                break;
            };
            let given = self.start(waiter.client, waiter.ticket, now);
            waiter.serve(given);
            served.push(waiter);
        }
        served
    }

    /// Serves all that wait, in a pool that was closed.
    pub(crate) fn serve_all(&mut self, now: u64) -> Vec<Arc<Waiter<C>>> {
        let all: Vec<_> = self.line.drain(..).collect();
        for waiter in &all {
            let given = self.start(waiter.client, waiter.ticket, now);
            waiter.serve(given);
        }
        all
    }
}
