//! The proved steps, as a type of Rust's. This file has the crate's whole `unsafe`.
#![allow(unsafe_code)]

use std::cell::UnsafeCell;

/// What a step answers: `Reply` of `crates/zangipuk_c/src/reply.rt`, field by field.
#[repr(C)]
#[derive(Clone, Copy, Debug, Default, PartialEq, Eq)]
pub(crate) struct Reply {
    pub kind: u32,
    pub id: u64,
    pub raw: u64,
    pub created: u64,
    pub when: u64,
    pub edge: u64,
}

// The exports of `crates/zangipuk_c/src/exports.rt`. A `Global` there takes no bytes, and isn't passed. No compiler
// compares the two sides: a test below does.
unsafe extern "C" {
    fn zangipuk_room() -> usize;
    fn zangipuk_open(
        room: *mut u8,
        max: u32,
        min: u32,
        timeout: u64,
        lifetime: u64,
        idle: u64,
        log: u32,
    );
    fn zangipuk_step(
        room: *mut u8,
        code: u32,
        client: u32,
        ticket: u64,
        conn: u64,
        raw: u64,
        now: u64,
    ) -> Reply;
}

/// The kinds of a reply, as `reply.rt` has them.
#[derive(Clone, Copy, Debug, PartialEq, Eq)]
#[repr(u32)]
pub(crate) enum Kind {
    NotHeld = 0,
    Closed = 1,
    Close = 2,
    TimedOut = 3,
    Exhausted = 4,
    OutOfMemory = 5,
    Waiting = 6,
    Backoff = 7,
    Test = 8,
    Connect = 9,
    Ready = 10,
    Done = 11,
    None = 12,
}

const KINDS: [Kind; 13] = [
    Kind::NotHeld,
    Kind::Closed,
    Kind::Close,
    Kind::TimedOut,
    Kind::Exhausted,
    Kind::OutOfMemory,
    Kind::Waiting,
    Kind::Backoff,
    Kind::Test,
    Kind::Connect,
    Kind::Ready,
    Kind::Done,
    Kind::None,
];

impl Reply {
    #[inline]
    pub(crate) fn is(&self, kind: Kind) -> bool {
        self.kind == kind as u32
    }

    pub(crate) fn kind(&self) -> Kind {
        KINDS
            .get(self.kind as usize)
            .copied()
            .unwrap_or(Kind::NotHeld)
    }
}

/// The steps, as `told.rt` has them.
#[derive(Clone, Copy, Debug, PartialEq, Eq)]
#[repr(u32)]
pub(crate) enum Step {
    Ask = 1,
    Start = 2,
    TestAccepted = 3,
    TestRefused = 4,
    Opened = 5,
    Rejected = 6,
    Transient = 7,
    Fatal = 8,
    Cancel = 9,
    Give = 10,
    // A connection that isn't to be kept is closed first, and its loan ended then.
    #[allow(dead_code)]
    GiveRefused = 11,
    End = 12,
    Detach = 13,
    Leak = 14,
    ServeNew = 15,
    TryAcquire = 16,
    Reap = 17,
    MinimumPlace = 18,
    MinimumOpened = 19,
    MinimumFailed = 20,
    Close = 21,
    NextLeft = 22,
    Closing = 23,
    Size = 24,
    NumIdle = 25,
    NumHeld = 26,
    NumLeaked = 27,
    NumTickets = 28,
    LogLength = 29,
    MarkAt = 30,
}

// The code by which a pool is let go.
const FREE: u32 = 0;

/// What a step is told; what it doesn't look at is 0.
#[derive(Clone, Copy, Debug, Default, PartialEq, Eq)]
pub(crate) struct Told {
    pub client: u32,
    pub ticket: u64,
    pub conn: u64,
    pub raw: u64,
    pub now: u64,
}

/// What a pool is opened with; durations are nanoseconds, the largest number for none.
#[derive(Clone, Copy, Debug)]
pub(crate) struct Limits {
    pub max: u32,
    pub min: u32,
    pub timeout: u64,
    pub lifetime: u64,
    pub idle: u64,
    pub log: bool,
}

const WORDS: usize = 2;

/// A pool of the proved code's. It lies in this room for good: the room is boxed, and never moves or is read.
pub(crate) struct Core {
    room: Box<UnsafeCell<[u64; WORDS]>>,
}

// SAFETY: what lies in the room is `Held`, of which the proved crate shows that it may cross threads (`sendable` in
// `held.rt`); each step takes the core by `&mut`, so calls on one room never overlap, and are ordered by whatever moves
// the core from thread to thread.
unsafe impl Send for Core {}

impl Core {
    /// None where the maximum is 0 or memory is wanting.
    pub(crate) fn open(limits: Limits) -> Option<Core> {
        let room = Box::new(UnsafeCell::new([0; WORDS]));
        // SAFETY: it takes nothing and reads nothing.
        assert!(unsafe { zangipuk_room() } <= size_of::<[u64; WORDS]>());
        let Limits {
            max,
            min,
            timeout,
            lifetime,
            idle,
            log,
        } = limits;
        // SAFETY: the room is ours alone, aligned to 8 and as large as `zangipuk_room` says, and whatever lies in it may
        // be overwritten. After the call a `Held` lies in it, be it a pool or nothing.
        unsafe {
            zangipuk_open(
                room.get().cast(),
                max,
                min,
                timeout,
                lifetime,
                idle,
                log.into(),
            )
        };
        let mut core = Core { room };
        let lies = core.step(Step::Size, Told::default()).kind() == Kind::Done;
        lies.then_some(core)
    }

    /// Makes a step.
    #[inline]
    pub(crate) fn step(&mut self, step: Step, told: Told) -> Reply {
        self.call(step as u32, told)
    }

    #[inline]
    fn call(&mut self, code: u32, told: Told) -> Reply {
        let Told {
            client,
            ticket,
            conn,
            raw,
            now,
        } = told;
        // SAFETY: a `Held` lies in the room since `open`, each step leaves one there, and `&mut self` keeps others out. No
        // step requires anything of its numbers.
        unsafe { zangipuk_step(self.room.get().cast(), code, client, ticket, conn, raw, now) }
    }
}

impl Drop for Core {
    fn drop(&mut self) {
        // The pool's memory is given back; what lies in the room then owns none.
        self.call(FREE, Told::default());
    }
}

#[cfg(test)]
mod tests;
