//! A ticket that waits in the line, and how its caller is told what became of it.

use crate::core::Reply;
use std::hint::spin_loop;
use std::sync::atomic::{AtomicBool, Ordering};
use std::sync::{Mutex, PoisonError};
use std::task::Waker;
use std::thread::{self, Thread};
use std::time::Duration;

/// Who is to be woken.
pub(crate) enum Wake {
    Thread(Thread),
    Task(Waker),
}

impl Wake {
    pub(crate) fn this_thread() -> Wake {
        Wake::Thread(thread::current())
    }
}

/// An answer of the pool's, with the connection that it names.
pub(crate) type Given<C> = (Reply, Option<C>);

struct Inside<C> {
    given: Option<Given<C>>,
    // Nobody, once it was woken.
    wake: Option<Wake>,
}

/// A ticket that waits. Whoever moves the line makes the first step of its turn, and leaves here what came of it.
pub(crate) struct Waiter<C> {
    pub(crate) ticket: u64,
    pub(crate) client: u32,
    served: AtomicBool,
    inside: Mutex<Inside<C>>,
}

// How often a thread looks whether it was served before it sleeps.
const LOOKS: u32 = 100;

impl<C> Waiter<C> {
    pub(crate) fn new(ticket: u64, client: u32, wake: Wake) -> Self {
        Waiter {
            ticket,
            client,
            served: AtomicBool::new(false),
            inside: Mutex::new(Inside {
                given: None,
                wake: Some(wake),
            }),
        }
    }

    // Nothing panics while this lock is held.
    fn inside(&self) -> std::sync::MutexGuard<'_, Inside<C>> {
        self.inside.lock().unwrap_or_else(PoisonError::into_inner)
    }

    /// Leaves what came of the ticket's turn. Its caller is to be woken by `wake`.
    pub(crate) fn serve(&self, given: Given<C>) {
        self.inside().given = Some(given);
        self.served.store(true, Ordering::Release);
    }

    /// Wakes the caller, with no lock held: a waker may do anything.
    pub(crate) fn wake(&self) {
        let wake = self.inside().wake.take();
        match wake {
            Some(Wake::Thread(thread)) => thread.unpark(),
            Some(Wake::Task(waker)) => waker.wake(),
            None => {}
        }
    }

    /// Takes what came of the ticket's turn, if it came.
    pub(crate) fn take(&self) -> Option<Given<C>> {
        if !self.served.load(Ordering::Acquire) {
            return None;
        }
        self.inside().given.take()
    }

    /// From now on this one is to be woken.
    pub(crate) fn wakes(&self, waker: &Waker) {
        let mut inside = self.inside();
        if matches!(&inside.wake, Some(Wake::Task(old)) if old.will_wake(waker)) {
            return;
        }
        let old = inside.wake.replace(Wake::Task(waker.clone()));
        drop(inside);
        drop(old);
    }

    /// Sleeps until the ticket is served or the time is up, or for no reason.
    pub(crate) fn sleep(&self, time: Duration) {
        for _ in 0..LOOKS {
            if self.served.load(Ordering::Relaxed) {
                return;
            }
            spin_loop();
        }
        thread::park_timeout(time);
    }
}
