//! A thread that reaps and keeps the minimum.

use crate::Manager;
use crate::shared::Shared;
use std::panic::{AssertUnwindSafe, catch_unwind};
use std::sync::{Arc, OnceLock, Weak};
use std::thread::{self, Thread};
use std::time::Duration;

/// Wakes the thread, if there is one.
#[derive(Default)]
pub(crate) struct Bell(OnceLock<Thread>);

impl Bell {
    pub(crate) fn ring(&self) {
        if let Some(thread) = self.0.get() {
            thread.unpark();
        }
    }
}

impl Drop for Bell {
    fn drop(&mut self) {
        self.ring();
    }
}

/// Starts the thread, which ends with the pool. It doesn't keep the pool.
pub(crate) fn start<M: Manager>(shared: &Arc<Shared<M>>, every: Duration) -> std::io::Result<()> {
    let pool = Arc::downgrade(shared);
    let name = thread::Builder::new().name("zangipuk keeper".into());
    let keeper = name.spawn(move || while keep(&pool, every) {})?;
    let _ = shared.keeper.0.set(keeper.thread().clone());
    Ok(())
}

// One round: false where the pool is no more, or closed.
fn keep<M: Manager>(pool: &Weak<Shared<M>>, every: Duration) -> bool {
    thread::park_timeout(every);
    let Some(shared) = pool.upgrade() else {
        return false;
    };
    // A panic of the manager or of a hook ends this round only.
    let _ = catch_unwind(AssertUnwindSafe(|| {
        shared.reap();
        let _ = shared.keep_minimum();
    }));
    !shared.is_shut()
}
