//! A database that counts: how many connections are open, who has each, which have a transaction open.
#![allow(dead_code)]

use std::fmt;
use std::sync::Arc;
use std::sync::atomic::{AtomicBool, AtomicU32, AtomicU64, Ordering::SeqCst};
use std::time::Duration;
use zangipuk::{Builder, Manager, Pool};

#[derive(Debug, PartialEq, Eq)]
pub(crate) struct Refused;

impl fmt::Display for Refused {
    fn fmt(&self, f: &mut fmt::Formatter<'_>) -> fmt::Result {
        f.write_str("refused")
    }
}

impl std::error::Error for Refused {}

#[derive(Default)]
pub(crate) struct Counts {
    pub(crate) open: AtomicU32,
    pub(crate) most: AtomicU32,
    pub(crate) made: AtomicU64,
    pub(crate) refuses: AtomicBool,
    pub(crate) refuses_for_good: AtomicBool,
    pub(crate) panics: AtomicBool,
    pub(crate) fails_test: AtomicBool,
    pub(crate) rolls_back: AtomicBool,
    // One in so many calls is refused, and a close takes its time; 0: none.
    pub(crate) fails: AtomicU32,
    seed: AtomicU64,
}

impl Counts {
    /// True one time in `fails`.
    pub(crate) fn chance(&self) -> bool {
        let fails = u64::from(self.fails.load(SeqCst));
        let mut next = self.seed.fetch_add(0x9E37_79B9_7F4A_7C15, SeqCst);
        next = (next ^ (next >> 30)).wrapping_mul(0xBF58_476D_1CE4_E5B9);
        next = (next ^ (next >> 27)).wrapping_mul(0x94D0_49BB_1331_11EB);
        fails > 0 && (next ^ (next >> 31)) % fails == 0
    }
}

pub(crate) struct Conn {
    pub(crate) number: u64,
    counts: Arc<Counts>,
    pub(crate) in_use: AtomicBool,
    pub(crate) broken: bool,
    pub(crate) in_transaction: bool,
    pub(crate) slow_close: bool,
}

impl Conn {
    /// Has the connection for a moment: panics where somebody else has it.
    pub(crate) fn have(&self) {
        assert!(!self.in_use.swap(true, SeqCst), "two owners");
        assert!(self.in_use.swap(false, SeqCst), "two owners");
    }
}

impl Drop for Conn {
    fn drop(&mut self) {
        assert!(!self.in_use.load(SeqCst), "closed in use");
        if self.slow_close {
            std::thread::sleep(Duration::from_millis(2));
        }
        self.counts.open.fetch_sub(1, SeqCst);
    }
}

#[derive(Clone, Default)]
pub(crate) struct Opens(pub Arc<Counts>);

impl Manager for Opens {
    type Connection = Conn;
    type Error = Refused;

    fn connect(&self) -> Result<Conn, Refused> {
        let counts = &self.0;
        assert!(!counts.panics.load(SeqCst), "connect panics");
        if counts.refuses.load(SeqCst) || counts.chance() {
            return Err(Refused);
        }
        let open = counts.open.fetch_add(1, SeqCst) + 1;
        counts.most.fetch_max(open, SeqCst);
        Ok(Conn {
            number: counts.made.fetch_add(1, SeqCst),
            counts: counts.clone(),
            in_use: AtomicBool::new(false),
            broken: false,
            in_transaction: false,
            slow_close: counts.fails.load(SeqCst) > 0 && counts.chance(),
        })
    }

    fn is_valid(&self, conn: &mut Conn) -> Result<(), Refused> {
        assert!(!self.0.panics.load(SeqCst), "is_valid panics");
        assert!(!conn.in_transaction, "a transaction reached the next user");
        conn.have();
        if conn.broken || self.0.fails_test.load(SeqCst) || self.0.chance() {
            Err(Refused)
        } else {
            Ok(())
        }
    }

    fn is_in_transaction(&self, conn: &mut Conn) -> bool {
        conn.in_transaction
    }

    fn roll_back(&self, conn: &mut Conn) {
        conn.in_transaction = !self.0.rolls_back.load(SeqCst);
    }

    fn has_broken(&self, conn: &mut Conn) -> bool {
        assert!(!self.0.panics.load(SeqCst), "has_broken panics");
        conn.have();
        conn.broken
    }

    fn is_transient(&self, _: &Refused) -> bool {
        !self.0.refuses_for_good.load(SeqCst)
    }
}

impl Opens {
    pub(crate) fn open(&self) -> u32 {
        self.0.open.load(SeqCst)
    }

    pub(crate) fn most(&self) -> u32 {
        self.0.most.load(SeqCst)
    }
}

pub(crate) fn builder() -> Builder<Opens> {
    Pool::builder().acquire_timeout(Duration::from_secs(20))
}

/// The log is fair, and at its end nothing is out.
pub(crate) fn ends_fairly(pool: &Pool<Opens>, opens: &Opens) {
    let stats = pool.stats();
    assert_eq!((stats.held, stats.tickets, stats.leaked), (0, 0, 0));
    assert_eq!(stats.size, u64::from(opens.open()));
    assert_eq!(stats.size, stats.idle);
    assert!(
        opens.most() <= pool.max(),
        "{} above the maximum",
        opens.most()
    );
    if let Some(log) = pool.log() {
        assert_eq!(zangipuk::audit(pool.max(), &log), Ok(()));
    }
}
