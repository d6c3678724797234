//! A connection pool whose rules are proved.
//!
//! A program that talks to a database from several threads keeps a few connections open and lends them. This pool lends
//! each to one owner at a time, never has more than its maximum open, and serves callers in the order in which they asked;
//! that it does is proved, of the code that decides it. That code is Rattle's `PoolCore`, linked as a static library; this
//! crate keeps the connections, the lock, the clock and the sleep.
//!
//! A [`Manager`] says how connections are opened and looked at:
//!
//! ```
//! use zangipuk::{Manager, Pool};
//!
//! // A connection is a number here.
//! struct Numbers;
//!
//! impl Manager for Numbers {
//!     type Connection = u32;
//!     type Error = std::io::Error;
//!
//!     fn connect(&self) -> Result<u32, Self::Error> {
//!         Ok(7)
//!     }
//!
//!     fn is_valid(&self, _: &mut u32) -> Result<(), Self::Error> {
//!         Ok(())
//!     }
//!
//!     fn is_in_transaction(&self, _: &mut u32) -> bool {
//!         false
//!     }
//! }
//!
//! let pool = Pool::builder().max(5).min(1).build(Numbers)?;
//! std::thread::scope(|scope| {
//!     for _ in 0..8 {
//!         scope.spawn(|| {
//!             let number = pool.get().unwrap(); // waits for its turn
//!             assert_eq!(*number, 7);
//!         }); // dropped, the connection goes back
//!     }
//! });
//! assert!(pool.stats().size <= 5);
//! # Ok::<(), zangipuk::Error<std::io::Error>>(())
//! ```
//!
//! # What is proved, and what is trusted
//!
//! Proved, for whatever calls a program makes, in whatever order and with whatever numbers: each step of the pool answers by
//! its table, the log of its steps goes on fairly (one owner, the maximum, turns in the order of asking), and a waiting ticket
//! is entitled exactly where its number is below the edge that the step tells. Where the pool keeps a log, [`Pool::log`] is the
//! one that is proved, and [`audit`] reads such a log without the pool's help.
//!
//! Trusted: this crate. That it makes each step under one lock, wakes those that a step entitled, reads the clock, hands over the
//! connection that a step named, and closes one before its place is free. It is tested, and its `unsafe` is in `core.rs`. And
//! the manager's word: no transaction goes to the next user where [`is_in_transaction`](Manager::is_in_transaction) tells it.

mod audit;
mod builder;
mod core;
mod error;
mod future;
mod guard;
mod hooks;
mod keeper;
mod log;
mod manager;
mod pool;
mod shared;
mod slots;
mod state;
mod turn;
mod waiter;

pub use audit::{Unfair, audit};
pub use builder::Builder;
pub use error::Error;
pub use future::GetAsync;
pub use guard::PooledConnection;
pub use hooks::Metadata;
pub use log::Mark;
pub use manager::Manager;
pub use pool::{Pool, Stats};
