//! Transactions over shared objects.
//!
//! A [`Store`] holds typed objects: variables, counters, arrays, tables, trees and vectors. Any thread runs transactions on them by
//! [`Store::atomically`]: what a transaction does takes effect as a whole, in one order of all transactions, or not at all.
//!
//! ```
//! use sto::Store;
//!
//! let mut objects = Store::builder();
//! let (alice, bob) = (objects.var(100i64), objects.var(0i64));
//! let moves = objects.counter(0);
//! let store = objects.open()?;
//!
//! std::thread::scope(|threads| {
//!     for _ in 0..4 {
//!         let store = &store;
//!         threads.spawn(move || {
//!             for _ in 0..10 {
//!                 store.atomically(|tx| {
//!                     alice.update(tx, |x| x - 1)?;
//!                     bob.update(tx, |x| x + 1)?;
//!                     moves.add(tx, 1)
//!                 })
//!                 .unwrap();
//!             }
//!         });
//!     }
//! });
//! let rows = store.try_close()?;
//! assert_eq!((rows.var(alice), rows.var(bob), rows.counter(moves)), (Some(60), Some(40), Some(40)));
//! # Ok::<(), Box<dyn std::error::Error>>(())
//! ```
//!
//! # Stops
//!
//! A call within a transaction answers a [`Stop`] where the transaction met another one, or cannot go on. Hand it on by `?`: then
//! the transaction is tried again, or ends by an [`Error`]. Code cannot build a `Stop` or look into one, and where it drops one, the
//! transaction stays stopped: nothing that the code then answers is given out.
//!
//! ```
//! # use sto::{Error, Store};
//! let mut objects = Store::builder();
//! let full = objects.vector::<i64>(1);
//! let store = objects.open()?;
//! let ended = store.atomically(|tx| {
//!     full.push(tx, 1)?;
//!     let _ = full.push(tx, 2); // does not fit, and stops the transaction
//!     Ok("all is well")
//! });
//! assert!(matches!(ended, Err(Error::Full(_))));
//! # Ok::<(), Error>(())
//! ```
//!
//! ```compile_fail
//! let stop = sto::Stop(()); // cannot be built
//! ```
//!
//! # Waiting
//!
//! [`Tx::retry`] gives a try up and waits until some transaction of this store has changed something; then the code runs again.
//!
//! ```
//! # use sto::{Error, Policy, Store};
//! # use std::time::Duration;
//! let mut objects = Store::builder();
//! let queue = objects.vector::<u32>(16);
//! let store = objects.open()?;
//! let taker = store.clone();
//! let taken = std::thread::spawn(move || {
//!     taker.atomically(|tx| match queue.pop(tx)? {
//!         Some(job) => Ok(job),
//!         None => tx.retry(),
//!     })
//! });
//! store.atomically(|tx| queue.push(tx, 7))?;
//! assert_eq!(taken.join().unwrap()?, 7);
//!
//! let soon = Policy::tries(16).then_alone().timeout(Duration::from_millis(5));
//! let ended = store.with(soon).atomically(|tx| tx.retry::<()>());
//! assert!(matches!(ended, Err(Error::Timeout { .. })));
//! # Ok::<(), Error>(())
//! ```
//!
//! Code in a transaction does not wait for a transaction of another thread: that one may have to wait for this one.
//!
//! # Errors of the program's own
//!
//! ```
//! # use sto::{Failed, Halt, Store};
//! #[derive(Debug, PartialEq)]
//! struct TooLittle(i64);
//!
//! let mut objects = Store::builder();
//! let account = objects.var(20i64);
//! let store = objects.open()?;
//! let paid = store.try_atomically(|tx| {
//!     let has = account.get(tx)?;
//!     if has < 30 {
//!         return Err(Halt::because(TooLittle(has)));
//!     }
//!     Ok(account.set(tx, has - 30)?)
//! });
//! assert_eq!(paid, Err(Failed::Gave(TooLittle(20))));
//! # Ok::<(), sto::Error>(())
//! ```
#![warn(missing_debug_implementations)]

mod builder;
mod error;
mod inner;
mod objects;
mod raw;
mod run;
mod store;

include!(concat!(env!("OUT_DIR"), "/library.rs"));

pub use builder::Builder;
pub use error::{Error, Failed, Halt, Object, Status, Stop};
pub use objects::{Array, Counter, Key, NoRoom, TVar, Table, Taken, Tree, Vector, Word};
pub use run::{Policy, Tx};
pub use store::{NotClosed, Rows, Stats, Store, WhyOpen, With};

use std::ffi::CStr;

/// What a program stands on.
#[derive(Clone, Copy, PartialEq, Eq, Debug)]
pub enum Build {
    /// The archive that the prover made.
    Proved,
    /// The same sources without their contracts, as rustc compiled them. Nothing is proved of such a build.
    Plain,
}

/// What this program stands on.
pub fn build() -> Build {
    if unsafe { CStr::from_ptr(raw::sto_build()) }.to_bytes() == b"proved" {
        Build::Proved
    } else {
        Build::Plain
    }
}

/// The sum of the sources of the library that this program stands on, as `.ci/sources sto_c` prints it.
pub fn sources() -> &'static str {
    unsafe { CStr::from_ptr(raw::sto_sources()) }.to_str().unwrap_or("unknown")
}

/// The version of that library: 102 is 0.1.2, 10203 is 1.2.3.
pub fn library_version() -> u32 {
    unsafe { raw::sto_version() }
}

#[doc = include_str!("../README.md")]
#[cfg(doctest)]
struct Readme;

#[doc = include_str!("../../../docs/rust.md")]
#[cfg(doctest)]
struct Guide;
