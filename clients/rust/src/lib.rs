//! Exclusive locks on names, for transactions, in your own process.
//!
//! A request to lock a name is answered by a proved lock manager: the transaction owns the name, or it waits, or its wait would close a cycle of
//! waits. Such a deadlock is told at once, to the transaction that made the request, and to no other one.
//!
//! - [`Locks`] is for threads that sleep while they wait. [`Locks::run`] runs work again after a deadlock.
//! - [`LockManager`] answers at once and never sleeps, for an event loop.
//!
//! ```
//! use pashkure::{Config, LockError, Locks};
//! use std::time::Duration;
//!
//! let locks = Locks::open(&Config::new(64, 1_000))?; // up to 64 transactions and 1,000 names at a time
//! locks.run(100, |transaction| {
//!     transaction.lock("accounts/1")?; // sleeps until it owns the name
//!     transaction.lock_for("accounts/2", Duration::from_millis(200))?; // or fails as `TimedOut`
//!     Ok::<_, LockError>(())
//! })?;
//! # Ok::<_, Box<dyn std::error::Error>>(())
//! ```
//!
//! The calls are those of `pashkure.h` and `pashkure_threads.h`. What the manager answers is proved; the sleeping and waking is C, and this crate
//! is Rust, and both are tested. The crate has no dependencies, but for `libpashkure.a`: its README says how the build finds that.
#![deny(missing_docs, missing_debug_implementations, unsafe_op_in_unsafe_fn)]

mod error;
mod locks;
mod manager;
mod run;
mod sys;
mod transaction;
mod values;
mod view;
mod wait;

pub use error::{LockAllError, LockError, OpenError, Refusal};
pub use locks::Locks;
pub use manager::{LockManager, Woken};
pub use transaction::Transaction;
pub use values::{Config, Key, Lock, Owned, Seen, Status, Totals, Wait, Wake};
pub use view::View;

const _: () = {
    const fn sends<T: Send>() {}
    const fn shares<T: Sync>() {}
    sends::<Locks>();
    shares::<Locks>();
    sends::<Transaction<&Locks>>();
    sends::<Transaction<std::sync::Arc<Locks>>>();
    sends::<LockManager>();
    sends::<LockError>();
    shares::<LockError>();
};

#[cfg(doctest)]
#[doc = include_str!("../README.md")]
struct Readme;
