//! Why calls fail.
use crate::{sys, Owned};
use std::ffi::CStr;
use std::fmt;

/// What a result means, as `pashkure_message` has it.
fn message(result: u32) -> &'static str {
    // SAFETY: any number is allowed, and the text is never NULL and stays for ever.
    let text = unsafe { CStr::from_ptr(sys::pashkure_message(result)) };
    text.to_str().unwrap_or("")
}

/// An enum whose variants have the numbers of `pashkure.h`.
macro_rules! results {
    ($(#[$about:meta])* $name:ident { $($(#[$what:meta])* $variant:ident = $number:literal,)* }) => {
        $(#[$about])*
        #[derive(Clone, Copy, Debug, PartialEq, Eq, Hash)]
        #[non_exhaustive]
        #[repr(u32)]
        pub enum $name { $($(#[$what])* $variant = $number,)* }

        impl $name {
            /// The variant of this number, which the library has answered.
            pub(crate) fn of(result: u32) -> $name {
                match result {
                    $($number => $name::$variant,)*
                    _ => unreachable!("libpashkure.a answered {}: {}", result, message(result)),
                }
            }
        }

        impl fmt::Display for $name {
            fn fmt(&self, to: &mut fmt::Formatter<'_>) -> fmt::Result {
                to.write_str(message(*self as u32))
            }
        }

        impl std::error::Error for $name {}
    };
}

results! {
    /// Why a call of a [`LockManager`](crate::LockManager) is refused. A refused call changes nothing.
    Refusal {
        /// The key is of no live transaction: it has ended, or never was.
        NoTransaction = 16,
        /// The transaction waits, and makes no request until it is woken.
        Waiting = 18,
        /// The transaction does not wait, so there is no wait to take back.
        NotWaiting = 19,
        /// The name has no bytes.
        NameEmpty = 20,
        /// The name has more bytes than [`Config::name_bytes`](crate::Config::name_bytes) allows.
        NameTooLong = 21,
        /// The transaction does not own the name.
        NotOwner = 22,
        /// As many transactions are live as there is room for. Each end makes room.
        TransactionsFull = 23,
        /// As many names are owned as there is room for, and this is a further one. Each end makes room.
        NamesFull = 24,
        /// After 8,796,093,022,207 requests that waited or were told of a deadlock nobody may ask for what another one owns. End all transactions, and open another manager.
        LabelsFull = 25,
        /// After 4,611,686,018,360,279,040 events only ends are taken. End all transactions, and open another manager.
        CountsFull = 26,
        /// The transaction owns as many names as [`Config::names_each`](crate::Config::names_each) allows, and this is a further one. Each unlock
        /// makes room.
        TooManyNames = 28,
    }
}

results! {
    /// Why a call of a [`Transaction`](crate::Transaction) or of [`Locks::begin`](crate::Locks::begin) fails. After each of these the transaction
    /// may go on with what it owns.
    LockError {
        /// The wait would close a cycle of waits, which [`Transaction::cycle`](crate::Transaction::cycle) has. The transaction does not wait.
        ///
        /// Give back what others wait for before you ask again: unlock what was locked since a savepoint, or roll back. Who asks again at once
        /// gets this error again, and stops all on the cycle: each of them waits, at the end, for this very transaction.
        Deadlock = 3,
        /// The time is over, and the transaction waits no longer.
        TimedOut = 9,
        /// Another thread has called [`Locks::interrupt`](crate::Locks::interrupt), and the transaction waits no longer.
        Interrupted = 10,
        /// The transaction waits for the name of its [`ask`](crate::Transaction::ask), and makes no other request until it is woken.
        Waiting = 18,
        /// The name has no bytes.
        NameEmpty = 20,
        /// The name has more bytes than [`Config::name_bytes`](crate::Config::name_bytes) allows.
        NameTooLong = 21,
        /// The transaction does not own the name.
        NotOwner = 22,
        /// As many transactions are live as there is room for. Each end makes room.
        TransactionsFull = 23,
        /// As many names are owned as there is room for, and this is a further one. Each end makes room.
        NamesFull = 24,
        /// After 8,796,093,022,207 requests that waited or were told of a deadlock nobody may ask for what another one owns. End all transactions, and open other locks.
        LabelsFull = 25,
        /// After 4,611,686,018,360,279,040 events only ends are taken. End all transactions, and open other locks.
        CountsFull = 26,
        /// The transaction owns as many names as [`Config::names_each`](crate::Config::names_each) allows, and this is a further one. Each unlock
        /// makes room.
        TooManyNames = 28,
    }
}

/// Why [`Transaction::lock_all`](crate::Transaction::lock_all) or [`lock_all_for`](crate::Transaction::lock_all_for) fails. It becomes a
/// [`LockError`] by `?`.
#[derive(Clone, Debug, PartialEq, Eq)]
pub struct LockAllError {
    /// The answers to the names before the one that failed, in their order. These names stay locked.
    pub owned: Vec<Owned>,
    /// Why the next one failed. Those behind it were not asked for.
    pub error: LockError,
}

impl From<LockAllError> for LockError {
    fn from(failed: LockAllError) -> LockError {
        failed.error
    }
}

impl fmt::Display for LockAllError {
    fn fmt(&self, to: &mut fmt::Formatter<'_>) -> fmt::Result {
        self.error.fmt(to)
    }
}

impl std::error::Error for LockAllError {}

results! {
    /// Why there is no manager.
    OpenError {
        /// `libpashkure.a` is of another version than this crate.
        Version = 34,
        /// The number of transactions is not within 1 to 65,536.
        Transactions = 35,
        /// The number of names is not within 1 to 16,777,216.
        Names = 36,
        /// The number of bytes is not within 1 to 1,024.
        NameBytes = 37,
        /// There is not enough memory.
        Memory = 39,
        /// The number of buckets is not within 1 to 16,777,216.
        Buckets = 40,
    }
}
