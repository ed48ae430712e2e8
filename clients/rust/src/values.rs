//! What calls are given, and what they answer.
use crate::sys;
use std::collections::hash_map::RandomState;
use std::fmt;
use std::hash::{BuildHasher, Hasher};

/// A number by chance, which nobody outside of the program knows.
pub(crate) fn random() -> u64 {
    RandomState::new().build_hasher().finish()
}

/// The numbers with which a manager is opened. It takes at most `(name_bytes + 71) * names + 85 * transactions + 1,100` bytes, and
/// [`Locks`](crate::Locks) 16 bytes more a bucket, 12 a name, and some 4,600 a transaction.
#[derive(Clone, Debug)]
pub struct Config {
    pub(crate) transactions: u32,
    pub(crate) names: u32,
    pub(crate) name_bytes: u32,
    seed: u64,
    pub(crate) buckets: u32,
    names_each: u32,
}

impl Config {
    /// How many transactions can be live at a time, and how many names can be owned at a time: 1 to 65,536 and 1 to 16,777,216. [`Locks`](crate::Locks) count
    /// only names that somebody asked for while another one owned them. A name has up to 64 bytes, and the seed is drawn by chance.
    pub fn new(transactions: u32, names: u32) -> Config {
        Config { transactions, names, name_bytes: 64, seed: random(), buckets: 0, names_each: 0 }
    }

    /// Sets how many bytes a name may have: 1 to 1,024.
    pub fn name_bytes(self, name_bytes: u32) -> Config {
        Config { name_bytes, ..self }
    }

    /// Sets how many names a transaction may own, so that one that asks for many is refused, as `TooManyNames`, before it owns the names of all
    /// others; 0 is as many as there are, and so it is if this is not called. [`Locks`](crate::Locks) do not count those of its first sixteen that
    /// nobody else has asked for: there it may own sixteen more.
    pub fn names_each(self, names_each: u32) -> Config {
        Config { names_each, ..self }
    }

    /// Sets the seed of the hash of names. With it names that share a hash can be chosen, which makes calls slow.
    pub fn seed(self, seed: u64) -> Config {
        Config { seed, ..self }
    }

    /// Sets how many buckets [`Locks`](crate::Locks) have: 1 to 16,777,216. If this is not called they have one for each name, but 8,192 at
    /// least. A name that nobody else wants is locked by the word of its bucket, and two names of one bucket are the manager's.
    pub fn buckets(self, buckets: u32) -> Config {
        Config { buckets, ..self }
    }

    /// As the header has it, for a manager; for locks with the buckets.
    pub(crate) fn plain(&self, buckets: u32) -> sys::Config {
        let Config { transactions, names, name_bytes, seed, names_each, .. } = *self;
        sys::Config { header: sys::VERSION, transactions, names, name_bytes, seed, buckets, names_each }
    }
}

/// The key of a transaction. Of one manager no two transactions ever have the same key, so a key that is out of date does no harm: calls refuse
/// it. It is shown as `0.1`.
#[derive(Clone, Copy, Debug, Default, PartialEq, Eq, PartialOrd, Ord, Hash)]
#[repr(C)]
pub struct Key {
    /// Below the number of transactions of [`Config::new`]. No two live transactions share it, so it is an index for what you keep of each.
    pub slot: u32,
    /// Tells the transactions of one slot apart.
    pub generation: u32,
}

impl fmt::Display for Key {
    fn fmt(&self, to: &mut fmt::Formatter<'_>) -> fmt::Result {
        write!(to, "{}.{}", self.slot, self.generation)
    }
}

/// Since when a transaction owns a name that it has asked for. To roll back to a savepoint, unlock each name that was `New` since.
#[derive(Clone, Copy, Debug, PartialEq, Eq)]
pub enum Owned {
    /// It owns the name from now on.
    New,
    /// It owned the name before. One unlock gives it back.
    Before,
}

impl Owned {
    /// What this result means, if it is that of a name that is owned.
    pub(crate) fn of(result: u32) -> Option<Owned> {
        match result {
            sys::OK => Some(Owned::New),
            sys::HELD => Some(Owned::Before),
            _ => None,
        }
    }
}

/// The answer to a request of a [`LockManager`](crate::LockManager).
#[must_use = "a transaction that waits, or was refused for a deadlock, does not own the name"]
#[derive(Clone, Copy, Debug, PartialEq, Eq)]
pub enum Lock {
    /// The transaction owns the name.
    Owned(Owned),
    /// It waits, and is never told of a deadlock. Some call's [`Woken`](crate::Woken) will name it.
    Waits,
    /// Its wait would close a cycle of waits: it does not wait, and goes on with what it owns. Unlock what was locked since a savepoint, or abort
    /// it, before it asks again: until then the answer is the same, and no other one on the cycle can go on.
    Deadlock,
}

/// One whose wait has ended.
#[derive(Clone, Copy, Debug, PartialEq, Eq)]
pub struct Wake {
    /// Whose wait.
    pub key: Key,
    /// The number of the name that it owns now.
    pub number: u32,
}

/// What a live transaction does.
#[derive(Clone, Copy, Debug, PartialEq, Eq)]
pub enum Status {
    /// It may make requests.
    Active,
    /// It waits.
    Waiting {
        /// The number of the name for which it waits.
        number: u32,
        /// Who owns that name.
        holder: Key,
    },
}

/// A live transaction, as a [`View`](crate::View) sees it.
#[derive(Clone, Copy, Debug, PartialEq, Eq)]
pub struct Seen {
    /// Its key.
    pub key: Key,
    /// What it does.
    pub status: Status,
}

/// A wait: of [`View::waits_from`](crate::View::waits_from), or of the cycle of a deadlock.
#[derive(Clone, Debug, PartialEq, Eq)]
pub struct Wait {
    /// Who waits.
    pub key: Key,
    /// The name for which it waits.
    pub name: Vec<u8>,
    /// Who owns that name.
    pub holder: Key,
}

/// What was counted since the opening. Live now are `begun - committed - aborted` transactions.
#[derive(Clone, Copy, Debug, Default, PartialEq, Eq)]
#[non_exhaustive]
pub struct Totals {
    /// Transactions that began.
    pub begun: u64,
    /// Transactions that were committed.
    pub committed: u64,
    /// Transactions that were aborted.
    pub aborted: u64,
    /// Requests whose wait would have closed a cycle of waits.
    pub deadlocks: u64,
    /// Requests that had to wait.
    pub waits: u64,
    /// Waits that were taken back.
    pub withdrawn: u64,
    /// Events, which `CountsFull` limits; `LabelsFull` limits `waits` and `deadlocks` together.
    pub events: u64,
}
