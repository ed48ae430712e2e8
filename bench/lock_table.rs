//! The calls of a lock table that the workloads make, whichever table it is.

use crate::plain;
#[cfg(reference)]
use crate::reference;

pub type Key = plain::Key;

/// Some call was refused. A workload ends there.
#[derive(Debug)]
pub struct Refused;

/// A lock table with the widest limits.
pub trait LockTable: Sized {
    fn open(processes: u32, resources: u32) -> Result<Self, Refused>;
    fn begin(&mut self) -> Result<Key, Refused>;
    fn acquire(&mut self, key: Key, resource: u32) -> Result<(), Refused>;
    /// Returns who owns it now.
    fn release(&mut self, key: Key, resource: u32) -> Result<Option<Key>, Refused>;
    fn finish(&mut self, key: Key) -> Result<(), Refused>;
    fn transmit(&mut self, key: Key) -> Result<(), Refused>;
    fn detect(&mut self, key: Key) -> Result<(), Refused>;
    fn abort(&mut self, key: Key) -> Result<(), Refused>;
    fn give_up(&mut self, key: Key) -> Result<(), Refused>;
    fn settle(&mut self) -> Result<(), Refused>;
    /// How many events were accepted, and how many verdicts were given.
    fn totals(&self) -> (u64, u64);
}

const LABEL_LIMIT: u64 = 17_592_186_044_415;

impl LockTable for plain::Table {
    fn open(processes: u32, resources: u32) -> Result<Self, Refused> {
        let config = plain::Config { processes, resources, label_limit: LABEL_LIMIT, generation_limit: u32::MAX };
        plain::Table::open(config).map_err(|_| Refused)
    }

    #[inline]
    fn begin(&mut self) -> Result<Key, Refused> {
        plain::Table::begin(self).map_err(|_| Refused)
    }

    #[inline]
    fn acquire(&mut self, key: Key, resource: u32) -> Result<(), Refused> {
        plain::Table::acquire(self, key, resource).map(drop).map_err(|_| Refused)
    }

    #[inline]
    fn release(&mut self, key: Key, resource: u32) -> Result<Option<Key>, Refused> {
        match plain::Table::release(self, key, resource) {
            Ok(plain::Released::To(next)) => Ok(Some(next)),
            Ok(plain::Released::Free) => Ok(None),
            Err(_) => Err(Refused),
        }
    }

    #[inline]
    fn finish(&mut self, key: Key) -> Result<(), Refused> {
        plain::Table::finish(self, key).map_err(|_| Refused)
    }

    #[inline]
    fn transmit(&mut self, key: Key) -> Result<(), Refused> {
        plain::Table::transmit(self, key).map(drop).map_err(|_| Refused)
    }

    #[inline]
    fn detect(&mut self, key: Key) -> Result<(), Refused> {
        plain::Table::detect(self, key).map(drop).map_err(|_| Refused)
    }

    #[inline]
    fn abort(&mut self, key: Key) -> Result<(), Refused> {
        plain::Table::abort(self, key).map_err(|_| Refused)
    }

    #[inline]
    fn give_up(&mut self, key: Key) -> Result<(), Refused> {
        plain::Table::give_up(self, key).map_err(|_| Refused)
    }

    #[inline]
    fn settle(&mut self) -> Result<(), Refused> {
        plain::Table::settle(self).map(drop).map_err(|_| Refused)
    }

    fn totals(&self) -> (u64, u64) {
        (self.accepted(), self.verdicts())
    }
}

/// A further table that `bench/run FILE` was told.
#[cfg(reference)]
mod told {
    use super::{Key, LABEL_LIMIT, LockTable, Refused, reference};

    fn theirs(key: Key) -> reference::Key {
        reference::Key { process: key.process, generation: key.generation }
    }

    fn ours(key: reference::Key) -> Key {
        Key { process: key.process, generation: key.generation }
    }

    impl LockTable for reference::Table {
        fn open(processes: u32, resources: u32) -> Result<Self, Refused> {
            let config = reference::Config { processes, resources, label_limit: LABEL_LIMIT, generation_limit: u32::MAX };
            reference::Table::open(config, processes, reference::Settling::Touched).map_err(|_| Refused)
        }

        #[inline]
        fn begin(&mut self) -> Result<Key, Refused> {
            reference::Table::begin(self).map(ours).map_err(|_| Refused)
        }

        #[inline]
        fn acquire(&mut self, key: Key, resource: u32) -> Result<(), Refused> {
            reference::Table::acquire(self, theirs(key), resource).map(drop).map_err(|_| Refused)
        }

        #[inline]
        fn release(&mut self, key: Key, resource: u32) -> Result<Option<Key>, Refused> {
            match reference::Table::release(self, theirs(key), resource) {
                Ok(reference::Released::To(next)) => Ok(Some(ours(next))),
                Ok(reference::Released::Free) => Ok(None),
                Err(_) => Err(Refused),
            }
        }

        #[inline]
        fn finish(&mut self, key: Key) -> Result<(), Refused> {
            reference::Table::finish(self, theirs(key)).map_err(|_| Refused)
        }

        #[inline]
        fn transmit(&mut self, key: Key) -> Result<(), Refused> {
            reference::Table::transmit(self, theirs(key)).map(drop).map_err(|_| Refused)
        }

        #[inline]
        fn detect(&mut self, key: Key) -> Result<(), Refused> {
            reference::Table::detect(self, theirs(key)).map(drop).map_err(|_| Refused)
        }

        #[inline]
        fn abort(&mut self, key: Key) -> Result<(), Refused> {
            reference::Table::abort(self, theirs(key)).map_err(|_| Refused)
        }

        #[inline]
        fn give_up(&mut self, key: Key) -> Result<(), Refused> {
            reference::Table::give_up(self, theirs(key)).map_err(|_| Refused)
        }

        #[inline]
        fn settle(&mut self) -> Result<(), Refused> {
            reference::Table::settle(self).map(drop).map_err(|_| Refused)
        }

        fn totals(&self) -> (u64, u64) {
            let totals = reference::Table::totals(self);
            (totals.accepted, totals.verdicts)
        }
    }
}
