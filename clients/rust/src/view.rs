//! One moment of a manager.
use crate::{sys, Config, Key, Seen, Status, Totals, Wait};
use std::os::raw::c_void;

/// One moment of a manager, to read: of [`Locks::view`](crate::Locks::view) or [`LockManager::view`](crate::LockManager::view). It is neither
/// `Send` nor `Sync`.
#[derive(Debug)]
pub struct View<'l> {
    of: Viewed,
    config: &'l Config,
}

/// What is read.
#[derive(Clone, Copy, Debug)]
pub(crate) enum Viewed {
    Manager(*const sys::Manager),
    Locks(*mut sys::Locks),
}

impl<'l> View<'l> {
    /// The manager is open, and nothing changes it while the view is there; the locks are open and held.
    pub(crate) fn new(of: Viewed, config: &'l Config) -> View<'l> {
        View { of, config }
    }

    /// Each live transaction, by its slot.
    pub fn transactions(&self) -> impl Iterator<Item = Seen> + '_ {
        (0..self.config.transactions).filter_map(move |slot| self.seen(slot))
    }

    /// Each name that is owned, by its number, with its owner.
    pub fn locks(&self) -> impl Iterator<Item = (Vec<u8>, Key)> + '_ {
        (0..self.config.names).filter_map(move |number| self.owned(number))
    }

    /// What the transaction does; `None` if it has ended.
    pub fn status(&self, key: Key) -> Option<Status> {
        self.seen(key.slot).filter(|seen| seen.key == key).map(|seen| seen.status)
    }

    /// Who owns the name; `None` if nobody does.
    pub fn owner(&self, name: impl AsRef<[u8]>) -> Option<Key> {
        let name = name.as_ref();
        let mut owner = Key::default();
        let bytes = name.as_ptr().cast();
        // SAFETY: as `new` says. So in the functions below.
        let result = match self.of {
            Viewed::Manager(core) => unsafe { sys::pashkure_owner(core, bytes, name.len(), &mut owner) },
            Viewed::Locks(locks) => unsafe { sys::pashkure_locks_owner(locks, bytes, name.len(), &mut owner) },
        };
        (result == sys::OK).then_some(owner)
    }

    /// The name of this number; `None` if no name that is owned has it. A name keeps its number while it is owned.
    pub fn name(&self, number: u32) -> Option<Vec<u8>> {
        self.owned(number).map(|(name, _)| name)
    }

    /// The waits from this transaction on, each time that of the holder, to one that does not wait. Empty if this one does not.
    pub fn waits_from(&self, key: Key) -> Vec<Wait> {
        let mut waits = Vec::new();
        let mut at = key;
        while let Some(Status::Waiting { number, holder }) = self.status(at) {
            waits.push(Wait { key: at, name: self.name(number).unwrap_or_default(), holder });
            at = holder;
        }
        waits
    }

    /// What was counted.
    pub fn totals(&self) -> Totals {
        let mut counts = sys::Counts::default();
        match self.of {
            Viewed::Manager(core) => unsafe { sys::pashkure_totals(core, &mut counts) },
            Viewed::Locks(locks) => unsafe { sys::pashkure_locks_totals(locks, &mut counts) },
        }
        let sys::Counts { begun, committed, aborted, deadlocks, waits, withdrawn, events, .. } = counts;
        Totals { begun, committed, aborted, deadlocks, waits, withdrawn, events }
    }

    /// Who is in the slot, and what it does.
    fn seen(&self, slot: u32) -> Option<Seen> {
        let mut seen = sys::Seen::default();
        let result = match self.of {
            Viewed::Manager(core) => unsafe { sys::pashkure_look(core, slot, &mut seen) },
            Viewed::Locks(locks) => unsafe { sys::pashkure_locks_look(locks, slot, &mut seen) },
        };
        let sys::Seen { key, holder, number } = seen;
        let status = match result {
            sys::OK => Status::Active,
            sys::WAITS => Status::Waiting { number, holder },
            _ => return None,
        };
        Some(Seen { key, status })
    }

    /// The name of this number, and its owner.
    fn owned(&self, number: u32) -> Option<(Vec<u8>, Key)> {
        let (mut name, mut length, mut owner) = (Vec::new(), 0, Key::default());
        let mut read = |name: &mut Vec<u8>, length: &mut usize| {
            let bytes = name.as_mut_ptr().cast::<c_void>();
            // SAFETY: as above, and no more is written than the vector has.
            let result = match self.of {
                Viewed::Manager(core) => unsafe { sys::pashkure_name(core, number, bytes, name.len(), length, &mut owner) },
                Viewed::Locks(locks) => unsafe { sys::pashkure_locks_name(locks, number, bytes, name.len(), length, &mut owner) },
            };
            result == sys::OK
        };
        if !read(&mut name, &mut length) {
            return None;
        }
        name.resize(length, 0_u8);
        read(&mut name, &mut length);
        Some((name, owner))
    }
}
