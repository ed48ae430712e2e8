//! A lock manager that answers at once.
use crate::view::Viewed;
use crate::{sys, Config, Key, Lock, OpenError, Owned, Refusal, View, Wake};
use std::ptr;

/// A lock manager for one caller at a time, which answers each request at once: for an event loop, or for a sleep of your own. It is `Send` and
/// not `Sync`; to share it put it into a mutex. Threads that are to sleep share [`Locks`](crate::Locks).
///
/// A transaction that gets [`Lock::Waits`] waits until a call's [`Woken`] names it, and the program wakes it as it likes.
///
/// ```
/// use pashkure::{Config, Lock, LockManager, Owned};
///
/// let mut manager = LockManager::open(&Config::new(16, 100))?;
/// let (there, back) = (manager.begin()?, manager.begin()?);
/// assert_eq!(manager.lock(there, "accounts/1")?, Lock::Owned(Owned::New));
/// assert_eq!(manager.lock(back, "accounts/2")?, Lock::Owned(Owned::New));
/// assert_eq!(manager.lock(there, "accounts/2")?, Lock::Waits);
/// assert_eq!(manager.lock(back, "accounts/1")?, Lock::Deadlock); // and `back` goes on; first it undoes what it did to accounts/2
/// for woken in manager.unlock(back, "accounts/2")? {
///     assert_eq!(woken.key, there); // which owns accounts/2 now
/// }
/// assert_eq!(manager.lock(back, "accounts/1")?, Lock::Waits);
/// assert_eq!(manager.commit(there)?.next().map(|woken| woken.key), Some(back));
/// # Ok::<_, Box<dyn std::error::Error>>(())
/// ```
///
/// ```compile_fail
/// fn shares<T: Sync>() {}
/// shares::<pashkure::LockManager>();
/// ```
#[derive(Debug)]
pub struct LockManager {
    raw: sys::Manager,
    config: Config,
}

// SAFETY: the library keeps nothing of a thread, and its crate proves that a manager may be sent to another one.
unsafe impl Send for LockManager {}

impl LockManager {
    /// Takes all memory that the manager needs; a drop gives it back. No other call takes any, but those of [`View`] that return a `Vec`.
    ///
    /// # Errors
    /// A number of the configuration is out of its range, there is not enough memory, or the library is of another version.
    pub fn open(config: &Config) -> Result<LockManager, OpenError> {
        let mut raw = sys::Manager { manager: ptr::null_mut(), state: 0 };
        // SAFETY: `raw` is a closed manager, as PASHKURE_CLOSED. From here on only the library writes it.
        match unsafe { sys::pashkure_open(&mut raw, &config.plain(0)) } {
            sys::OK => Ok(LockManager { raw, config: config.clone() }),
            why => Err(OpenError::of(why)),
        }
    }

    // SAFETY of the calls below: the manager is open until it is dropped, `&mut` makes them one call at a time, and the names are slices.

    /// Begins a transaction. It belongs to no thread.
    ///
    /// # Errors
    /// `CountsFull`, `TransactionsFull`.
    pub fn begin(&mut self) -> Result<Key, Refusal> {
        let mut key = Key::default();
        let result = unsafe { sys::pashkure_begin(&mut self.raw, &mut key) };
        done(result).map(|()| key)
    }

    /// Asks for a name. Those that wait for one name are given it in the order in which they asked. Right after [`Lock::Deadlock`] the
    /// [`View::waits_from`] of the owner of the name are the waits of the cycle, which lead to this transaction.
    ///
    /// # Errors
    /// `NoTransaction`, `Waiting`, `CountsFull`, `NameEmpty`, `NameTooLong`, `TooManyNames`, `NamesFull`, `LabelsFull`.
    pub fn lock(&mut self, key: Key, name: impl AsRef<[u8]>) -> Result<Lock, Refusal> {
        let name = name.as_ref();
        match unsafe { sys::pashkure_lock(&mut self.raw, key, name.as_ptr().cast(), name.len()) } {
            sys::WAITS => Ok(Lock::Waits),
            sys::DEADLOCK => Ok(Lock::Deadlock),
            result => Owned::of(result).map(Lock::Owned).ok_or_else(|| Refusal::of(result)),
        }
    }

    /// Asks for a name, and never waits: `None` if another transaction owns it.
    ///
    /// # Errors
    /// As [`LockManager::lock`], but for `LabelsFull`.
    pub fn try_lock(&mut self, key: Key, name: impl AsRef<[u8]>) -> Result<Option<Owned>, Refusal> {
        let name = name.as_ref();
        match unsafe { sys::pashkure_try_lock(&mut self.raw, key, name.as_ptr().cast(), name.len()) } {
            sys::BUSY => Ok(None),
            result => Owned::of(result).map(Some).ok_or_else(|| Refusal::of(result)),
        }
    }

    /// Gives one name back.
    ///
    /// # Errors
    /// `NoTransaction`, `Waiting`, `NameEmpty`, `NameTooLong`, `NotOwner`.
    pub fn unlock(&mut self, key: Key, name: impl AsRef<[u8]>) -> Result<Woken<'_>, Refusal> {
        let name = name.as_ref();
        done(unsafe { sys::pashkure_unlock(&mut self.raw, key, name.as_ptr().cast(), name.len()) })?;
        Ok(self.woken())
    }

    /// Ends the transaction, and gives back all that it owns.
    ///
    /// # Errors
    /// `NoTransaction`, `Waiting`.
    pub fn commit(&mut self, key: Key) -> Result<Woken<'_>, Refusal> {
        done(unsafe { sys::pashkure_commit(&mut self.raw, key) })?;
        Ok(self.woken())
    }

    /// Ends a transaction, also one that waits, and gives back all that it owns; so undo its work first.
    ///
    /// # Errors
    /// `NoTransaction`.
    pub fn abort(&mut self, key: Key) -> Result<Woken<'_>, Refusal> {
        done(unsafe { sys::pashkure_abort(&mut self.raw, key) })?;
        Ok(self.woken())
    }

    /// Takes the wait of the transaction back, as after a time-out; it goes on with what it owns. Ends no other wait.
    ///
    /// # Errors
    /// `NoTransaction`; `NotWaiting` if it was given the name before.
    pub fn cancel(&mut self, key: Key) -> Result<(), Refusal> {
        done(unsafe { sys::pashkure_cancel(&mut self.raw, key) })
    }

    /// To read the manager.
    pub fn view(&self) -> View<'_> {
        View::new(Viewed::Manager(&self.raw), &self.config)
    }

    fn woken(&self) -> Woken<'_> {
        Woken { manager: self, next: 0 }
    }
}

impl Drop for LockManager {
    fn drop(&mut self) {
        // SAFETY: the manager is not used again.
        unsafe { sys::pashkure_close(&mut self.raw) }
    }
}

/// `Ok` if this result says so.
fn done(result: u32) -> Result<(), Refusal> {
    match result {
        sys::OK => Ok(()),
        why => Err(Refusal::of(why)),
    }
}

/// Whose waits a call ended, in order. No other call changes the manager before this is dropped.
#[must_use = "a transaction that is not woken waits for ever"]
#[derive(Debug)]
pub struct Woken<'m> {
    manager: &'m LockManager,
    next: usize,
}

impl Iterator for Woken<'_> {
    type Item = Wake;

    fn next(&mut self) -> Option<Wake> {
        let mut woken = sys::Wake::default();
        // SAFETY: as of the calls above.
        if !unsafe { sys::pashkure_woken(&self.manager.raw, self.next, &mut woken) } {
            return None;
        }
        self.next += 1;
        Some(Wake { key: woken.key, number: woken.number })
    }
}
