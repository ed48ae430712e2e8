//! A transaction whose thread sleeps while it waits.
use crate::wait::Wait;
use crate::{sys, Key, LockAllError, LockError, Locks, Owned};
use std::borrow::Borrow;
use std::slice;
use std::time::{Duration, Instant};

/// How many names one call of the library is given.
const AT_ONCE: usize = 16;

/// How many waits of a deadlock the library keeps.
const CYCLE: usize = 16;

/// A transaction, which owns names until it ends. It belongs to no thread, and is `Send`.
///
/// If it is dropped, it is rolled back, and all that it owns is given to those that wait. So undo your own work before that.
///
/// ```
/// use pashkure::{Config, Locks};
///
/// let locks = Locks::open(&Config::new(16, 100))?;
/// let mut first = locks.begin()?;
/// first.lock("accounts/1")?;
/// drop(first); // as `?` or a panic does
/// let mut second = locks.begin()?;
/// second.lock("accounts/1")?;
/// second.commit()?;
/// # Ok::<_, Box<dyn std::error::Error>>(())
/// ```
#[must_use = "a transaction that is dropped is rolled back"]
#[derive(Debug)]
pub struct Transaction<L: Borrow<Locks>> {
    locks: L,
    key: Key,
    wait: Option<Wait>,
    is_over: bool,
    is_in_deadlock: bool,
}

impl<L: Borrow<Locks>> Transaction<L> {
    pub(crate) fn new(locks: L, key: Key) -> Transaction<L> {
        Transaction { locks, key, wait: None, is_over: false, is_in_deadlock: false }
    }

    /// Its key: for [`Locks::interrupt`], and for what you keep of each transaction by its slot.
    pub fn key(&self) -> Key {
        self.key
    }

    /// Locks a name: sleeps until the transaction owns it. Those that wait for one name are given it in the order in which they asked.
    ///
    /// # Errors
    /// `Deadlock` at once, if the wait would close a cycle of waits. A transaction that sleeps never gets it. `Interrupted`, `Waiting`,
    /// `CountsFull`, `NameEmpty`, `NameTooLong`, `TooManyNames`, `NamesFull`, `LabelsFull`.
    pub fn lock(&mut self, name: impl AsRef<[u8]>) -> Result<Owned, LockError> {
        let told = self.request(name.as_ref(), sys::FOREVER);
        owned(told)
    }

    /// As [`Transaction::lock`], but sleeps no longer than this time.
    ///
    /// # Errors
    /// `TimedOut`, not before the time is over: the transaction goes on with what it owns. Else as `lock`. With no time at all `TimedOut` comes
    /// in place of each wait, and of `Deadlock`.
    pub fn lock_for(&mut self, name: impl AsRef<[u8]>, time: Duration) -> Result<Owned, LockError> {
        let told = self.request(name.as_ref(), nanoseconds(time));
        owned(told)
    }

    /// As [`Transaction::lock`], but never sleeps: `None` if another transaction owns the name.
    ///
    /// # Errors
    /// As `lock`, but for `Deadlock` and `LabelsFull`.
    pub fn try_lock(&mut self, name: impl AsRef<[u8]>) -> Result<Option<Owned>, LockError> {
        match self.request(name.as_ref(), 0) {
            sys::BUSY => Ok(None),
            told => owned(told).map(Some),
        }
    }

    /// Locks names in this order. Returns the answer to each.
    ///
    /// ```
    /// # let locks = pashkure::Locks::open(&pashkure::Config::new(16, 100))?;
    /// use pashkure::Owned;
    ///
    /// let mut transaction = locks.begin()?;
    /// transaction.lock("accounts/1")?;
    /// assert_eq!(transaction.lock_all(&["accounts/1", "accounts/2"])?, [Owned::Before, Owned::New]);
    /// transaction.commit()?;
    /// # Ok::<_, Box<dyn std::error::Error>>(())
    /// ```
    ///
    /// # Errors
    /// As `lock`, of the first name that the transaction was not given. Those before it stay locked, and the error has their answers.
    pub fn lock_all<N: AsRef<[u8]>>(&mut self, names: &[N]) -> Result<Vec<Owned>, LockAllError> {
        self.lock_each(names, || sys::FOREVER)
    }

    /// As [`Transaction::lock_all`], but sleeps no longer than this time for all names together.
    ///
    /// # Errors
    /// As `lock_for`, of the first name that the transaction was not given.
    pub fn lock_all_for<N: AsRef<[u8]>>(&mut self, names: &[N], time: Duration) -> Result<Vec<Owned>, LockAllError> {
        let begun = Instant::now();
        self.lock_each(names, || nanoseconds(time.saturating_sub(begun.elapsed())))
    }

    /// Asks for a name as [`Transaction::lock`] does, and returns `None` in place of sleeping: for futures, event loops, and sleep of your own.
    ///
    /// After `None`, and no other answer, `wake` is called once, by the thread whose call ended the wait: with `Ok` if the transaction owns the
    /// name, or with `Interrupted`. It may be called before this returns. It best only passes the news on, such as to a `Waker` or a channel;
    /// if it panics, the program is aborted. Until then each other request is refused as `Waiting`. A transaction that is dropped while it waits
    /// is rolled back, and `wake` is not called. Takes memory for `wake`.
    ///
    /// ```
    /// # let locks = pashkure::Locks::open(&pashkure::Config::new(16, 100))?;
    /// let (mut first, mut second) = (locks.begin()?, locks.begin()?);
    /// first.lock("accounts/1")?;
    /// let (passes_on, news) = std::sync::mpsc::channel();
    /// assert_eq!(second.ask("accounts/1", move |told| passes_on.send(told).unwrap())?, None);
    /// first.commit()?;
    /// news.recv()??; // the second one owns it
    /// second.commit()?;
    /// # Ok::<_, Box<dyn std::error::Error>>(())
    /// ```
    ///
    /// # Errors
    /// As `lock`.
    pub fn ask<W>(&mut self, name: impl AsRef<[u8]>, wake: W) -> Result<Option<Owned>, LockError>
    where
        W: FnOnce(Result<(), LockError>) + Send + 'static,
    {
        // SAFETY: the locks are open as long as this transaction is live.
        let (told, wait) = unsafe { Wait::begin(self.raw(), self.key, name.as_ref(), Box::new(wake)) };
        self.note(told);
        if wait.is_some() {
            self.wait = wait;
            return Ok(None);
        }
        owned(told).map(Some)
    }

    /// Gives one name back, to the transaction that has waited for it longest.
    ///
    /// # Errors
    /// `Waiting`, `NameEmpty`, `NameTooLong`, `NotOwner`.
    pub fn unlock(&mut self, name: impl AsRef<[u8]>) -> Result<(), LockError> {
        let name = name.as_ref();
        // SAFETY: as in `request`.
        done(unsafe { sys::pashkure_locks_unlock(self.raw(), self.key, name.as_ptr().cast(), name.len()) })?;
        self.is_in_deadlock = false;
        Ok(())
    }

    /// What the last `Deadlock` was about, as it was in the moment of the answer: the wait that was refused, and then each time that of the
    /// holder. Empty if there was none, or while the transaction waits. At most 16 waits, whose names have 1,024 bytes together: if there are
    /// more, the last holder is not this transaction.
    ///
    /// ```
    /// # let locks = pashkure::Locks::open(&pashkure::Config::new(16, 100))?;
    /// use pashkure::LockError;
    ///
    /// let (mut there, mut back) = (locks.begin()?, locks.begin()?);
    /// there.lock("accounts/1")?;
    /// back.lock("accounts/2")?;
    /// there.ask("accounts/2", |told| assert_eq!(told, Ok(())))?; // it waits
    /// assert_eq!(back.lock("accounts/1"), Err(LockError::Deadlock));
    /// for wait in back.cycle() {
    ///     println!("{} waits for {} of {}", wait.key, String::from_utf8_lossy(&wait.name), wait.holder);
    /// }
    /// back.unlock("accounts/2")?; // and `there` owns it
    /// there.commit()?;
    /// back.lock_all(&["accounts/1", "accounts/2"])?;
    /// back.commit()?;
    /// # Ok::<_, Box<dyn std::error::Error>>(())
    /// ```
    pub fn cycle(&self) -> Vec<crate::Wait> {
        let none = sys::Wait { key: self.key, holder: self.key, name: [].as_ptr(), length: 0 };
        let mut waits = [none; CYCLE];
        // SAFETY: as in `request`. The names stay until the next request of this transaction.
        let count = unsafe { sys::pashkure_locks_cycle(self.raw(), self.key, waits.as_mut_ptr(), CYCLE) };
        let bytes = |wait: &sys::Wait| unsafe { slice::from_raw_parts(wait.name.cast::<u8>(), wait.length) };
        waits[..count].iter().map(|wait| crate::Wait { key: wait.key, name: bytes(wait).to_vec(), holder: wait.holder }).collect()
    }

    /// Ends the transaction, and gives back all that it owns. Names pass on one after another: others may own some before this returns.
    ///
    /// # Errors
    /// `Waiting` while it waits: then it is rolled back.
    pub fn commit(mut self) -> Result<(), LockError> {
        // SAFETY: as in `request`.
        done(unsafe { sys::pashkure_locks_commit(self.raw(), self.key) })?;
        self.is_over = true;
        Ok(())
    }

    /// Rolls the transaction back, as a drop does.
    pub fn roll_back(self) {}

    /// Whether a request was told `Deadlock`, and nothing was given back since.
    pub(crate) fn is_in_deadlock(&self) -> bool {
        self.is_in_deadlock
    }

    fn raw(&self) -> *mut sys::Locks {
        self.locks.borrow().raw()
    }

    /// Asks for names in this order, each time for a few, with the time that is left.
    fn lock_each<N: AsRef<[u8]>>(&mut self, names: &[N], left: impl Fn() -> i64) -> Result<Vec<Owned>, LockAllError> {
        let mut owned = Vec::with_capacity(names.len());
        for names in names.chunks(AT_ONCE) {
            let mut requests = [sys::Request { name: [].as_ptr(), length: 0, result: sys::NOT_ASKED }; AT_ONCE];
            for (request, name) in requests.iter_mut().zip(names) {
                let name = name.as_ref();
                *request = sys::Request { name: name.as_ptr().cast(), length: name.len(), result: sys::NOT_ASKED };
            }
            // SAFETY: the locks are open, and this many requests are there, with their names.
            let told = unsafe { sys::pashkure_locks_lock_all(self.raw(), self.key, requests.as_mut_ptr(), names.len(), left()) };
            self.note(told);
            owned.extend(requests.iter().map_while(|request| Owned::of(request.result)));
            done(told).map_err(|error| LockAllError { owned: std::mem::take(&mut owned), error })?;
        }
        Ok(owned)
    }

    /// Asks for a name. What is told is the result of `pashkure_locks_lock`.
    fn request(&mut self, name: &[u8], nanoseconds: i64) -> u32 {
        // SAFETY: the locks are open, the name is a slice, and by `&mut` the transaction makes one request at a time.
        let told = unsafe { sys::pashkure_locks_lock(self.raw(), self.key, name.as_ptr().cast(), name.len(), nanoseconds) };
        self.note(told);
        told
    }

    fn note(&mut self, told: u32) {
        self.is_in_deadlock |= told == sys::DEADLOCK;
    }
}

impl<L: Borrow<Locks>> Drop for Transaction<L> {
    fn drop(&mut self) {
        if self.is_over {
            return;
        }
        // SAFETY: as in `request`.
        if self.wait.take().map_or(false, Wait::leave) {
            let _is_live = unsafe { sys::pashkure_locks_interrupt(self.raw(), self.key) };
        } else {
            let told = unsafe { sys::pashkure_locks_abort(self.raw(), self.key) };
            debug_assert_eq!(told, sys::OK, "a live transaction that makes no request can be aborted");
        }
    }
}

/// A time as the library takes it.
fn nanoseconds(time: Duration) -> i64 {
    i64::try_from(time.as_nanos()).unwrap_or(sys::FOREVER)
}

/// What the answer to a request means. `BUSY` is that of one with no time.
fn owned(result: u32) -> Result<Owned, LockError> {
    Owned::of(result).ok_or_else(|| error_of(result))
}

fn done(result: u32) -> Result<(), LockError> {
    match result {
        sys::OK => Ok(()),
        why => Err(error_of(why)),
    }
}

fn error_of(result: u32) -> LockError {
    match result {
        sys::BUSY => LockError::TimedOut,
        why => LockError::of(why),
    }
}
