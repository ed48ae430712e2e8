//! A lock manager that threads share.
use crate::view::Viewed;
use crate::{sys, Config, Key, LockError, OpenError, Transaction, View};
use std::ptr::{self, NonNull};
use std::sync::Arc;

/// A lock manager that threads share. It is `Send` and `Sync`, so share it as `&Locks` or as `Arc<Locks>`.
///
/// A name that nobody else wants is locked by one compare-and-swap, without a mutex. For a name that another one wants a call takes one mutex,
/// makes proved calls, and wakes the threads whose waits these ended. A thread that waits for a name sleeps without the mutex. What a transaction
/// wrote before it gave a name back is seen by the one that owns the name next (it happens before). A child of `fork` must not use the locks of
/// its parent.
///
/// ```
/// use pashkure::{Config, LockError, Locks};
/// use std::time::Duration;
///
/// let locks = Locks::open(&Config::new(16, 100))?;
/// let mut first = locks.begin()?;
/// first.lock("accounts/1")?;
/// std::thread::scope(|scope| {
///     scope.spawn(|| {
///         let mut second = locks.begin()?;
///         let told = second.lock_for("accounts/1", Duration::from_millis(1));
///         assert_eq!(told, Err(LockError::TimedOut)); // it may go on
///         second.commit()
///     }).join().unwrap()
/// })?;
/// first.commit()?;
/// # Ok::<_, Box<dyn std::error::Error>>(())
/// ```
#[derive(Debug)]
pub struct Locks {
    raw: NonNull<sys::Locks>,
    config: Config,
}

// SAFETY: pashkure_threads.h lets any thread make any call at any time, but for the close, which is in `drop`, and for what is between hold and
// let_go, which is in `view`.
unsafe impl Send for Locks {}
unsafe impl Sync for Locks {}

/// Gives the mutex of [`Locks::view`] back, after a panic too.
struct Held<'l>(&'l Locks);

impl Drop for Held<'_> {
    fn drop(&mut self) {
        // SAFETY: this thread has taken the mutex.
        unsafe { sys::pashkure_locks_let_go(self.0.raw()) }
    }
}

impl Locks {
    /// Takes all memory that the locks need; a drop gives it back. No other call takes any, but those that return a `Vec`, and
    /// [`Transaction::ask`].
    ///
    /// # Errors
    /// A number of the configuration is out of its range, there is not enough memory, or the library is of another version.
    pub fn open(config: &Config) -> Result<Locks, OpenError> {
        let mut raw = ptr::null_mut();
        // SAFETY: both pointers are valid.
        let result = unsafe { sys::pashkure_locks_open(&mut raw, &config.plain(config.buckets)) };
        match NonNull::new(raw) {
            Some(raw) => Ok(Locks { raw, config: config.clone() }),
            None => Err(OpenError::of(result)),
        }
    }

    /// Begins a transaction that borrows these locks.
    ///
    /// # Errors
    /// `TransactionsFull`.
    pub fn begin(&self) -> Result<Transaction<&Locks>, LockError> {
        self.new_key().map(|key| Transaction::new(self, key))
    }

    /// Begins a transaction that shares these locks, for a session that keeps its transaction beside other things.
    ///
    /// # Errors
    /// `TransactionsFull`.
    pub fn begin_owned(self: &Arc<Self>) -> Result<Transaction<Arc<Locks>>, LockError> {
        self.new_key().map(|key| Transaction::new(Arc::clone(self), key))
    }

    /// Interrupts a transaction, which mostly is another thread's (a killed query, a shut-down): its wait at once, or else its next request, fails
    /// as [`LockError::Interrupted`], once. It keeps what it owns. Returns false if the transaction has ended.
    pub fn interrupt(&self, key: Key) -> bool {
        // SAFETY of the calls here: the locks are open until they are dropped.
        unsafe { sys::pashkure_locks_interrupt(self.raw(), key) == sys::OK }
    }

    /// Stops all requests and ends while this reads one moment: all locks and all waits. It takes time by the number of buckets.
    /// Let it read quickly. It makes no other call on these locks, not even by a transaction: such a call waits for ever. If the locks know of
    /// more names than [`Config::new`] allows at a time, some are not seen.
    ///
    /// ```
    /// # let locks = pashkure::Locks::open(&pashkure::Config::new(16, 100))?;
    /// let transaction = locks.begin()?;
    /// let (live, totals) = locks.view(|view| (view.transactions().count(), view.totals()));
    /// assert_eq!((live, totals.begun), (1, 1));
    /// # Ok::<_, Box<dyn std::error::Error>>(())
    /// ```
    pub fn view<T>(&self, read: impl FnOnce(&View<'_>) -> T) -> T {
        let _has_all = unsafe { sys::pashkure_locks_hold_all(self.raw()) } == sys::OK;
        let _held = Held(self);
        read(&View::new(Viewed::Locks(self.raw()), &self.config))
    }

    pub(crate) fn raw(&self) -> *mut sys::Locks {
        self.raw.as_ptr()
    }

    fn new_key(&self) -> Result<Key, LockError> {
        let mut key = Key::default();
        match unsafe { sys::pashkure_locks_begin(self.raw(), &mut key) } {
            sys::OK => Ok(key),
            why => Err(LockError::of(why)),
        }
    }
}

impl Drop for Locks {
    /// Gives the memory back. If a transaction is live, since it was forgotten (`std::mem::forget`), the memory is not given back.
    fn drop(&mut self) {
        // SAFETY: no thread is in a call, since these are the last locks, and none comes later.
        let _is_forgotten = unsafe { sys::pashkure_locks_close(self.raw()) } != sys::OK;
    }
}
