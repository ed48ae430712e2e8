//! Work that is done again after a deadlock.
use crate::values::random;
use crate::{LockError, Locks, Transaction};
use std::thread;
use std::time::Duration;

/// How often a thread yields its processor first after a deadlock. Often the others come to their ends in that time.
const YIELDS: u32 = 256;

/// The bound of the first pause, in microseconds.
const FIRST: u64 = 32;

/// How often the bound of the pauses doubles.
const DOUBLES: u32 = 10;

impl Locks {
    /// Begins a transaction, lends it to the work, commits it, and returns what the work returned.
    ///
    /// If the work fails after `Deadlock`, and has unlocked nothing since, the transaction is rolled back; after a pause all is done again in a new
    /// transaction, in all at most `attempts` times, and at least once. In a pause the thread yields its processor 256 times, and then sleeps for
    /// a random time, below 32 microseconds at first, and below twice the bound each next time, up to 33 milliseconds. If the work fails
    /// otherwise, the transaction is rolled back. The locks do not know what the work wrote: it undoes that before it returns an error, or locks
    /// all names before it writes. Work that goes back to a savepoint after `Deadlock` and then succeeds is committed.
    ///
    /// ```
    /// # use pashkure::{Config, LockError, Locks};
    /// # let locks = Locks::open(&Config::new(16, 100))?;
    /// let sum = locks.run(100, |transaction| {
    ///     transaction.lock("accounts/1")?;
    ///     transaction.lock("accounts/2")?;
    ///     Ok::<_, LockError>(1000 + 1000)
    /// })?;
    /// # assert_eq!(sum, 2000);
    /// # Ok::<_, Box<dyn std::error::Error>>(())
    /// ```
    ///
    /// # Errors
    /// Those of [`Locks::begin`] and [`Transaction::commit`], and those of the work: after the last attempt also its error after `Deadlock`.
    pub fn run<T, E, F>(&self, attempts: u32, mut work: F) -> Result<T, E>
    where
        E: From<LockError>,
        F: FnMut(&mut Transaction<&Locks>) -> Result<T, E>,
    {
        for attempt in 1.. {
            let mut transaction = self.begin()?;
            let result = work(&mut transaction);
            if result.is_ok() || !transaction.is_in_deadlock() || attempt >= attempts {
                let value = result?;
                transaction.commit()?;
                return Ok(value);
            }
            drop(transaction);
            (0..YIELDS).for_each(|_| thread::yield_now());
            thread::sleep(pause(attempt));
        }
        unreachable!("the loop ends by its last attempt")
    }
}

/// The pause after this attempt, counted from 1.
fn pause(attempt: u32) -> Duration {
    Duration::from_micros(random() % (FIRST << (attempt - 1).min(DOUBLES)))
}
