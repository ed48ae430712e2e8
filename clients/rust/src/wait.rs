//! A wait without a sleep, which ends by a call.
use crate::{sys, Key, LockError};
use std::os::raw::c_void;
use std::panic::{catch_unwind, AssertUnwindSafe};
use std::process;
use std::sync::atomic::{AtomicU8, Ordering::AcqRel};
use std::sync::Arc;

const WAITS: u8 = 0;
const OVER: u8 = 1;
const LEFT: u8 = 2;

type Wake = Box<dyn FnOnce(Result<(), LockError>) + Send>;

/// What the transaction keeps of its wait.
#[derive(Debug)]
pub(crate) struct Wait {
    state: Arc<AtomicU8>,
}

/// What the end of the wait is given.
struct End {
    locks: *mut sys::Locks,
    wake: Wake,
    state: Arc<AtomicU8>,
}

impl Wait {
    /// Asks for the name. The wait, if the answer is that it waits; else `wake` is dropped.
    ///
    /// # Safety
    /// The locks are open, and stay so while a transaction is live.
    pub(crate) unsafe fn begin(locks: *mut sys::Locks, key: Key, name: &[u8], wake: Wake) -> (u32, Option<Wait>) {
        let state = Arc::new(AtomicU8::new(WAITS));
        let end = Box::into_raw(Box::new(End { locks, wake, state: Arc::clone(&state) }));
        let told = unsafe { sys::pashkure_locks_ask(locks, key, name.as_ptr().cast(), name.len(), ends, end.cast()) };
        if told == sys::WAITS {
            return (told, Some(Wait { state }));
        }
        drop(unsafe { Box::from_raw(end) });
        (told, None)
    }

    /// Leaves the abort of the transaction to the end of the wait. False if it is over.
    pub(crate) fn leave(self) -> bool {
        self.state.swap(LEFT, AcqRel) == WAITS
    }
}

/// Makes the call of a wait that has ended, or aborts the transaction that was dropped while it waited.
extern "C" fn ends(context: *mut c_void, key: Key, result: u32) {
    // SAFETY: the library calls this once, after it has answered that the transaction waits.
    let End { locks, wake, state } = *unsafe { Box::from_raw(context.cast::<End>()) };
    if state.swap(OVER, AcqRel) == LEFT {
        // SAFETY: the locks stay open while this transaction is live.
        let _ended = unsafe { sys::pashkure_locks_abort(locks, key) };
        return;
    }
    let told = if result == sys::OK { Ok(()) } else { Err(LockError::of(result)) };
    if catch_unwind(AssertUnwindSafe(|| wake(told))).is_err() {
        process::abort();
    }
}
