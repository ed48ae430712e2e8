//! What crates/bench_locks does by `run` with `lock_all`, by the crate of clients/rust.

mod transfers_threads;
mod words;

use pashkure::{Config, LockError, Locks};

fn open(_threads: usize) -> Locks {
    Locks::open(&Config::new(65, 65_536).name_bytes(16).seed(7)).unwrap()
}

fn transfer(locks: &Locks, names: [&[u8]; 4]) -> bool {
    locks.run(u32::MAX, |transaction| transaction.lock_all(&names).map_err(LockError::from)).is_ok()
}

fn main() {
    transfers_threads::run(open, transfer);
}
