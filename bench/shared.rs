//! What crates/bench_shared does, over the plain Rust table behind a `std::sync::Mutex`: `shared THREADS COUNT` makes COUNT
//! transactions in each of this many threads, and prints how many nanoseconds that took and how many transactions were done.

#[allow(dead_code)] // no workload makes all of its calls
mod plain;

use plain::{Config, Refusal, Table};
use std::sync::Mutex;
use std::time::Instant;

const RESOURCES: u32 = 16;

/// One transaction, which takes sixteen resources from `first` on. Each call takes the lock.
fn round(table: &Mutex<Table>, first: u32) -> Result<(), Refusal> {
    let key = table.lock().unwrap().begin()?;
    for place in 0..RESOURCES {
        table.lock().unwrap().acquire(key, first + place)?;
    }
    table.lock().unwrap().finish(key)
}

fn rounds(table: &Mutex<Table>, first: u32, count: u32) -> u64 {
    (0..count).map(|_| round(table, first).is_ok() as u64).sum()
}

fn main() {
    let words: Vec<u32> = std::env::args().skip(1).map(|word| word.parse().unwrap()).collect();
    let config = Config { processes: 64, resources: 1024, label_limit: 17_592_186_044_415, generation_limit: u32::MAX };
    let table = Mutex::new(Table::open(config).unwrap());
    let start = Instant::now();
    let done: u64 = std::thread::scope(|scope| {
        let (table, count) = (&table, words[1]);
        let threads: Vec<_> = (0..words[0]).map(|thread| scope.spawn(move || rounds(table, thread * RESOURCES, count))).collect();
        threads.into_iter().map(|thread| thread.join().unwrap()).sum()
    });
    println!("{} {done}", start.elapsed().as_nanos());
}
