//! The threads of bench/transfers in Rust: `PROGRAM THREADS NAMES MILLISECONDS` makes transactions of four locks each in so many threads. It prints
//! how many nanoseconds that took, how many transactions were committed, and how often one was aborted after a deadlock.

use crate::words::Words;
use std::sync::atomic::{AtomicU64, Ordering};
use std::sync::{Barrier, OnceLock};
use std::thread;
use std::time::{Duration, Instant};

/// Locks four names and gives them back. Answers whether the transaction had all of them; else it was aborted after a deadlock.
type Transfer<L> = fn(&L, [&[u8]; 4]) -> bool;

/// Four numbers below a bound by chance, no two the same.
fn four_below(words: &mut Words, bound: usize) -> [usize; 4] {
    let mut chosen = [0; 4];
    let mut count = 0;
    while count < 4 {
        let number = (u64::from(words.next()) * bound as u64 >> 32) as usize;
        if !chosen[..count].contains(&number) {
            chosen[count] = number;
            count += 1;
        }
    }
    chosen
}

/// After so many transactions a thread looks at the clock.
const BETWEEN_LOOKS: u64 = 64;

/// How long a run is. The threads look at it themselves: at real-time priority they leave no processor to another one.
struct Run {
    length: Duration,
    start: OnceLock<Instant>,
    took: AtomicU64, // nanoseconds, or 0 before the end
}

impl Run {
    fn is_over(&self) -> bool {
        self.took.load(Ordering::SeqCst) > 0
    }

    fn look(&self) {
        let gone = self.start.get_or_init(Instant::now).elapsed();
        if gone >= self.length {
            self.took.store(gone.as_nanos() as u64, Ordering::SeqCst);
        }
    }
}

/// Makes transactions until the run is over. Returns how many were committed, and how often one was aborted.
fn work<L>(locks: &L, transfer: Transfer<L>, names: &[Vec<u8>], run: &Run, seed: u64) -> (u64, u64) {
    let mut words = Words::new(seed);
    let (mut commits, mut aborts) = (0, 0);
    run.look();
    while !run.is_over() {
        let four = four_below(&mut words, names.len()).map(|number| names[number].as_slice());
        while !transfer(locks, four) {
            aborts += 1;
        }
        commits += 1;
        if commits % BETWEEN_LOOKS == 0 {
            run.look();
        }
    }
    (commits, aborts)
}

/// Opens locks for so many threads, and runs them.
pub fn run<L: Sync>(open: fn(usize) -> L, transfer: Transfer<L>) {
    let words: Vec<usize> = std::env::args().skip(1).map(|word| word.parse().unwrap()).collect();
    let [threads, names, milliseconds] = words[..] else { panic!("three numbers are wanted") };
    let names: Vec<Vec<u8>> = (0..names).map(|number| format!("accounts/{number:07}").into_bytes()).collect();
    let locks = open(threads);
    let run = Run { length: Duration::from_millis(milliseconds as u64), start: OnceLock::new(), took: AtomicU64::new(0) };
    let gate = Barrier::new(threads);
    let done = thread::scope(|scope| {
        let (locks, names, run, gate) = (&locks, &names, &run, &gate);
        let workers: Vec<_> = (1..=threads as u64)
            .map(|seed| {
                scope.spawn(move || {
                    gate.wait();
                    work(locks, transfer, names, run, seed)
                })
            })
            .collect();
        let done = workers.into_iter().map(|worker| worker.join().unwrap());
        done.fold((0, 0), |sum, done| (sum.0 + done.0, sum.1 + done.1))
    });
    println!("{} {} {}", run.took.into_inner(), done.0, done.1);
}
