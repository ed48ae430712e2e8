//! Runs of threads at `Locks` of the crate in clients/rust, written down: orders THREADS NAMES CALLS RUNS SEED. Each run prints a line for each
//! call, "thread start end kind name answer" in nanoseconds, as tests/lib/orders.py reads it, and then a line "run".
use pashkure::{Config, LockError, Locks, Owned, Transaction};
use std::io::{self, BufWriter, Write};
use std::sync::atomic::{AtomicU64, Ordering::SeqCst};
use std::thread;
use std::time::{Duration, Instant};

const MAX_NAMES: u64 = 26;
const MAX_THREADS: u64 = 8;
const SHORT_TIME: Duration = Duration::from_micros(500);
const SPREAD: u64 = 0x9e37_79b9_7f4a_7c15; // makes of numbers that are near each other such as are not

type Answer = Result<Option<Owned>, LockError>;
const DONE: Answer = Ok(Some(Owned::New));

/// What the threads of a run have in common.
struct Run {
    locks: Locks,
    begun: Instant,
    threads: u64,
    names: u64,
    calls: usize,
    ready: AtomicU64, // so many threads
}

struct Call {
    start: Duration,
    end: Duration,
    kind: &'static str,
    name: char,
    answer: Answer,
}

/// Numbers by chance: xorshift.
struct Random(u64);

impl Random {
    fn below(&mut self, bound: u64) -> u64 {
        self.0 ^= self.0 << 13;
        self.0 ^= self.0 >> 7;
        self.0 ^= self.0 << 17;
        (self.0 >> 32) % bound
    }
}

struct Thread<'r> {
    run: &'r Run,
    random: Random,
    calls: Vec<Call>,
}

impl Thread<'_> {
    /// Makes a call, and writes it down.
    fn call(&mut self, kind: &'static str, name: char, make: impl FnOnce() -> Answer) -> Answer {
        let start = self.run.begun.elapsed();
        let answer = make();
        let end = self.run.begun.elapsed();
        self.calls.push(Call { start, end, kind, name, answer });
        answer
    }

    /// One call of a transaction, by chance. Seldom a pause comes before it, in which others wait for what the transaction owns.
    fn any(&mut self, transaction: &mut Transaction<&Locks>) -> Answer {
        if self.random.below(32) == 0 {
            thread::sleep(SHORT_TIME);
        }
        let byte = b'a' + self.random.below(self.run.names) as u8;
        let (letter, name) = (char::from(byte), [byte]);
        match self.random.below(8) {
            0 => self.call("unlock", letter, || transaction.unlock(name).and(DONE)),
            1 => self.call("try", letter, || transaction.try_lock(name)),
            2 => self.call("lock", letter, || transaction.lock_for(name, SHORT_TIME).map(Some)),
            _ => self.call("lock", letter, || transaction.lock(name).map(Some)),
        }
    }

    /// A transaction of one to four calls. After a deadlock it is rolled back, and so is one in four of the others.
    fn transaction(&mut self) {
        let mut transaction = self.run.locks.begin().expect("a begin is refused");
        let mut is_undone = self.random.below(4) == 0;
        for _ in 0..=self.random.below(4) {
            let is_deadlock = self.any(&mut transaction) == Err(LockError::Deadlock);
            is_undone |= is_deadlock;
            if is_deadlock || self.calls.len() >= self.run.calls {
                break;
            }
        }
        let told = self.call("end", '-', || {
            if !is_undone {
                return transaction.commit().and(DONE);
            }
            transaction.roll_back();
            DONE
        });
        assert_eq!(told, DONE, "an end is refused");
    }

    /// Waits without sleep for the other threads, so that all begin at one time.
    fn work(mut self) -> Vec<Call> {
        self.run.ready.fetch_add(1, SeqCst);
        while self.run.ready.load(SeqCst) < self.run.threads {
            thread::yield_now();
        }
        while self.calls.len() < self.run.calls {
            self.transaction();
        }
        self.calls
    }
}

fn word(answer: Answer) -> &'static str {
    match answer {
        Ok(Some(Owned::New)) => "ok",
        Ok(Some(Owned::Before)) => "held",
        Ok(None) => "busy",
        Err(LockError::Deadlock) => "deadlock",
        Err(LockError::TimedOut) => "timed-out",
        Err(LockError::NotOwner) => "not-owner",
        Err(_) => "refused",
    }
}

fn one_run(threads: u64, names: u64, calls: usize, seed: u64, to: &mut impl Write) -> io::Result<()> {
    let config = Config::new(threads as u32, names as u32).name_bytes(1).buckets(if seed % 2 == 0 { 2 } else { 64 }).seed(seed);
    let locks = Locks::open(&config).expect("they are not opened");
    let run = &Run { locks, begun: Instant::now(), threads, names, calls, ready: AtomicU64::new(0) };
    let written: Vec<Vec<Call>> = thread::scope(|scope| {
        let random = |number| Random(seed.wrapping_mul(MAX_THREADS).wrapping_add(number).wrapping_mul(SPREAD) | 1);
        let start = |number| scope.spawn(move || Thread { run, random: random(number), calls: Vec::with_capacity(calls + 1) }.work());
        let started: Vec<_> = (0..threads).map(start).collect();
        started.into_iter().map(|thread| thread.join().expect("a thread is lost")).collect()
    });
    for (number, calls) in written.iter().enumerate() {
        for &Call { start, end, kind, name, answer } in calls {
            writeln!(to, "{number} {} {} {kind} {name} {}", start.as_nanos(), end.as_nanos(), word(answer))?;
        }
    }
    writeln!(to, "run")
}

fn main() -> io::Result<()> {
    let words: Vec<u64> = std::env::args().skip(1).map(|word| word.parse().expect("a number")).collect();
    let [threads, names, calls, runs, seed]: [u64; 5] = words.try_into().expect("orders THREADS NAMES CALLS RUNS SEED");
    assert!((1..=MAX_THREADS).contains(&threads) && (1..=MAX_NAMES).contains(&names), "a number is out of range");
    let mut to = BufWriter::new(io::stdout().lock());
    (0..runs).try_for_each(|run| one_run(threads, names, calls as usize, seed.wrapping_add(run), &mut to))?;
    to.flush()
}
