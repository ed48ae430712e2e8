//! What `bench_shared storm` of crates/bench_shared does, over the plain Rust table behind a `std::sync::Mutex`:
//! `storm CLIENTS COUNT` runs the storms of seeds 1 to COUNT with this many clients, one after another. It prints how many nanoseconds
//! that took, how many clients finished and how many were aborted. The rules are those of docs/WORKLOADS.md.

#[allow(dead_code)] // no workload makes all of its calls
mod plain;
mod words;

use plain::{Acquired, Config, Detected, Key, Refusal, Table};
use std::sync::{Mutex, MutexGuard};
use std::thread;
use std::time::{Duration, Instant};
use words::Words;

const TRANSMITTERS: u32 = 2;
const RESOURCES: u32 = 8;
const MAX_DRAWS: u32 = 4;
const TURNS: u64 = 10_000_000;

/// The resources that each client of a storm acquires, in order.
fn storm(seed: u64, clients: u32) -> Vec<Vec<u32>> {
    let mut words = Words::new(seed);
    (0..clients).map(|_| client(&mut words)).collect()
}

fn client(words: &mut Words) -> Vec<u32> {
    let draws = 1 + words.next() % MAX_DRAWS;
    let mut work = Vec::new();
    for _ in 0..draws {
        let resource = words.next() % RESOURCES;
        if !work.contains(&resource) {
            work.push(resource);
        }
    }
    work
}

/// How a client ends.
#[derive(Clone, Copy, Debug, PartialEq, Eq)]
enum End {
    Finished,
    Aborted,
    Spent,
    Refused(Refusal),
}

/// What all clients have counted.
struct Counts {
    #[allow(dead_code)] // no client of a storm meets others
    arrived: u32,
    left: u32,
}

/// The table and the gate at which all work.
struct Shared {
    table: Mutex<Table>,
    counts: Mutex<Counts>,
    clients: u32,
}

impl Shared {
    fn leave(&self) {
        self.counts.lock().unwrap().left += 1;
    }

    fn over(&self) -> bool {
        self.counts.lock().unwrap().left >= self.clients
    }
}

/// A client, which has this many turns left.
struct Client<'a> {
    shared: &'a Shared,
    turns: u64,
}

impl Client<'_> {
    fn run(&mut self, work: &[u32]) -> End {
        let end = self.transaction(work).unwrap_or_else(|end| end);
        self.shared.leave();
        end
    }

    fn transaction(&mut self, work: &[u32]) -> Result<End, End> {
        let key = self.begin()?;
        for &resource in work {
            if !self.acquire(key, resource)? {
                return Ok(self.abort(key));
            }
        }
        match self.table().finish(key) {
            Ok(()) => Ok(End::Finished),
            Err(refusal) => Err(End::Refused(refusal)),
        }
    }

    fn begin(&mut self) -> Result<Key, End> {
        loop {
            self.spend()?;
            let begun = self.table().begin();
            match begun {
                Ok(key) => return Ok(key),
                Err(Refusal::Full) => thread::yield_now(),
                Err(refusal) => return Err(End::Refused(refusal)),
            }
        }
    }

    /// Whether the resource is its own in the end; `false` where it gets a verdict.
    fn acquire(&mut self, key: Key, resource: u32) -> Result<bool, End> {
        let acquired = self.table().acquire(key, resource);
        match acquired {
            Ok(Acquired::Granted) => Ok(true),
            Ok(Acquired::Waits { .. }) => self.wait(key),
            Err(refusal) => Err(self.give_way(key, refusal)),
        }
    }

    fn wait(&mut self, key: Key) -> Result<bool, End> {
        loop {
            self.spend()?;
            match self.round(key) {
                Ok(Detected::Clear) => thread::yield_now(),
                Ok(Detected::Deadlock(_) | Detected::Standing) => return Ok(false),
                Err(Refusal::NotWaiting) => return Ok(true),
                Err(refusal) => return Err(self.give_way(key, refusal)),
            }
        }
    }

    fn round(&self, key: Key) -> Result<Detected, Refusal> {
        self.table().transmit(key)?;
        self.table().detect(key)
    }

    fn abort(&self, key: Key) -> End {
        let aborted = self.table().abort(key);
        match aborted {
            Ok(()) => End::Aborted,
            Err(refusal) => self.give_way(key, refusal),
        }
    }

    fn give_way(&self, key: Key, refusal: Refusal) -> End {
        let _ = self.table().finish(key);
        End::Refused(refusal)
    }

    fn spend(&mut self) -> Result<(), End> {
        self.turns = self.turns.checked_sub(1).ok_or(End::Spent)?;
        Ok(())
    }

    fn table(&self) -> MutexGuard<'_, Table> {
        self.shared.table.lock().unwrap()
    }
}

/// Transmits and detects for all processes, until all clients have left or the turns are used.
fn transmit(shared: &Shared) {
    for _ in 0..TURNS {
        if shared.over() {
            return;
        }
        for process in 0..shared.clients {
            sweep(shared, process);
        }
        thread::yield_now();
    }
}

fn sweep(shared: &Shared, process: u32) {
    let tenant = shared.table.lock().unwrap().tenant(process);
    if let Some(key) = tenant {
        let _ = shared.table.lock().unwrap().transmit(key);
        let _ = shared.table.lock().unwrap().detect(key);
    }
}

/// Runs a storm on a table that is opened for it. Answers how each client ended, in order.
fn run(work: &[Vec<u32>]) -> Vec<End> {
    let clients = work.len() as u32;
    let config = Config { processes: clients, resources: RESOURCES, label_limit: 1_000_000_000, generation_limit: 9 };
    let table = Mutex::new(Table::open(config).unwrap());
    let shared = &Shared { table, counts: Mutex::new(Counts { arrived: 0, left: 0 }), clients };
    thread::scope(|scope| {
        let clients: Vec<_> = work.iter().map(|work| scope.spawn(|| Client { shared, turns: TURNS }.run(work))).collect();
        let transmitters: Vec<_> = (0..TRANSMITTERS).map(|_| scope.spawn(|| transmit(shared))).collect();
        let ends = clients.into_iter().map(|client| client.join().unwrap()).collect();
        transmitters.into_iter().for_each(|transmitter| transmitter.join().unwrap());
        ends
    })
}

fn main() {
    let words: Vec<u32> = std::env::args().skip(1).map(|word| word.parse().unwrap()).collect();
    let (clients, count) = (words[0], words[1]);
    let mut took = Duration::ZERO;
    let (mut finished, mut aborted) = (0, 0);
    for seed in 1..=u64::from(count) {
        let work = storm(seed, clients);
        let start = Instant::now();
        let ends = run(&work);
        took += start.elapsed();
        finished += ends.iter().filter(|end| **end == End::Finished).count();
        aborted += ends.iter().filter(|end| **end == End::Aborted).count();
    }
    println!("{} {finished} {aborted}", took.as_nanos());
}
