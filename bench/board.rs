//! What `bench_shared board` of crates/bench_shared does, over the plain Rust table behind a `std::sync::Mutex` with a board of
//! atomic words beside it: `board WORK PROCESSES COUNT` does this work this many times, and prints how many nanoseconds that took. An
//! event stores the labels and holders that it changed, as the proved table does; `grants` has no board at all.

#[allow(dead_code)] // no work makes all of its calls
mod plain;

use plain::{Acquired, Config, Key, Label, Released, Table, Transmitted};
use std::hint::black_box;
use std::sync::atomic::Ordering::SeqCst;
use std::sync::atomic::{AtomicBool, AtomicU64};
use std::sync::{Mutex, MutexGuard};
use std::time::Instant;

const WAITERS: u32 = 16;

/// Labels and holders, each holder as its number plus one, or 0.
struct Board {
    labels: Vec<AtomicU64>,
    holders: Vec<AtomicU64>,
}

impl Board {
    fn new(processes: u32) -> Board {
        let word = |word: u64| AtomicU64::new(word);
        Board { labels: (0..processes as u64).map(word).collect(), holders: (0..processes).map(|_| word(0)).collect() }
    }

    fn store_label(&self, process: u32, label: Label) {
        self.labels[process as usize].store(label.word(), SeqCst);
    }

    fn store_holder(&self, process: u32, holder: Option<u32>) {
        self.holders[process as usize].store(holder.map_or(0, |holder| holder as u64 + 1), SeqCst);
    }

    fn label(&self, process: u32) -> u64 {
        self.labels[process as usize].load(SeqCst)
    }

    /// The first process that shows a holder whose label is not below its own.
    fn scan(&self) -> Option<usize> {
        (0..self.holders.len()).find(|&process| {
            let holder = self.holders[process].load(SeqCst);
            holder != 0 && self.labels[process].load(SeqCst) <= self.labels[holder as usize - 1].load(SeqCst)
        })
    }
}

#[repr(align(128))]
struct Apart<T>(T);

struct Shared {
    table: Apart<Mutex<Table>>,
    board: Apart<Board>,
}

impl Shared {
    fn table(&self) -> MutexGuard<'_, Table> {
        self.table.0.lock().unwrap()
    }

    fn begin(&self) -> Key {
        self.table().begin().unwrap()
    }

    fn finish(&self, key: Key) {
        self.table().finish(key).unwrap();
    }

    fn acquire(&self, key: Key, resource: u32) {
        let mut table = self.table();
        if let Acquired::Waits { holder, label } = table.acquire(key, resource).unwrap() {
            self.board.0.store_label(key.process, label);
            self.board.0.store_holder(key.process, Some(holder.process));
        }
    }

    /// Hands over to the one who waits.
    fn release_to_one(&self, key: Key, resource: u32) {
        let mut table = self.table();
        if let Released::To(owner) = table.release(key, resource).unwrap() {
            self.board.0.store_holder(owner.process, None);
        }
    }

    fn transmit(&self, key: Key) {
        let mut table = self.table();
        if let Transmitted::Raised(label) = table.transmit(key).unwrap() {
            self.board.0.store_label(key.process, label);
        }
    }

    /// Aborts, and hands over to the one who waits.
    fn abort_to_one(&self, key: Key, waiter: Key) {
        let mut table = self.table();
        table.abort(key).unwrap();
        self.board.0.store_holder(waiter.process, None);
        self.board.0.store_holder(key.process, None);
    }
}

/// Two resources. The compiler does not know their numbers, so it cannot make calls for these numbers alone.
#[derive(Clone, Copy)]
struct Resources {
    first: u32,
    second: u32,
}

/// The same as `Grants`, without a board.
fn grant(table: &Mutex<Table>, Resources { first: resource, .. }: Resources) {
    let key = table.lock().unwrap().begin().unwrap();
    table.lock().unwrap().acquire(key, resource).unwrap();
    table.lock().unwrap().release(key, resource).unwrap();
    table.lock().unwrap().finish(key).unwrap();
}

fn block(shared: &Shared, Resources { first: resource, .. }: Resources) {
    let (first, second) = (shared.begin(), shared.begin());
    shared.acquire(first, resource);
    shared.acquire(second, resource);
    shared.release_to_one(first, resource);
    shared.finish(second);
    shared.finish(first);
}

fn deadlock(shared: &Shared, resources: Resources) {
    let (first, second) = (shared.begin(), shared.begin());
    shared.acquire(first, resources.first);
    shared.acquire(second, resources.second);
    shared.acquire(first, resources.second);
    shared.acquire(second, resources.first);
    shared.transmit(first);
    shared.table().detect(second).unwrap();
    shared.abort_to_one(second, first);
    shared.finish(first);
}

/// Hands over to the longest of sixteen, each other of whom gets a new label and a new holder.
fn hand_over(shared: &Shared, queue: &mut std::collections::VecDeque<Key>, owner: Key, resource: u32) -> Key {
    let mut table = shared.table();
    table.release(owner, resource).unwrap();
    let next = queue.pop_front().unwrap();
    shared.board.0.store_holder(next.process, None);
    for waiter in queue.iter() {
        shared.board.0.store_label(waiter.process, table.public_label(waiter.process));
        shared.board.0.store_holder(waiter.process, Some(next.process));
    }
    drop(table);
    shared.acquire(owner, resource);
    queue.push_back(owner);
    next
}

fn hand_overs(shared: &Shared, Resources { first: resource, .. }: Resources, count: u64) {
    let mut owner = shared.begin();
    shared.acquire(owner, resource);
    let mut queue: std::collections::VecDeque<Key> = (0..WAITERS).map(|_| shared.begin()).collect();
    queue.iter().for_each(|&waiter| shared.acquire(waiter, resource));
    for _ in 0..count {
        owner = hand_over(shared, &mut queue, owner, resource);
    }
}

fn peeks(board: &Board, count: u64) -> u64 {
    let (mut sum, mut process) = (0u64, 0);
    for _ in 0..count {
        if process as usize >= board.labels.len() {
            process = 0;
        }
        sum = sum.wrapping_add(board.label(process) >> 20);
        process += 1;
    }
    sum
}

/// How long the peeks take, beside a thread that blocks until they are done.
fn peeks_beside(shared: &Shared, resources: Resources, count: u64) -> u64 {
    let done = AtomicBool::new(false);
    std::thread::scope(|scope| {
        scope.spawn(|| while !done.load(SeqCst) { block(shared, resources) });
        let start = Instant::now();
        black_box(peeks(&shared.board.0, count));
        let taken = start.elapsed().as_nanos() as u64;
        done.store(true, SeqCst);
        taken
    })
}

fn work(name: &str, shared: &Shared, count: u64) -> u64 {
    let resources = black_box(Resources { first: 0, second: 1 });
    if name == "peeks-beside" {
        return peeks_beside(shared, resources, count);
    }
    let start = Instant::now();
    match name {
        "grants" => (0..count).for_each(|_| grant(&shared.table.0, resources)),
        "blocks" => (0..count).for_each(|_| block(shared, resources)),
        "deadlocks" => (0..count).for_each(|_| deadlock(shared, resources)),
        "hand-overs" => hand_overs(shared, resources, count),
        "peeks" => _ = black_box(peeks(&shared.board.0, count)),
        "scans" => (0..count).for_each(|_| _ = black_box(shared.board.0.scan())),
        _ => panic!("no work {name}"),
    }
    start.elapsed().as_nanos() as u64
}

fn main() {
    let words: Vec<String> = std::env::args().skip(1).collect();
    let [name, processes, count] = &words[..] else { panic!("board WORK PROCESSES COUNT") };
    let processes = processes.parse().unwrap();
    let config = Config { processes, resources: 1024, label_limit: 17_592_186_044_415, generation_limit: u32::MAX };
    let shared = Shared { table: Apart(Mutex::new(Table::open(config).unwrap())), board: Apart(Board::new(processes)) };
    println!("{}", work(name, &shared, count.parse().unwrap()));
}
