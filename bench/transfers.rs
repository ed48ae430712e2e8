//! What `crates/bench_locks` does, in plain Rust: a lock table behind a `std::sync::Mutex`, whose waiters park.
//! Names are kept in a `HashMap` while they are locked, and a wait is refused where a walk from owner to owner comes back to the one that is to
//! wait.

mod transfers_threads;
mod words;

use std::collections::{HashMap, VecDeque};
use std::sync::atomic::{AtomicBool, Ordering};
use std::sync::Mutex;
use std::thread::{self, Thread};

const NONE: usize = usize::MAX;

/// A name that is locked.
struct Held {
    name: Box<[u8]>,
    owner: usize,
    waiters: VecDeque<usize>,
}

/// A place for a transaction.
struct Place {
    /// The lock that it waits for.
    waits_for: usize,
    /// The locks that it owns.
    owns: Vec<usize>,
}

/// The lock table.
struct Table {
    numbers: HashMap<Box<[u8]>, usize>,
    held: Vec<Held>,
    free_numbers: Vec<usize>,
    places: Vec<Place>,
    free_places: Vec<usize>,
}

enum Asked {
    Owns,
    Waits,
    Deadlock,
}

impl Table {
    fn lock(&mut self, place: usize, name: &[u8]) -> Asked {
        let Some(&number) = self.numbers.get(name) else {
            self.grant_new(place, name);
            return Asked::Owns;
        };
        if self.held[number].owner == place {
            return Asked::Owns;
        }
        if self.closes_cycle(place, number) {
            return Asked::Deadlock;
        }
        self.held[number].waiters.push_back(place);
        self.places[place].waits_for = number;
        Asked::Waits
    }

    fn grant_new(&mut self, place: usize, name: &[u8]) {
        let number = match self.free_numbers.pop() {
            Some(number) => {
                self.held[number].name = name.into();
                self.held[number].owner = place;
                number
            }
            None => {
                self.held.push(Held { name: name.into(), owner: place, waiters: VecDeque::new() });
                self.held.len() - 1
            }
        };
        self.numbers.insert(name.into(), number);
        self.places[place].owns.push(number);
    }

    /// Whether the owner of the lock waits, in the end, for this place.
    fn closes_cycle(&self, place: usize, number: usize) -> bool {
        let mut owner = self.held[number].owner;
        while owner != place {
            let waits_for = self.places[owner].waits_for;
            if waits_for == NONE {
                return false;
            }
            owner = self.held[waits_for].owner;
        }
        true
    }

    /// Ends a transaction, and lists whom to wake.
    fn end(&mut self, place: usize, wakes: &mut Vec<usize>) {
        let mut owns = std::mem::take(&mut self.places[place].owns);
        for number in owns.drain(..) {
            self.hand_over(number, wakes);
        }
        self.places[place].owns = owns;
        self.free_places.push(place);
    }

    fn hand_over(&mut self, number: usize, wakes: &mut Vec<usize>) {
        match self.held[number].waiters.pop_front() {
            Some(next) => {
                self.held[number].owner = next;
                self.places[next].waits_for = NONE;
                self.places[next].owns.push(number);
                wakes.push(next);
            }
            None => {
                self.numbers.remove(&self.held[number].name);
                self.free_numbers.push(number);
            }
        }
    }
}

/// Where the thread of a transaction sleeps.
#[repr(align(128))]
struct Bed {
    granted: AtomicBool,
    thread: Mutex<Option<Thread>>,
}

struct Locks {
    table: Mutex<Table>,
    beds: Vec<Bed>,
}

struct Deadlock;

struct Transaction<'a> {
    locks: &'a Locks,
    place: usize,
    wakes: Vec<usize>,
}

impl Locks {
    fn open(transactions: usize) -> Locks {
        let table = Table {
            numbers: HashMap::new(),
            held: Vec::new(),
            free_numbers: Vec::new(),
            places: (0..transactions).map(|_| Place { waits_for: NONE, owns: Vec::new() }).collect(),
            free_places: (0..transactions).collect(),
        };
        let beds = (0..transactions).map(|_| Bed { granted: AtomicBool::new(false), thread: Mutex::new(None) }).collect();
        Locks { table: Mutex::new(table), beds }
    }

    fn begin(&self) -> Transaction<'_> {
        let place = self.table.lock().unwrap().free_places.pop().expect("there is a place for each thread");
        Transaction { locks: self, place, wakes: Vec::new() }
    }
}

impl Transaction<'_> {
    fn lock(&mut self, name: &[u8]) -> Result<(), Deadlock> {
        let bed = &self.locks.beds[self.place];
        let mut table = self.locks.table.lock().unwrap();
        match table.lock(self.place, name) {
            Asked::Owns => return Ok(()),
            Asked::Deadlock => return Err(Deadlock),
            Asked::Waits => *bed.thread.lock().unwrap() = Some(thread::current()),
        }
        drop(table);
        while !bed.granted.load(Ordering::Acquire) {
            thread::park();
        }
        bed.granted.store(false, Ordering::Relaxed);
        Ok(())
    }
}

impl Drop for Transaction<'_> {
    /// Ends the transaction, and wakes those that were granted something once the lock is free.
    fn drop(&mut self) {
        self.locks.table.lock().unwrap().end(self.place, &mut self.wakes);
        for place in self.wakes.drain(..) {
            let bed = &self.locks.beds[place];
            let thread = bed.thread.lock().unwrap().take();
            bed.granted.store(true, Ordering::Release);
            thread.expect("who waits has a thread").unpark();
        }
    }
}

fn transfer(locks: &Locks, names: [&[u8]; 4]) -> bool {
    let mut transaction = locks.begin();
    names.into_iter().all(|name| transaction.lock(name).is_ok())
}

fn main() {
    transfers_threads::run(Locks::open, transfer);
}
