//! The workloads of crates/bench_table, step for step, over any table in Rust.

use crate::lock_table::{Key, LockTable, Refused};

const STRIDE: u32 = 40_503;
/// How many processes the tables have whose size is not what is timed.
const PROCESSES: u32 = 4_096;
const MAX_RESOURCES: u32 = 65_536;

fn accepted<T: LockTable>(table: &T) -> u64 {
    table.totals().0
}

fn take_sixteen<T: LockTable>(table: &mut T, first: u32, mask: u32) -> Result<u32, Refused> {
    let key = table.begin()?;
    let mut resource = first;
    for _ in 0..16 {
        table.acquire(key, resource & mask)?;
        resource = resource.wrapping_add(STRIDE);
    }
    table.finish(key)?;
    Ok(resource)
}

pub fn rounds<T: LockTable>(processes: u32, resources: u32, mask: u32, others: u32, count: u64) -> Result<u64, Refused> {
    let mut table = T::open(processes, resources)?;
    for _ in 0..others {
        let key = table.begin()?;
        table.acquire(key, resources - 1)?;
    }
    let mut resource = 0;
    for _ in 0..count {
        resource = take_sixteen(&mut table, resource, mask)?;
    }
    Ok(accepted(&table))
}

/// The next number of a sequence that looks like chance; 0 has no next.
fn next_number(number: u32) -> u32 {
    let number = number ^ number << 13;
    let number = number ^ number >> 17;
    number ^ number << 5
}

pub fn random<T: LockTable>(count: u64) -> Result<u64, Refused> {
    let mut table = T::open(PROCESSES, MAX_RESOURCES)?;
    for _ in 0..PROCESSES {
        table.begin()?;
    }
    for resource in 0..MAX_RESOURCES {
        table.acquire(Key { process: resource % PROCESSES, generation: 1 }, resource)?;
    }
    let mut number = 1;
    for _ in 0..count {
        number = next_number(number);
        let resource = number % MAX_RESOURCES;
        let key = Key { process: resource % PROCESSES, generation: 1 };
        table.release(key, resource)?;
        table.acquire(key, resource)?;
    }
    Ok(accepted(&table))
}

/// Tables with as many resources as processes, opened and dropped; in each one transaction begins.
pub fn openings<T: LockTable>(processes: u32, count: u64) -> Result<u64, Refused> {
    let mut opened = 0;
    for _ in 0..count {
        let mut table = T::open(processes, processes)?;
        table.begin()?;
        opened += accepted(&table);
    }
    Ok(opened)
}

fn pass_on<T: LockTable>(table: &mut T, owner: Key) -> Result<Key, Refused> {
    let next = table.release(owner, 0)?;
    table.acquire(owner, 0)?;
    Ok(next.unwrap_or(owner))
}

fn queue<T: LockTable>(waiters: u32) -> Result<(T, Key), Refused> {
    let mut table = T::open(PROCESSES.max(waiters + 1), 1)?;
    let owner = table.begin()?;
    table.acquire(owner, 0)?;
    for _ in 0..waiters {
        let key = table.begin()?;
        table.acquire(key, 0)?;
    }
    Ok((table, owner))
}

pub fn hand_overs<T: LockTable>(waiters: u32, count: u64) -> Result<u64, Refused> {
    let (mut table, mut owner): (T, Key) = queue(waiters)?;
    for _ in 0..count {
        owner = pass_on(&mut table, owner)?;
    }
    Ok(accepted(&table))
}

pub fn give_ups<T: LockTable>(waiters: u32, count: u64) -> Result<u64, Refused> {
    let (mut table, _): (T, Key) = queue(waiters)?;
    let middle = waiters / 2 + 1;
    let mut process = middle;
    for _ in 0..count {
        let key = Key { process, generation: 1 };
        table.give_up(key)?;
        table.acquire(key, 0)?;
        process = if process < waiters { process + 1 } else { middle };
    }
    Ok(accepted(&table))
}

fn wait_crosswise<T: LockTable>(table: &mut T) -> Result<(), Refused> {
    let first = table.begin()?;
    let second = table.begin()?;
    table.acquire(first, 0)?;
    table.acquire(second, 1)?;
    table.acquire(first, 1)?;
    table.acquire(second, 0)?;
    table.transmit(first)?;
    table.detect(second)?;
    table.abort(second)?;
    table.finish(first)
}

pub fn crosswise<T: LockTable>(processes: u32, count: u64) -> Result<u64, Refused> {
    let mut table = T::open(processes, processes)?;
    for _ in 0..count {
        wait_crosswise(&mut table)?;
    }
    Ok(accepted(&table))
}

fn process_at(place: u32, size: u32, is_rising: bool) -> u32 {
    if is_rising { place } else { size - 1 - place }
}

fn wait<T: LockTable>(table: &mut T, size: u32, is_rising: bool, from: u32, to: u32) -> Result<(), Refused> {
    let key = Key { process: process_at(from, size, is_rising), generation: 1 };
    table.acquire(key, process_at(to, size, is_rising))
}

fn owners<T: LockTable>(processes: u32, size: u32) -> Result<T, Refused> {
    let mut table = T::open(processes, processes)?;
    for process in 0..size {
        let key = table.begin()?;
        table.acquire(key, process)?;
    }
    Ok(table)
}

fn ring<T: LockTable>(size: u32, is_rising: bool, settles: u32, is_closed: bool) -> Result<u64, Refused> {
    let mut table: T = owners(size, size)?;
    for place in (1..size).rev() {
        wait(&mut table, size, is_rising, place - 1, place)?;
    }
    for _ in 0..settles {
        table.settle()?;
    }
    if is_closed {
        wait(&mut table, size, is_rising, size - 1, 0)?;
        table.settle()?;
    }
    let (accepted, verdicts) = table.totals();
    Ok(accepted + verdicts)
}

pub fn rings<T: LockTable>(size: u32, is_rising: bool, settles: u32, is_closed: bool, count: u64) -> Result<u64, Refused> {
    let mut accepted = 0;
    for _ in 0..count {
        accepted += ring::<T>(size, is_rising, settles, is_closed)?;
    }
    Ok(accepted)
}

fn chain<T: LockTable>(processes: u32, size: u32, settles: u32) -> Result<u64, Refused> {
    let mut table: T = owners(processes, size)?;
    for place in 1..size {
        wait(&mut table, size, true, place - 1, place)?;
    }
    for _ in 0..settles {
        table.settle()?;
    }
    Ok(accepted(&table))
}

pub fn chains<T: LockTable>(processes: u32, size: u32, settles: u32, count: u64) -> Result<u64, Refused> {
    let mut accepted = 0;
    for _ in 0..count {
        accepted += chain::<T>(processes, size, settles)?;
    }
    Ok(accepted)
}
