//! Times finds, interns and forgets of names, by the proved table and by Rust's `HashMap`, and prints a line for each. `calls.py` runs it.
//!
//! The proved table is called through the static library of crates/bench_table, in loops beside the table, as those below are beside the
//! map. `timing.rs` says how each number comes about.

#[allow(dead_code)] // this program times no empty call
mod timing;

use std::collections::HashMap;
use timing::Workload;

/// From the last bytes of one name to those of the next. It is odd, so no two numbers have one name.
const SPREAD: u64 = 0x9e37_79b9_7f4a_7c15;

/// How many calls are timed.
const CALLS: u64 = 500_000;

unsafe extern "C" {
    safe fn mm_bench_find_names(names: u32, length: u32, is_known: bool, count: u64) -> u64;
    safe fn mm_bench_intern_names(names: u32, length: u32, count: u64) -> u64;
    safe fn mm_bench_renew_names(names: u32, length: u32, count: u64) -> u64;
    safe fn mm_bench_lock_names(names: u32, length: u32, count: u64) -> u64;
    safe fn mm_bench_lock_numbers(names: u32, count: u64) -> u64;
}

/// The number of each name.
type Map = HashMap<Box<[u8]>, u32>;

/// The next number of a sequence that looks like chance; 0 has no next.
fn next_number(number: u32) -> u32 {
    let number = number ^ number << 13;
    let number = number ^ number >> 17;
    number ^ number << 5
}

/// Writes the name of a number: its last 8 bytes tell it from the others.
fn write_name(bytes: &mut [u8; 64], number: u32) {
    bytes[56..].copy_from_slice(&u64::from(number).wrapping_mul(SPREAD).to_le_bytes());
}

/// The number of a name, which is this one where the name is new.
fn intern(map: &mut Map, name: &[u8], number: u32) -> u32 {
    if let Some(number) = map.get(name) {
        return *number;
    }
    map.insert(name.into(), number);
    number
}

/// This many names, each with its number. As in the proved table, there is room for all from the start.
fn filled(names: u32, length: usize) -> Map {
    let mut map = Map::with_capacity(names as usize);
    let mut bytes = [b'a'; 64];
    for number in 0..names {
        write_name(&mut bytes, number);
        intern(&mut map, &bytes[64 - length..], number);
    }
    map
}

/// Calls `work` with `count` numbers by chance and their names, from `first` on, and answers how many names there are and how often
/// it said yes.
fn by_chance(mut map: Map, length: usize, first: u32, count: u64, work: impl Fn(&mut Map, u32, &[u8]) -> bool) -> u64 {
    let mask = map.len() as u32 - 1;
    let mut bytes = [b'a'; 64];
    let mut number = 1;
    let mut yes = 0;
    for _ in 0..count {
        number = next_number(number);
        let this = (number & mask) + first;
        write_name(&mut bytes, this);
        yes += u64::from(work(&mut map, this, &bytes[64 - length..]));
    }
    map.len() as u64 + yes
}

fn find(names: u32, length: u32, is_known: bool, count: u64) -> u64 {
    let length = length as usize;
    let first = if is_known { 0 } else { names };
    by_chance(filled(names, length), length, first, count, |map, _, name| map.contains_key(name) == is_known)
}

fn intern_again(names: u32, length: u32, count: u64) -> u64 {
    let length = length as usize;
    by_chance(filled(names, length), length, 0, count, |map, number, name| intern(map, name, number) == number)
}

fn renew(names: u32, length: u32, count: u64) -> u64 {
    let length = length as usize;
    by_chance(filled(names, length), length, 0, count, |map, number, name| {
        map.remove(name).is_some() && intern(map, name, number) == number
    })
}

fn measure(names: u32, length: u32) {
    let count = |is_whole| if is_whole { CALLS } else { 0 };
    let line = |name: &str, units, runs: &[timing::Run]| {
        let name = &format!("{name}, {length} bytes, of so many");
        Workload { name, size: names, units, unit: "call", runs }.measure();
    };
    line("find a name", CALLS, &[
        &|is_whole| mm_bench_find_names(names, length, true, count(is_whole)),
        &|is_whole| find(names, length, true, count(is_whole)),
    ]);
    line("find a name that is none", CALLS, &[
        &|is_whole| mm_bench_find_names(names, length, false, count(is_whole)),
        &|is_whole| find(names, length, false, count(is_whole)),
    ]);
    line("intern a name that is one", CALLS, &[
        &|is_whole| mm_bench_intern_names(names, length, count(is_whole)),
        &|is_whole| intern_again(names, length, count(is_whole)),
    ]);
    line("forget and intern again", 2 * CALLS, &[
        &|is_whole| mm_bench_renew_names(names, length, count(is_whole)),
        &|is_whole| renew(names, length, count(is_whole)),
    ]);
    // Beside the lock manager a table at rest, which has numbers in the place of names.
    line("lock and unlock a name", CALLS, &[
        &|is_whole| mm_bench_lock_names(names, length, count(is_whole)),
        &|is_whole| mm_bench_lock_numbers(names, count(is_whole)),
    ]);
}

fn main() {
    timing::keep_memory();
    for length in [8, 64] {
        for names in [16, 4_096, 65_536] {
            measure(names, length);
        }
    }
}
