//! Times workloads over the proved table and over tables in plain Rust, and prints a line for each. `calls.py` runs it.
//!
//! The proved table is called through the static library of crates/bench_table. Each workload is a loop inside the library, beside
//! the table, as those in Rust are loops beside their tables, so that both compilers can inline. Each number is the least of many
//! short rounds, in which the tables take turns, less what the same loop costs that only opens and prepares its tables. Memory that
//! was freed stays with the program, so that a round asks the kernel for no pages (`timing.rs`).

mod lock_table;
#[allow(dead_code)] // no workload makes all of its calls
mod plain;
#[cfg(reference)]
#[allow(dead_code, unused_imports)]
#[path = "out/reference.rs"]
mod reference;
mod timing;
mod workloads;

use timing::Workload;

/// How many processes the tables have whose size is not what is timed.
const PROCESSES: u32 = 4_096;
const MAX_PROCESSES: u32 = 65_536;

unsafe extern "C" {
    safe fn mm_bench_nothing(number: u64) -> u64;
    safe fn mm_bench_openings(processes: u32, count: u64) -> u64;
    safe fn mm_bench_rounds(processes: u32, resources: u32, mask: u32, others: u32, count: u64) -> u64;
    safe fn mm_bench_random(count: u64) -> u64;
    safe fn mm_bench_hand_overs(waiters: u32, count: u64) -> u64;
    safe fn mm_bench_give_ups(waiters: u32, count: u64) -> u64;
    safe fn mm_bench_crosswise(processes: u32, count: u64) -> u64;
    safe fn mm_bench_rings(size: u32, is_rising: bool, settles: u32, is_closed: bool, count: u64) -> u64;
    safe fn mm_bench_chains(processes: u32, size: u32, settles: u32, count: u64) -> u64;
}

/// A loop over each table in Rust, behind the one over the proved table.
macro_rules! runs {
    ($proved:expr, $work:ident, $is_whole:ident, $($argument:expr),*) => {
        &[
            &|$is_whole| $proved,
            &|$is_whole| workloads::$work::<plain::Table>($($argument),*).unwrap(),
            #[cfg(reference)]
            &|$is_whole| workloads::$work::<reference::Table>($($argument),*).unwrap(),
        ]
    };
}

fn measure_openings(processes: u32) {
    let count = if processes < PROCESSES { 5_000 } else { 20 };
    Workload {
        name: "a table of so many processes and resources",
        size: processes,
        units: count,
        unit: "table",
        runs: runs!(mm_bench_openings(processes, if is_whole { count } else { 0 }), openings, is_whole, processes, if is_whole { count } else { 0 }),
    }
    .measure();
}

fn measure_rounds(processes: u32, resources: u32) {
    let count = 4_000;
    let mask = resources - 1;
    Workload {
        name: if processes == PROCESSES { "begin, 16 acquires, finish" } else { "the same in a table of 65,536 processes" },
        size: resources,
        units: 18 * count,
        unit: "call",
        runs: runs!(
            mm_bench_rounds(processes, resources, mask, 0, if is_whole { count } else { 0 }),
            rounds,
            is_whole,
            processes,
            resources,
            mask,
            0,
            if is_whole { count } else { 0 }
        ),
    }
    .measure();
}

fn measure_rounds_beside(others: u32) {
    let count = 4_000;
    let (processes, resources, mask) = (PROCESSES.max(others + 1), 1_025, 1_023);
    Workload {
        name: "the same, while so many hold or await another",
        size: others,
        units: 18 * count,
        unit: "call",
        runs: runs!(
            mm_bench_rounds(processes, resources, mask, others, if is_whole { count } else { 0 }),
            rounds,
            is_whole,
            processes,
            resources,
            mask,
            others,
            if is_whole { count } else { 0 }
        ),
    }
    .measure();
}

fn measure_random() {
    let count = 20_000;
    Workload {
        name: "release and acquire, of so many by chance",
        size: 65_536,
        units: 2 * count,
        unit: "call",
        runs: runs!(mm_bench_random(if is_whole { count } else { 0 }), random, is_whole, if is_whole { count } else { 0 }),
    }
    .measure();
}

fn measure_hand_overs(waiters: u32) {
    let count = 50;
    Workload {
        name: "release with so many waiters, and wait again",
        size: waiters,
        units: u64::from(waiters) * count,
        unit: "waiter",
        runs: runs!(mm_bench_hand_overs(waiters, if is_whole { count } else { 0 }), hand_overs, is_whole, waiters, if is_whole { count } else { 0 }),
    }
    .measure();
}

fn measure_give_ups(waiters: u32) {
    let count = 100_000;
    Workload {
        name: "give up in the middle of a queue, and wait again",
        size: waiters,
        units: 2 * count,
        unit: "call",
        runs: runs!(mm_bench_give_ups(waiters, if is_whole { count } else { 0 }), give_ups, is_whole, waiters, if is_whole { count } else { 0 }),
    }
    .measure();
}

fn measure_crosswise(processes: u32) {
    let count = 10_000;
    Workload {
        name: "two-party deadlock, from begin to finish, in a table of so many processes",
        size: processes,
        units: count,
        unit: "deadlock",
        runs: runs!(mm_bench_crosswise(processes, if is_whole { count } else { 0 }), crosswise, is_whole, processes, if is_whole { count } else { 0 }),
    }
    .measure();
}

fn measure_rings(size: u32, is_rising: bool) {
    let count = (8_192 / u64::from(size)).max(2);
    Workload {
        name: if is_rising { "ring closed and settled, against the numbers" } else { "ring closed and settled, along the numbers" },
        size,
        units: count,
        unit: "ring",
        runs: runs!(mm_bench_rings(size, is_rising, 1, is_whole, count), rings, is_whole, size, is_rising, 1, is_whole, count),
    }
    .measure();
}

fn measure_chain(processes: u32, size: u32) {
    let count = if size < PROCESSES { 500 } else { 1 };
    Workload {
        name: if processes == size { "chain from its head, settled" } else { "the same in a table of 65,536 processes" },
        size,
        units: count,
        unit: "settle",
        runs: runs!(mm_bench_chains(processes, size, u32::from(is_whole), count), chains, is_whole, processes, size, u32::from(is_whole), count),
    }
    .measure();
}

fn measure_idle_settles(size: u32) {
    let count = 500_000;
    Workload {
        name: "settle while all but one wait, and none rises",
        size,
        units: u64::from(count),
        unit: "settle",
        runs: runs!(mm_bench_rings(size, true, if is_whole { count + 1 } else { 1 }, false, 1), rings, is_whole, size, true, if is_whole { count + 1 } else { 1 }, false, 1),
    }
    .measure();
}

/// What a call through the C boundary costs by itself, which no other line has.
fn measure_nothing() {
    let count = 500_000;
    let least = timing::least(&|| (0..count).fold(0, |sum, _| mm_bench_nothing(sum)));
    println!("a call through C that does nothing\t0\tcall\t{:.3}", least / count as f64);
}

fn main() {
    timing::keep_memory();
    for processes in [16, PROCESSES, MAX_PROCESSES] {
        measure_openings(processes);
    }
    for processes in [PROCESSES, MAX_PROCESSES] {
        for resources in [16, 1_024, 65_536] {
            measure_rounds(processes, resources);
        }
    }
    for others in [64, 4_000, 65_000] {
        measure_rounds_beside(others);
    }
    measure_random();
    for waiters in [16, 256, 4_095, 65_535] {
        measure_hand_overs(waiters);
    }
    for waiters in [16, 4_000, 65_000] {
        measure_give_ups(waiters);
    }
    for processes in [16, PROCESSES, MAX_PROCESSES] {
        measure_crosswise(processes);
    }
    for size in [2, 16, 64, PROCESSES, MAX_PROCESSES] {
        measure_rings(size, false);
        measure_rings(size, true);
    }
    for (processes, size) in [(16, 16), (PROCESSES, PROCESSES), (MAX_PROCESSES, PROCESSES)] {
        measure_chain(processes, size);
    }
    for size in [PROCESSES, MAX_PROCESSES] {
        measure_idle_settles(size);
    }
    measure_nothing();
}
