//! Runs one workload over one table, this many times, for `instructions` to count by callgrind what it takes.
//!
//! `counts TABLE WORKLOAD NUMBER ..`, where TABLE is `proved`, `plain` or, where there is one, `reference`. The workloads and their numbers
//! are those of `run_on`. It prints how many events were accepted.

mod lock_table;
#[allow(dead_code)] // no workload makes all of its calls
mod plain;
#[cfg(reference)]
#[allow(dead_code, unused_imports)]
#[path = "out/reference.rs"]
mod reference;
#[allow(dead_code)] // only its memory is asked for
mod timing;
mod workloads;

use std::env;
use std::process::ExitCode;

unsafe extern "C" {
    safe fn mm_bench_openings(processes: u32, count: u64) -> u64;
    safe fn mm_bench_rounds(processes: u32, resources: u32, mask: u32, others: u32, count: u64) -> u64;
    safe fn mm_bench_random(count: u64) -> u64;
    safe fn mm_bench_hand_overs(waiters: u32, count: u64) -> u64;
    safe fn mm_bench_give_ups(waiters: u32, count: u64) -> u64;
    safe fn mm_bench_crosswise(processes: u32, count: u64) -> u64;
    safe fn mm_bench_chains(processes: u32, size: u32, settles: u32, count: u64) -> u64;
    safe fn mm_bench_rings(size: u32, is_rising: bool, settles: u32, is_closed: bool, count: u64) -> u64;
}

/// How many processes the tables of `rounds` have.
const PROCESSES: u32 = 4_096;

/// Runs a workload over the proved table.
fn run_proved(workload: &str, size: u32, count: u64) -> Option<u64> {
    Some(match workload {
        "openings" => mm_bench_openings(size, count),
        "rounds" => mm_bench_rounds(PROCESSES, size, size - 1, 0, count),
        "random" => mm_bench_random(count),
        "hand_overs" => mm_bench_hand_overs(size, count),
        "give_ups" => mm_bench_give_ups(size, count),
        "crosswise" => mm_bench_crosswise(size, count),
        "chain" => mm_bench_chains(size, size, count as u32, 1),
        "rings" => mm_bench_rings(size, true, 1, true, count),
        "open_rings" => mm_bench_rings(size, true, 1, false, count),
        _ => return None,
    })
}

/// Runs it over a table in Rust.
fn run_on<T: lock_table::LockTable>(workload: &str, size: u32, count: u64) -> Option<u64> {
    match workload {
        "openings" => workloads::openings::<T>(size, count),
        "rounds" => workloads::rounds::<T>(PROCESSES, size, size - 1, 0, count),
        "random" => workloads::random::<T>(count),
        "hand_overs" => workloads::hand_overs::<T>(size, count),
        "give_ups" => workloads::give_ups::<T>(size, count),
        "crosswise" => workloads::crosswise::<T>(size, count),
        "chain" => workloads::chains::<T>(size, size, count as u32, 1),
        "rings" => workloads::rings::<T>(size, true, 1, true, count),
        "open_rings" => workloads::rings::<T>(size, true, 1, false, count),
        _ => return None,
    }
    .ok()
}

fn run(table: &str, workload: &str, size: u32, count: u64) -> Option<u64> {
    match table {
        "proved" => run_proved(workload, size, count),
        "plain" => run_on::<plain::Table>(workload, size, count),
        #[cfg(reference)]
        "reference" => run_on::<reference::Table>(workload, size, count),
        _ => None,
    }
}

fn main() -> ExitCode {
    timing::keep_memory();
    let words: Vec<String> = env::args().skip(1).collect();
    let accepted = match &words[..] {
        [table, workload, size, count] => match (size.parse(), count.parse()) {
            (Ok(size), Ok(count)) if size > 0 => run(table, workload, size, count),
            _ => None,
        },
        _ => None,
    };
    match accepted {
        Some(accepted) => {
            println!("{accepted}");
            ExitCode::SUCCESS
        }
        None => {
            eprintln!("usage: counts TABLE WORKLOAD SIZE COUNT");
            ExitCode::from(2)
        }
    }
}
