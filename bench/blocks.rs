//! What blocks cost where this many transactions wait in a chain: by labels in the proved table, with a settle after each block, and by a
//! walk of the wait-for graph at each block. For each length it prints the length, how many blocks are timed, and four pairs of times in
//! nanoseconds of processor time, without these blocks and with them: by labels and by a walk where blocks come at the tail of the chain,
//! and by both where they come at its head.

mod processor_time;
mod walk;

use processor_time::now;
use std::hint::black_box;
use std::time::Instant;

const PROCESSES: u32 = 4_096;
const LENGTHS: [u32; 11] = [4, 8, 16, 32, 64, 128, 256, 512, 1_024, 2_048, 4_095];
const MAX_ROUNDS: u32 = 2_000;
const MIN_ROUNDS: u32 = 3;
/// No round is begun after this many seconds, but for the first few.
const SECONDS: f64 = 0.2;

unsafe extern "C" {
    safe fn mm_bench_blocks(room: u32, waiting: u32, is_at_head: bool) -> u64;
}

/// As many chains as there is room for, each of `room` processes. In each this many come to wait, one after another.
type Work = fn(room: u32, waiting: u32, is_at_head: bool) -> u64;

fn labels(room: u32, waiting: u32, is_at_head: bool) -> u64 {
    mm_bench_blocks(room, waiting, is_at_head)
}

fn walks(room: u32, waiting: u32, is_at_head: bool) -> u64 {
    let mut table = walk::Table::open(PROCESSES, PROCESSES);
    let mut accepted = 0;
    for process in 0..PROCESSES {
        accepted += u64::from(table.acquire(process, process));
    }
    for chain in 0..PROCESSES / room {
        for process in chain * room..chain * room + waiting {
            let (waiter, holder) = if is_at_head { (process, process + 1) } else { (process + 1, process) };
            accepted += u64::from(table.acquire(waiter, holder));
        }
    }
    accepted
}

/// How long one run takes, in nanoseconds.
fn time(work: Work, room: u32, waiting: u32, is_at_head: bool) -> f64 {
    let start = now();
    assert!(black_box(work(black_box(room), black_box(waiting), is_at_head)) > 0);
    now() - start
}

/// The least times of many rounds that make chains of this many waits: but for the last `blocks` of each, and whole.
fn least(work: Work, waiting: u32, blocks: u32, is_at_head: bool) -> [f64; 2] {
    let mut least = [f64::INFINITY; 2];
    let start = Instant::now();
    for round in 0..MAX_ROUNDS {
        if round >= MIN_ROUNDS && start.elapsed().as_secs_f64() > SECONDS {
            break;
        }
        for (least, waits) in least.iter_mut().zip([waiting - blocks, waiting]) {
            *least = least.min(time(work, waiting + 1, waits, is_at_head));
        }
    }
    least
}

fn main() {
    for waiting in LENGTHS {
        let blocks = waiting.div_ceil(8);
        let works = [(labels as Work, false), (walks, false), (labels, true), (walks, true)];
        let pairs = works.map(|(work, is_at_head)| {
            let [without, with] = least(work, waiting, blocks, is_at_head);
            format!("{without} {with}")
        });
        println!("{waiting} {} {}", PROCESSES / (waiting + 1) * blocks, pairs.join(" "));
    }
}
