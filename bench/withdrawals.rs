//! What a withdrawal costs at the end of a chain of waits in a settled table. For each chain it prints how many processes the table has and how
//! many transactions wait, and nanoseconds of processor time for one withdrawal with its settle: if the one that takes its wait back shows
//! its own label; if it carries that of the front, which then gets a new one, along the numbers of the processes; and the same against them.

mod processor_time;

use processor_time::now;
use std::hint::black_box;
use std::time::Instant;

/// Processes of a table, and how many wait in each of its chains.
const CHAINS: [(u32, u32); 4] = [(4_096, 16), (4_096, 256), (4_096, 4_095), (65_536, 65_535)];
/// Of each chain an eighth takes its waits back, one after another; with a carried label this many at most.
const MOST_CARRIED: u32 = 64;
const MAX_ROUNDS: u32 = 2_000;
const MIN_ROUNDS: u32 = 5;
/// No round is begun after this many seconds, but for the first few.
const SECONDS: f64 = 1.0;

unsafe extern "C" {
    safe fn mm_bench_withdrawals(processes: u32, waiting: u32, withdrawals: u32, is_carried: bool, is_rising: bool) -> u64;
}

/// Whether the label is carried, and whether the processes of a chain are numbered from its front on.
type Form = (bool, bool);

const FORMS: [Form; 3] = [(false, true), (true, true), (true, false)];

/// How long it takes to make the chains and to shorten each by this many, in nanoseconds.
fn time(processes: u32, waiting: u32, withdrawals: u32, (is_carried, is_rising): Form) -> f64 {
    let start = now();
    assert!(black_box(mm_bench_withdrawals(processes, waiting, black_box(withdrawals), is_carried, is_rising)) > 0, "a call was refused");
    now() - start
}

/// What one withdrawal costs, by the least times of many rounds with withdrawals and without.
fn cost(processes: u32, waiting: u32, withdrawals: u32, form: Form) -> f64 {
    let mut least = [f64::INFINITY; 2];
    let start = Instant::now();
    for round in 0..MAX_ROUNDS {
        if round >= MIN_ROUNDS && start.elapsed().as_secs_f64() > SECONDS {
            break;
        }
        for (least, count) in least.iter_mut().zip([0, withdrawals]) {
            *least = least.min(time(processes, waiting, count, form));
        }
    }
    (least[1] - least[0]) / f64::from(processes / (waiting + 1) * withdrawals)
}

fn main() {
    for (processes, waiting) in CHAINS {
        let eighth = waiting.div_ceil(8);
        let [own, along, against] = FORMS.map(|form| cost(processes, waiting, if form.0 { eighth.min(MOST_CARRIED) } else { eighth }, form));
        println!("{processes} {waiting} {own:.1} {along:.1} {against:.1}");
    }
}
