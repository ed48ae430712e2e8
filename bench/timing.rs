//! How workloads are timed: the least of many short rounds, in which the tables take turns, less what prepares it.

use std::hint::black_box;
use std::time::Instant;

const MAX_ROUNDS: u32 = 400;
const MIN_ROUNDS: u32 = 5;
/// No round is begun after this many seconds, but for the first few.
const SECONDS: f64 = 1.5;

/// Of the C library's `mallopt`: from how many free bytes on memory is given back, and from how many bytes on each part has its own pages.
const TRIM_THRESHOLD: i32 = -1;
const MMAP_THRESHOLD: i32 = -3;

unsafe extern "C" {
    safe fn mallopt(parameter: i32, value: i32) -> i32;
}

/// From now on memory that was freed stays with the program.
pub fn keep_memory() {
    assert!(mallopt(TRIM_THRESHOLD, 1 << 30) == 1 && mallopt(MMAP_THRESHOLD, 1 << 30) == 1, "memory is given back");
}

/// A loop over one table; its argument says whether what is timed is done, or only what prepares it.
pub type Run<'a> = &'a dyn Fn(bool) -> u64;

/// A workload over each table.
pub struct Workload<'a> {
    pub name: &'a str,
    pub size: u32,
    /// What the time is divided by, and its name.
    pub units: u64,
    pub unit: &'a str,
    /// The proved table first.
    pub runs: &'a [Run<'a>],
}

/// How long one run takes, in nanoseconds.
fn time(work: Run, is_whole: bool) -> f64 {
    let start = Instant::now();
    black_box(work(black_box(is_whole)));
    start.elapsed().as_nanos() as f64
}

/// The least time of many rounds, in nanoseconds.
pub fn least(work: &dyn Fn() -> u64) -> f64 {
    (0..MAX_ROUNDS).map(|_| time(&|_| work(), true)).fold(f64::INFINITY, f64::min)
}

impl Workload<'_> {
    /// Times each table, and prints one line: name, size, unit and what each table costs, with tabs between them.
    pub fn measure(&self) {
        let accepted = self.runs[0](true);
        assert!(accepted > 0, "a call was refused at {}", self.name);
        for run in self.runs {
            assert_eq!(accepted, run(true), "the tables differ at {}", self.name);
        }
        let mut least = vec![[f64::INFINITY; 2]; self.runs.len()];
        let start = Instant::now();
        for round in 0..MAX_ROUNDS {
            if round >= MIN_ROUNDS && start.elapsed().as_secs_f64() > SECONDS {
                break;
            }
            for (run, least) in self.runs.iter().zip(&mut least) {
                least[0] = least[0].min(time(run, true));
                least[1] = least[1].min(time(run, false));
            }
        }
        print!("{}\t{}\t{}", self.name, self.size, self.unit);
        for [whole, prepared] in least {
            print!("\t{:.3}", (whole - prepared) / self.units as f64);
        }
        println!();
    }
}
