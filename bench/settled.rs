//! Times the calls of a settled table that need no settle, and those of a table in the same loops, and prints a line for each; the loops
//! come in two forms, those that borrow their table and those of the function that owns it. `calls.py` runs it.
//!
//! With three words, a form as `settled_owned`, how many begin and how many resources are locked, it makes these calls once:
//! `instructions` counts by that what a call takes.
//!
//! Both are called through the static library of crates/bench_table. `timing.rs` says how each number comes about.

#[allow(dead_code)] // this program times no empty call
mod timing;

use std::env;
use timing::Workload;

/// How many transactions begin, and how many resources are locked.
const BEGINS: u32 = 4_096;
const LOCKS: u32 = 65_536;

unsafe extern "C" {
    safe fn mm_bench_settled_borrowed(begins: u32, locks: u32) -> u64;
    safe fn mm_bench_settled_owned(begins: u32, locks: u32) -> u64;
    safe fn mm_bench_plain_borrowed(begins: u32, locks: u32) -> u64;
    safe fn mm_bench_plain_owned(begins: u32, locks: u32) -> u64;
}

type Calls = extern "C" fn(u32, u32) -> u64;

/// A form of the loops: its name, and the calls of a settled table and of a table.
struct Form {
    name: &'static str,
    settled: Calls,
    plain: Calls,
}

const FORMS: [Form; 2] = [
    Form { name: "borrowed", settled: mm_bench_settled_borrowed, plain: mm_bench_plain_borrowed },
    Form { name: "owned", settled: mm_bench_settled_owned, plain: mm_bench_plain_owned },
];

/// One of them begins before what is timed.
fn measure_begins(form: &Form) {
    let begins = |is_whole: bool| if is_whole { BEGINS } else { 1 };
    Workload {
        name: &format!("begin, settled, {}", form.name),
        size: BEGINS,
        units: u64::from(BEGINS - 1),
        unit: "call",
        runs: &[&|is_whole| (form.settled)(begins(is_whole), 0), &|is_whole| (form.plain)(begins(is_whole), 0)],
    }
    .measure();
}

fn measure_locks(form: &Form) {
    let locks = |is_whole: bool| if is_whole { LOCKS } else { 0 };
    Workload {
        name: &format!("lock of a free resource, settled, {}", form.name),
        size: LOCKS,
        units: u64::from(LOCKS),
        unit: "call",
        runs: &[&|is_whole| (form.settled)(1, locks(is_whole)), &|is_whole| (form.plain)(1, locks(is_whole))],
    }
    .measure();
}

/// Makes the calls of these words once. `None` where they are others.
fn make_once(words: &[String]) -> Option<()> {
    let [name, begins, locks] = words else {
        return None;
    };
    let (kind, form) = name.split_once('_')?;
    let form = FORMS.iter().find(|it| it.name == form)?;
    let calls = if kind == "settled" { form.settled } else { form.plain };
    let (begins, locks) = (begins.parse::<u32>().ok()?, locks.parse::<u32>().ok()?);
    assert!(calls(begins, locks) == u64::from(begins) + u64::from(locks), "a call was refused");
    Some(())
}

fn main() {
    let words: Vec<String> = env::args().skip(1).collect();
    if !words.is_empty() {
        return make_once(&words).expect("a form and two numbers");
    }
    timing::keep_memory();
    for form in &FORMS {
        measure_begins(form);
        measure_locks(form);
    }
}
