//! A lock table in plain safe Rust, without proofs, written for speed: what the proved table is measured against.
//!
//! - `events`: one function for each event.
//! - `changes`: the tests and the small changes that events are made of.
//! - `bit_set`: sets of processes.
//!
//! The rules are those of docs/ALGORITHM.md. Processes and resources are two arrays, and all lists are threaded through them by
//! number: free processes, the queue of each resource, what each process owns. Nothing is allocated after the opening.

mod bit_set;
mod changes;
mod events;

use bit_set::BitSet;

const NONE: u32 = u32::MAX;
const COUNT_LIMIT: u64 = 1 << 62;

#[derive(Clone, Copy, Debug, PartialEq, Eq)]
pub enum Refusal {
    Stale,
    NoResource,
    Waiting,
    AlreadyOwns,
    NotOwner,
    Full,
    LabelsExhausted,
    NotWaiting,
    NoVerdict,
    Carried,
    UnderVerdict,
    BadConfig,
    CountsExhausted,
}

#[derive(Clone, Copy, Debug, PartialEq, Eq)]
pub struct Key {
    pub process: u32,
    pub generation: u32,
}

/// A counter and a process in one word, which is ordered as the pair.
#[derive(Clone, Copy, Debug, PartialEq, Eq, PartialOrd, Ord)]
pub struct Label(u64);

impl Label {
    fn new(counter: u64, process: u32) -> Label {
        Label(counter << 20 | process as u64)
    }

    fn counter(self) -> u64 {
        self.0 >> 20
    }

    #[allow(dead_code)] // for those who store it
    pub fn word(self) -> u64 {
        self.0
    }
}

pub struct Config {
    pub processes: u32,
    pub resources: u32,
    pub label_limit: u64,
    pub generation_limit: u32,
}

#[derive(Clone, Copy, Debug, PartialEq, Eq)]
pub enum Acquired {
    Granted,
    Waits { holder: Key, label: Label },
}

#[derive(Clone, Copy, Debug, PartialEq, Eq)]
pub enum Released {
    Free,
    To(Key),
}

#[derive(Clone, Copy, Debug, PartialEq, Eq)]
pub enum Transmitted {
    Raised(Label),
    Still,
}

#[derive(Clone, Copy, Debug, PartialEq, Eq)]
pub enum Detected {
    Deadlock(Label),
    Standing,
    Clear,
}

#[derive(Clone, Copy, Debug, PartialEq, Eq)]
pub struct Settled {
    pub raises: u64,
    pub verdicts: u64,
}

#[derive(Clone, Copy)]
struct Process {
    private: Label,
    public: Label,
    generation: u32,
    /// The resource that it waits for.
    waits_for: u32,
    /// Its neighbours in that queue. Of a free process, `next` is the one freed before it.
    next: u32,
    previous: u32,
    /// The first of the resources that it owns.
    owned: u32,
    is_live: bool,
    has_verdict: bool,
}

#[derive(Clone, Copy)]
struct Resource {
    owner: u32,
    /// The ends of its queue.
    first: u32,
    last: u32,
    /// Its neighbours among what its owner owns.
    next: u32,
    previous: u32,
}

pub struct Table {
    processes: Vec<Process>,
    resources: Vec<Resource>,
    label_limit: u64,
    generation_limit: u32,
    /// No label has a greater counter. While it is below the limit, no event needs a label past it.
    greatest: u64,
    /// The process that was freed last.
    freed: u32,
    /// The processes from this one on were never used.
    unused: u32,
    accepted: u64,
    verdicts: u64,
    /// The processes whose wait or public label changed since the last settling.
    touched: BitSet,
    now: BitSet,
    later: BitSet,
}

impl Table {
    pub fn open(config: Config) -> Result<Table, Refusal> {
        let in_range = (1..=65_536).contains(&config.processes)
            && (1..=65_536).contains(&config.resources)
            && (1..=17_592_186_044_415).contains(&config.label_limit)
            && config.generation_limit >= 1;
        if !in_range {
            return Err(Refusal::BadConfig);
        }
        let process = |number| Process {
            private: Label::new(0, number),
            public: Label::new(0, number),
            generation: 1,
            waits_for: NONE,
            next: NONE,
            previous: NONE,
            owned: NONE,
            is_live: false,
            has_verdict: false,
        };
        let resource = Resource { owner: NONE, first: NONE, last: NONE, next: NONE, previous: NONE };
        Ok(Table {
            processes: (0..config.processes).map(process).collect(),
            resources: vec![resource; config.resources as usize],
            label_limit: config.label_limit,
            generation_limit: config.generation_limit,
            greatest: 0,
            freed: NONE,
            unused: 0,
            accepted: 0,
            verdicts: 0,
            touched: BitSet::new(config.processes),
            now: BitSet::new(config.processes),
            later: BitSet::new(config.processes),
        })
    }

    /// How many events were accepted.
    pub fn accepted(&self) -> u64 {
        self.accepted
    }

    /// How many verdicts were given.
    pub fn verdicts(&self) -> u64 {
        self.verdicts
    }

    /// The public label of the process.
    pub fn public_label(&self, process: u32) -> Label {
        self.processes[process as usize].public
    }

    /// The live key of the process, if it has one.
    pub fn tenant(&self, process: u32) -> Option<Key> {
        self.processes.get(process as usize).filter(|tenant| tenant.is_live).map(|_| self.key(process))
    }
}
