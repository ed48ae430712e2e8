//! A plain lock table that walks the wait-for graph at each block, as engines without labels do. Each transaction waits for one resource at
//! most, so the search for a cycle is a walk from owner to owner. Nothing is ever released: what is timed are blocks alone.

const NONE: u32 = u32::MAX;

pub struct Table {
    /// By resource: its owner, and who waits last for it.
    owner: Vec<u32>,
    last: Vec<u32>,
    /// By process: the resource that it waits for, and who came after it there.
    wait: Vec<u32>,
    next: Vec<u32>,
}

impl Table {
    pub fn open(processes: u32, resources: u32) -> Table {
        let empty = |count: u32| vec![NONE; count as usize];
        Table { owner: empty(resources), last: empty(resources), wait: empty(processes), next: empty(processes) }
    }

    /// Whether the process owns the resource now, or waits for it. A wait that would close a cycle is not made.
    #[inline]
    pub fn acquire(&mut self, process: u32, resource: u32) -> bool {
        let owner = self.owner[resource as usize];
        if owner == NONE {
            self.owner[resource as usize] = process;
            return true;
        }
        let mut at = owner;
        while at != process {
            let awaited = self.wait[at as usize];
            if awaited == NONE {
                self.enqueue(process, resource);
                return true;
            }
            at = self.owner[awaited as usize];
        }
        false
    }

    fn enqueue(&mut self, process: u32, resource: u32) {
        self.wait[process as usize] = resource;
        let last = std::mem::replace(&mut self.last[resource as usize], process);
        if last != NONE {
            self.next[last as usize] = process;
        }
    }
}
