//! The tests and the small changes that events are made of.

use super::{COUNT_LIMIT, Key, Label, NONE, Process, Refusal, Resource, Table};

impl Table {
    #[inline]
    pub(super) fn may_count(&self) -> Result<(), Refusal> {
        if self.accepted >= COUNT_LIMIT || self.verdicts >= COUNT_LIMIT {
            return Err(Refusal::CountsExhausted);
        }
        Ok(())
    }

    #[inline]
    pub(super) fn live(&self, key: Key) -> Result<&Process, Refusal> {
        match self.processes.get(key.process as usize) {
            Some(process) if process.is_live && process.generation == key.generation => Ok(process),
            _ => Err(Refusal::Stale),
        }
    }

    #[inline]
    pub(super) fn key(&self, process: u32) -> Key {
        Key { process, generation: self.processes[process as usize].generation }
    }

    /// A label of the process above both public labels.
    #[inline]
    pub(super) fn fresh(&self, process: u32, holder: u32) -> Label {
        let own = self.processes[process as usize].public;
        let shown = self.processes[holder as usize].public;
        Label::new(own.max(shown).counter() + 1, process)
    }

    /// Makes it both labels of the process.
    #[inline]
    pub(super) fn block(&mut self, process: u32, label: Label) {
        self.greatest = self.greatest.max(label.counter());
        self.touched.add(process);
        let blocked = &mut self.processes[process as usize];
        blocked.private = label;
        blocked.public = label;
    }

    /// Adds a free resource to what the process owns.
    #[inline]
    pub(super) fn give(&mut self, resource: u32, process: u32) {
        let head = std::mem::replace(&mut self.processes[process as usize].owned, resource);
        let given = &mut self.resources[resource as usize];
        given.owner = process;
        given.next = head;
        given.previous = NONE;
        if head != NONE {
            self.resources[head as usize].previous = resource;
        }
    }

    /// Takes a resource out of what the process owns.
    #[inline]
    pub(super) fn take(&mut self, resource: u32, process: u32) {
        let Resource { next, previous, .. } = self.resources[resource as usize];
        match previous {
            NONE => self.processes[process as usize].owned = next,
            _ => self.resources[previous as usize].next = next,
        }
        if next != NONE {
            self.resources[next as usize].previous = previous;
        }
    }

    /// Puts a process last into the queue of a resource.
    #[inline]
    pub(super) fn enqueue(&mut self, process: u32, resource: u32) {
        let last = std::mem::replace(&mut self.resources[resource as usize].last, process);
        match last {
            NONE => self.resources[resource as usize].first = process,
            _ => self.processes[last as usize].next = process,
        }
        let queued = &mut self.processes[process as usize];
        queued.waits_for = resource;
        queued.previous = last;
        queued.next = NONE;
    }

    /// Takes a process out of the queue in which it waits.
    pub(super) fn take_back(&mut self, process: u32) {
        let waiter = &mut self.processes[process as usize];
        waiter.has_verdict = false;
        let resource = std::mem::replace(&mut waiter.waits_for, NONE) as usize;
        let (next, previous) = (waiter.next, waiter.previous);
        match previous {
            NONE => self.resources[resource].first = next,
            _ => self.processes[previous as usize].next = next,
        }
        match next {
            NONE => self.resources[resource].last = previous,
            _ => self.processes[next as usize].previous = previous,
        }
    }

    /// Whether no label that the hand-over of a resource needs is past the limit.
    pub(super) fn may_hand_over(&self, resource: u32) -> bool {
        let first = self.resources[resource as usize].first;
        if self.greatest < self.label_limit || first == NONE {
            return true;
        }
        let mut waiter = self.processes[first as usize].next;
        while waiter != NONE {
            if self.fresh(waiter, first).counter() > self.label_limit {
                return false;
            }
            waiter = self.processes[waiter as usize].next;
        }
        true
    }

    pub(super) fn may_vacate(&self, process: u32) -> bool {
        if self.greatest < self.label_limit {
            return true;
        }
        let mut resource = self.processes[process as usize].owned;
        while resource != NONE {
            if !self.may_hand_over(resource) {
                return false;
            }
            resource = self.resources[resource as usize].next;
        }
        true
    }

    /// Gives a resource, which is in no list of its owner any more, to its longest waiter, and the others fresh labels.
    pub(super) fn hand_over(&mut self, resource: u32) -> u32 {
        let first = self.resources[resource as usize].first;
        if first == NONE {
            self.resources[resource as usize].owner = NONE;
            return NONE;
        }
        let mut waiter = self.processes[first as usize].next;
        self.take_back(first);
        self.give(resource, first);
        while waiter != NONE {
            let label = self.fresh(waiter, first);
            self.block(waiter, label);
            waiter = self.processes[waiter as usize].next;
        }
        first
    }

    /// Hands over all that a process owns, and frees it. No hand-over changes what another one does, so their order is free.
    pub(super) fn vacate(&mut self, process: u32) {
        let mut resource = self.processes[process as usize].owned;
        while resource != NONE {
            let next = self.resources[resource as usize].next;
            self.hand_over(resource);
            resource = next;
        }
        let freed = &mut self.processes[process as usize];
        freed.owned = NONE;
        freed.is_live = false;
        if freed.generation < self.generation_limit {
            freed.generation += 1;
            freed.next = std::mem::replace(&mut self.freed, process);
        }
    }

    #[inline]
    pub(super) fn holders_label(&self, process: u32) -> Label {
        let resource = self.processes[process as usize].waits_for;
        self.processes[self.resources[resource as usize].owner as usize].public
    }

    /// Takes over the holder's label where it is greater.
    #[inline]
    pub(super) fn raise(&mut self, process: u32) -> bool {
        let shown = self.holders_label(process);
        let own = &mut self.processes[process as usize].public;
        let raises = *own < shown;
        if raises {
            *own = shown;
        }
        raises
    }

    /// Gives a waiting process a verdict where it has none and three labels are one.
    #[inline]
    pub(super) fn convict(&mut self, process: u32) -> bool {
        let shown = self.holders_label(process);
        let waiter = &mut self.processes[process as usize];
        let convicts = !waiter.has_verdict && waiter.private == waiter.public && waiter.public == shown;
        if convicts {
            waiter.has_verdict = true;
            self.verdicts += 1;
        }
        convicts
    }

    /// Marks `now` the waiting processes that are touched or wait for a touched one, and clears `touched`.
    pub(super) fn mark_candidates(&mut self) {
        let mut from = 0;
        while let Some(number) = self.touched.take_next(from) {
            from = number;
            if self.processes[number as usize].waits_for != NONE {
                self.now.add(number);
            }
            self.mark_waiters(number, 0);
        }
    }

    /// Marks the waiters of a process: those from number `from` on `now`, the others `later`.
    pub(super) fn mark_waiters(&mut self, process: u32, from: u32) {
        let mut resource = self.processes[process as usize].owned;
        while resource != NONE {
            let mut waiter = self.resources[resource as usize].first;
            while waiter != NONE {
                let marks = if waiter >= from { &mut self.now } else { &mut self.later };
                marks.add(waiter);
                waiter = self.processes[waiter as usize].next;
            }
            resource = self.resources[resource as usize].next;
        }
    }

    /// Raises what is marked `now`, in rising number, and marks `touched` what was looked at. Answers how many labels rose.
    pub(super) fn sweep(&mut self) -> u64 {
        let mut raised = 0;
        let mut from = 0;
        while let Some(number) = self.now.take_next(from) {
            from = number;
            self.touched.add(number);
            if self.raise(number) {
                raised += 1;
                self.mark_waiters(number, number);
            }
        }
        raised
    }
}
