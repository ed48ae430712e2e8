//! The events. Each makes all its tests before it changes anything.

use super::{Acquired, Detected, Key, NONE, Refusal, Released, Settled, Table, Transmitted};

impl Table {
    #[inline]
    pub fn begin(&mut self) -> Result<Key, Refusal> {
        self.may_count()?;
        let number = if self.freed != NONE {
            self.freed
        } else if (self.unused as usize) < self.processes.len() {
            self.unused
        } else {
            return Err(Refusal::Full);
        };
        let process = &mut self.processes[number as usize];
        if number == self.freed {
            self.freed = process.next;
        } else {
            self.unused += 1;
        }
        process.next = NONE;
        process.is_live = true;
        self.accepted += 1;
        Ok(Key { process: number, generation: process.generation })
    }

    #[inline]
    pub fn acquire(&mut self, key: Key, resource: u32) -> Result<Acquired, Refusal> {
        self.may_count()?;
        let process = self.live(key)?;
        let asked = self.resources.get(resource as usize).ok_or(Refusal::NoResource)?;
        if process.waits_for != NONE {
            return Err(Refusal::Waiting);
        }
        let owner = asked.owner;
        if owner == NONE {
            self.give(resource, key.process);
            self.accepted += 1;
            return Ok(Acquired::Granted);
        }
        self.wait_for(key, resource, owner)
    }

    /// `acquire` of a resource that somebody owns. It stands apart so that the rest is inlined.
    #[inline(never)]
    fn wait_for(&mut self, key: Key, resource: u32, owner: u32) -> Result<Acquired, Refusal> {
        if owner == key.process {
            return Err(Refusal::AlreadyOwns);
        }
        let label = self.fresh(key.process, owner);
        if label.counter() > self.label_limit {
            return Err(Refusal::LabelsExhausted);
        }
        self.block(key.process, label);
        self.enqueue(key.process, resource);
        self.accepted += 1;
        Ok(Acquired::Waits { holder: self.key(owner), label })
    }

    pub fn release(&mut self, key: Key, resource: u32) -> Result<Released, Refusal> {
        self.may_count()?;
        let process = self.live(key)?;
        let held = self.resources.get(resource as usize).ok_or(Refusal::NoResource)?;
        if process.waits_for != NONE {
            return Err(Refusal::Waiting);
        }
        if held.owner != key.process {
            return Err(Refusal::NotOwner);
        }
        if !self.may_hand_over(resource) {
            return Err(Refusal::LabelsExhausted);
        }
        self.take(resource, key.process);
        let to = self.hand_over(resource);
        self.accepted += 1;
        Ok(if to == NONE { Released::Free } else { Released::To(self.key(to)) })
    }

    pub fn transmit(&mut self, key: Key) -> Result<Transmitted, Refusal> {
        self.may_count()?;
        if self.live(key)?.waits_for == NONE {
            return Err(Refusal::NotWaiting);
        }
        self.accepted += 1;
        if !self.raise(key.process) {
            return Ok(Transmitted::Still);
        }
        self.touched.add(key.process);
        Ok(Transmitted::Raised(self.processes[key.process as usize].public))
    }

    pub fn detect(&mut self, key: Key) -> Result<Detected, Refusal> {
        self.may_count()?;
        let process = self.live(key)?;
        if process.waits_for == NONE {
            return Err(Refusal::NotWaiting);
        }
        let (private, has_verdict) = (process.private, process.has_verdict);
        self.accepted += 1;
        if has_verdict {
            return Ok(Detected::Standing);
        }
        Ok(if self.convict(key.process) { Detected::Deadlock(private) } else { Detected::Clear })
    }

    pub fn finish(&mut self, key: Key) -> Result<(), Refusal> {
        self.may_count()?;
        if self.live(key)?.waits_for != NONE {
            return Err(Refusal::Waiting);
        }
        if !self.may_vacate(key.process) {
            return Err(Refusal::LabelsExhausted);
        }
        self.vacate(key.process);
        self.accepted += 1;
        Ok(())
    }

    pub fn abort(&mut self, key: Key) -> Result<(), Refusal> {
        self.may_count()?;
        if !self.live(key)?.has_verdict {
            return Err(Refusal::NoVerdict);
        }
        if !self.may_vacate(key.process) {
            return Err(Refusal::LabelsExhausted);
        }
        self.take_back(key.process);
        self.vacate(key.process);
        self.accepted += 1;
        Ok(())
    }

    pub fn give_up(&mut self, key: Key) -> Result<(), Refusal> {
        self.may_count()?;
        let process = self.live(key)?;
        if process.waits_for == NONE {
            return Err(Refusal::NotWaiting);
        }
        if process.has_verdict {
            return Err(Refusal::UnderVerdict);
        }
        if process.private != process.public {
            return Err(Refusal::Carried);
        }
        self.take_back(key.process);
        self.accepted += 1;
        Ok(())
    }

    /// Looks only at what may have changed since the last settling: a process is looked at again in this sweep, or in the next
    /// one, where its holder's label rose after, or before, the sweep came to it.
    pub fn settle(&mut self) -> Result<Settled, Refusal> {
        self.may_count()?;
        self.mark_candidates();
        let mut settled = Settled { raises: 0, verdicts: 0 };
        loop {
            let raised = self.sweep();
            settled.raises += raised;
            if raised == 0 {
                break;
            }
            std::mem::swap(&mut self.now, &mut self.later);
        }
        let mut from = 0;
        while let Some(number) = self.touched.take_next(from) {
            from = number;
            settled.verdicts += self.convict(number) as u64;
        }
        self.accepted += 1;
        Ok(settled)
    }
}
