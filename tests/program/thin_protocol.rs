//! Searches all interleavings of the protocol by which names are locked: by the word of their bucket while nobody else wants them (mm_thin), and
//! from then on in a manager behind a lock (mm_desk, mm_locks).
//!
//! `thin_protocol THREADS NAMES BUCKETS RECORDS ROOM CALLS [FAULT]`. Each thread makes transactions without end, and chooses its calls freely:
//! `lock`, `commit` or a drop, and those that CALLS names: `try`, `timed`, `unlock`. It takes at most RECORDS names by their words, and the
//! manager has room for ROOM. At each moment it can be that no further call begins; then all has to come to an end. FAULT plants one. If something
//! is wrong, it prints what, and the states that lead there.
//!
//! A step is one access to a word that another thread may change just then, with all that its thread does before the next one.
use std::collections::{HashSet, hash_map::DefaultHasher};
use std::hash::{Hash, Hasher};

const MOST: usize = 3; // threads, names and buckets
const ALL: u8 = 255; // as a set of names, which is one of bits

/// The word of a bucket. (That of a thin one also names one of its thread's records. A thread never has two of one bucket.)
#[derive(Clone, Copy, Debug, Default, PartialEq, Eq, Hash)]
enum Word {
    #[default]
    Free,
    Thin(u8), // of this thread
    Reading,  // fat, and the office reads the name
    Lent,     // fat, and its thread has not let it go
    Fat,
}

#[derive(Clone, Copy, Debug, PartialEq, Eq, Hash)]
enum How { Wait, WaitFor, Try }

/// A request to the manager, before which the bucket of the name is made fat. And a name that was read too early.
#[derive(Clone, Copy, Debug, PartialEq, Eq, Hash)]
struct Ask { name: u8, how: How, early: Option<u8> }

/// What a thread does next. From `Load` on it is one that has the lock, or takes it.
#[derive(Clone, Copy, Debug, Default, PartialEq, Eq, Hash)]
enum At {
    #[default]
    Ready, // it begins a call
    Take(u8, How),            // it takes a name by its word
    GiveBack(u8, bool, bool), // it gives these names back by their words; whether others are left, and whether its transaction ends
    Sleep(u8, How),           // it sleeps until it is woken, or for a time
    Wake,                     // it wakes those who were granted something
    Load(Ask),                // it loads the word of the bucket that is made fat
    Fatten(Ask, Word),        // it makes that bucket fat, if its word is still this
    Read(Ask, u8),            // it reads for which name this thread had taken the bucket, and offers it to the manager
    Look(u8, How, bool),      // it looks whether it was granted the name; whether its time is up
    GiveUp(u8),               // it gives these names up, in the manager too; all: its transaction ends
}

#[derive(Clone, Copy, Debug, Default, PartialEq, Eq, Hash)]
struct Thread {
    at: At,
    taken: u8, // the names that it has taken by their words, and has neither given back nor let go
    held: u8,  // the names that its program was told it owns, and has not begun to give back
    is_known: bool,
    wakes: u8,       // whom it has to wake
    has_token: bool, // it was woken, and has not seen that yet
}

#[derive(Clone, Copy, Debug, Default, PartialEq, Eq, Hash)]
struct State {
    threads: [Thread; MOST],
    words: [Word; MOST],
    lock: Option<u8>,
    owner: [Option<u8>; MOST],         // in the manager, of each name
    queue: [[Option<u8>; MOST]; MOST], // who waits for it there, in turn
    is_ending: bool,                   // no further call begins
}

struct Search {
    sizes: [u8; 5],
    calls: String,
    fault: String,
    next: Vec<State>, // the states that follow the one that is looked at
}

type Kept = Result<(), &'static str>;

/// The names of a set.
fn each(names: u8) -> impl Iterator<Item = u8> {
    (0..MOST as u8).filter(move |name| names >> name & 1 == 1)
}

impl State {
    fn me(&mut self, t: u8) -> &mut Thread { &mut self.threads[t as usize] }

    fn owner(&self, name: u8) -> Option<u8> { self.owner[name as usize] }

    /// The name for which a thread waits.
    fn waits_for(&self, t: u8) -> Option<u8> {
        self.queue.iter().position(|queue| queue.contains(&Some(t))).map(|name| name as u8)
    }

    /// The owner of this name, the owner of the name for which that one waits, and so on, once round a cycle.
    fn chain(&self, mut name: Option<u8>) -> Vec<u8> {
        let mut owners = vec![];
        while let Some(owner) = name.and_then(|name| self.owner(name)).filter(|owner| !owners.contains(owner)) {
            owners.push(owner);
            name = self.waits_for(owner);
        }
        owners
    }

    /// Takes a thread out of a queue.
    fn dequeue(&mut self, name: u8, t: u8) {
        let queue = &mut self.queue[name as usize];
        if let Some(place) = queue.iter().position(|&waiter| waiter == Some(t)) {
            queue[place] = None;
            queue[place..].rotate_left(1);
        }
    }

    /// A thread goes on here. The lock is free.
    fn leave(&mut self, t: u8, at: At) { (self.lock, self.me(t).at) = (None, at); }

    /// Its program is told that it owns a name.
    fn grant(&mut self, t: u8, name: u8) { (self.me(t).held, self.me(t).at) = (self.me(t).held | 1 << name, At::Ready); }
}

/// A thread's steps.
impl Search {
    fn has(&self, fault: &str) -> bool { self.fault == fault }

    fn bucket(&self, name: u8) -> usize { (name % self.sizes[2]) as usize }

    /// The name for which a thread has taken a bucket.
    fn taken(&self, state: &State, t: u8, bucket: usize) -> Option<u8> {
        each(state.threads[t as usize].taken).find(|&name| self.bucket(name) == bucket)
    }

    fn is_full(&self, state: &State) -> bool { state.owner.iter().flatten().count() >= self.sizes[4] as usize }

    fn step(&mut self, state: &State, t: u8) -> Kept {
        let (mut new, thread) = (*state, state.threads[t as usize]);
        match thread.at {
            At::Ready => return Ok(self.begin_call(state, t)),
            At::Take(name, how) => self.take(&mut new, t, name, how),
            At::GiveBack(names, is_left, is_end) => self.give_back(&mut new, t, names, is_left, is_end),
            At::Sleep(name, how) => {
                if how == How::WaitFor && !state.is_ending {
                    new.me(t).at = At::Look(name, how, true);
                    self.next.push(new);
                }
                (new.me(t).has_token, new.me(t).at) = (false, At::Look(name, how, false));
                match thread.has_token {
                    true if self.has("token_is_grant") => new.grant(t, name),
                    true => {}
                    false => return Ok(()),
                }
            }
            At::Wake => {
                each(thread.wakes).for_each(|woken| new.me(woken).has_token = true);
                (new.me(t).wakes, new.me(t).at) = (0, At::Ready);
            }
            _ if matches!(state.lock, Some(other) if other != t) => return Ok(()),
            at => {
                new.lock = Some(t);
                self.step_inside(&mut new, t, at)?;
            }
        }
        self.next.push(new);
        Ok(())
    }

    /// Each call that a program may begin now.
    fn begin_call(&mut self, state: &State, t: u8) {
        let thread = state.threads[t as usize];
        let mut begin = |held: u8, at: At| {
            let mut new = *state;
            (new.me(t).held, new.me(t).at) = (held, at);
            self.next.push(new);
        };
        if thread.is_known || thread.held != 0 {
            begin(0, At::GiveBack(thread.taken, false, true));
        }
        if state.is_ending {
            return;
        }
        for name in 0..self.sizes[1] {
            for (call, how) in [("", How::Wait), ("timed", How::WaitFor), ("try", How::Try)] {
                if self.calls.contains(call) {
                    begin(thread.held, At::Take(name, how));
                }
            }
            if self.calls.contains("unlock") && thread.held >> name & 1 == 1 {
                begin(thread.held & !(1 << name), At::GiveBack(1 << name, false, false));
            }
        }
    }

    /// Takes a name by its word, or goes on to the manager. One that looks again before it goes there makes this step later.
    fn take(&self, new: &mut State, t: u8, name: u8, how: How) {
        let (bucket, taken) = (self.bucket(name), new.me(t).taken);
        let is_idle = taken.count_ones() < self.sizes[3] as u32;
        if is_idle && (new.words[bucket] == Word::Free || self.has("take_ignores_word")) {
            (new.words[bucket], new.me(t).taken) = (Word::Thin(t), taken | 1 << name);
            new.grant(t, name);
        } else if taken >> name & 1 == 1 {
            new.grant(t, name);
        } else {
            (new.me(t).is_known, new.me(t).at) = (true, At::Load(Ask { name, how, early: None }));
        }
    }

    /// Gives a name back by its word. Whether that is done.
    fn gives_back(&self, new: &mut State, t: u8, name: u8) -> bool {
        let is_thin = new.me(t).taken >> name & 1 == 1 && new.words[self.bucket(name)] == Word::Thin(t);
        if is_thin {
            (new.me(t).taken, new.words[self.bucket(name)]) = (new.me(t).taken & !(1 << name), Word::Free);
        }
        is_thin
    }

    /// Gives the first of these names back, without the lock. What cannot be given back, or may be in the manager, is given up there.
    fn give_back(&self, new: &mut State, t: u8, names: u8, is_left: bool, is_end: bool) {
        let rest = names & names.wrapping_sub(1);
        let is_done = names == 0 || self.gives_back(new, t, names.trailing_zeros() as u8);
        let is_left = is_left || !is_done && !(is_end && self.has("commit_ignores_changed"));
        let asks = is_left || is_end && new.me(t).is_known && !self.has("commit_ignores_manager");
        (new.me(t).is_known, new.me(t).at) = match rest {
            0 if asks => (true, At::GiveUp(if is_end { ALL } else { names })),
            0 => (new.me(t).is_known && !is_end, At::Ready),
            _ => (new.me(t).is_known, At::GiveBack(rest, is_left, is_end)),
        };
    }

    /// A step of one that has the lock. Until it gives it back nobody else changes a word that is fat.
    fn step_inside(&self, new: &mut State, t: u8, at: At) -> Kept {
        match at {
            At::Load(ask) => match new.words[self.bucket(ask.name)] {
                word @ Word::Free => new.me(t).at = At::Fatten(ask, word),
                word @ Word::Thin(of) => {
                    let early = self.taken(new, of, self.bucket(ask.name)).filter(|_| self.has("name_is_read_early"));
                    new.me(t).at = At::Fatten(Ask { early, ..ask }, word);
                }
                _ => return self.go_on(new, t, ask),
            },
            At::Fatten(ask, word) if new.words[self.bucket(ask.name)] != word => new.leave(t, At::Load(Ask { early: None, ..ask })),
            At::Fatten(ask, Word::Thin(of)) => (new.words[self.bucket(ask.name)], new.me(t).at) = (Word::Reading, At::Read(ask, of)),
            At::Fatten(ask, _) => {
                new.words[self.bucket(ask.name)] = Word::Fat;
                return self.go_on(new, t, ask);
            }
            At::Read(ask, of) => return self.adopt(new, t, ask, of),
            At::Look(name, how, is_over) => {
                new.leave(t, if is_over { At::Ready } else { At::Sleep(name, how) });
                if new.owner(name) == Some(t) {
                    new.grant(t, name);
                } else if is_over && !self.has("cancel_stays_in_queue") {
                    new.dequeue(name, t);
                }
            }
            At::GiveUp(names) => return self.give_up(new, t, names),
            _ => return Err("a step of nobody"),
        }
        Ok(())
    }

    /// The bucket is fat: it is the request's turn.
    fn go_on(&self, new: &mut State, t: u8, ask: Ask) -> Kept {
        new.leave(t, At::Ready);
        match new.owner(ask.name) {
            _ if new.waits_for(t).is_some() => return Err("one that waits asks for a name"),
            None if self.is_full(new) => {}
            Some(owner) if owner != t && ask.how == How::Try => {}
            Some(owner) if owner != t && self.closes(new, t, ask.name) => {}
            Some(owner) if owner != t => {
                new.me(t).at = At::Sleep(ask.name, ask.how);
                *new.queue[ask.name as usize].iter_mut().find(|waiter| waiter.is_none()).unwrap() = Some(t);
            }
            _ => {
                new.owner[ask.name as usize] = Some(t);
                new.grant(t, ask.name);
            }
        }
        Ok(())
    }

    /// Whether the owner of the name waits, directly or over others, for this thread: then the request is refused.
    fn closes(&self, state: &State, t: u8, name: u8) -> bool { state.chain(Some(name)).contains(&t) && !self.has("closer_waits") }

    /// Gives the name of a bucket that was thin, in the manager, to the one that had taken it, also if that one waits. What is refused is thin again.
    fn adopt(&self, new: &mut State, t: u8, ask: Ask, of: u8) -> Kept {
        let bucket = self.bucket(ask.name);
        let name = ask.early.or(self.taken(new, of, bucket)).ok_or("a thin bucket has no name")?;
        let owner = new.owner(name).or(if self.is_full(new) { None } else { Some(of) });
        if owner == Some(of) {
            let is_passed_over = self.has("waiter_is_passed_over") && new.waits_for(of).is_some();
            (new.words[bucket], new.owner[name as usize]) = (Word::Lent, owner.filter(|_| !is_passed_over));
            return self.go_on(new, t, ask);
        }
        new.words[bucket] = if self.has("refused_stays_fat") { Word::Lent } else { Word::Thin(of) };
        new.leave(t, At::Ready);
        Ok(())
    }

    /// Gives these names up, by their words or in the manager; all: ends the transaction.
    fn give_up(&self, new: &mut State, t: u8, names: u8) -> Kept {
        let left: Vec<u8> = each(names).filter(|&name| !self.gives_back(new, t, name)).collect();
        if !left.is_empty() {
            each(new.me(t).taken).for_each(|name| self.let_go(new, t, name));
        }
        if names == ALL {
            new.me(t).is_known = false;
        }
        for name in left {
            match new.owner(name) {
                Some(owner) if owner == t => self.hand_over(new, t, name),
                _ if names == ALL => {}
                _ => return Err("the manager does not know the owner of a name that is unlocked"),
            }
        }
        let at = if new.me(t).wakes == 0 { At::Ready } else { At::Wake };
        new.leave(t, at);
        Ok(())
    }

    /// Lets a bucket go, if it is lent.
    fn let_go(&self, new: &mut State, t: u8, name: u8) {
        let bucket = self.bucket(name);
        if new.words[bucket] == Word::Lent && !self.has("lent_is_freed") {
            new.words[bucket] = if self.has("let_go_frees") { Word::Free } else { Word::Fat };
            new.me(t).taken &= !(1 << name);
        }
    }

    /// Gives a name in the manager to its longest waiter. If there is none, and the manager has no other name of its bucket, this is freed.
    fn hand_over(&self, new: &mut State, t: u8, name: u8) {
        let (bucket, next) = (self.bucket(name), new.queue[name as usize][0]);
        new.owner[name as usize] = next;
        if let Some(next) = next {
            new.dequeue(name, next);
            new.me(t).wakes |= if self.has("grant_wakes_nobody") { 0 } else { 1 << next };
        }
        let is_empty = each(ALL).all(|other| self.bucket(other) != bucket || new.owner(other).is_none());
        let is_fat = new.words[bucket] == Word::Fat || self.has("lent_is_freed");
        if is_fat && (is_empty || self.has("unlock_frees_all")) {
            new.words[bucket] = Word::Free;
        }
    }
}

/// The first of these that is so.
fn none_of(broken: &[(bool, &'static str)]) -> Kept {
    broken.iter().find(|(is_so, _)| *is_so).map_or(Ok(()), |&(_, why)| Err(why))
}

/// What holds in each state.
impl Search {
    fn check_name(&self, state: &State, name: u8) -> Kept {
        let (owner, word) = (state.owner(name), state.words[self.bucket(name)]);
        let have = |set: fn(&Thread) -> u8| (0..MOST as u8).filter(move |&t| set(&state.threads[t as usize]) >> name & 1 == 1);
        let (holders, takers): (Vec<u8>, Vec<u8>) = (have(|thread| thread.held).collect(), have(|thread| thread.taken).collect());
        let is_thin = |&t: &u8| word == Word::Thin(t) && takers.contains(&t);
        let is_lent = matches!(word, Word::Reading | Word::Lent);
        none_of(&[
            (holders.len() > 1 || takers.len() > 1, "a name has two owners"),
            (owner.is_some() && !matches!(word, Word::Fat | Word::Lent), "the manager has a name of a bucket that is not fat"),
            (owner.is_none() && state.queue[name as usize][0].is_some(), "one waits for a name that nobody owns"),
            (owner.is_some() && holders.iter().any(|&t| owner != Some(t)), "the manager gives a name to one, and another one owns it"),
            (owner.is_none() && state.lock.is_none() && !holders.iter().all(is_thin), "neither its word nor the manager knows the owner of a name"),
            (!takers.iter().all(is_thin) && !takers.is_empty() && !is_lent, "one has taken a name, and its word says something else"),
            (is_lent && state.lock.is_none() && takers.iter().any(|&t| owner != Some(t)), "a bucket is lent, and the manager does not know its name"),
        ])
    }

    fn check_thread(&self, state: &State, t: u8) -> Kept {
        let (thread, waits_for) = (&state.threads[t as usize], state.waits_for(t));
        let (chain, sleeps_for) = (state.chain(waits_for), match thread.at {
            At::Sleep(name, _) | At::Look(name, ..) => Some(name),
            _ => None,
        });
        none_of(&[
            (waits_for.is_some() && sleeps_for.is_none(), "one works, and waits"),
            (matches!(sleeps_for, Some(name) if waits_for.is_none() && state.owner(name) != Some(t)), "one sleeps, and waits for nothing"),
            (chain.contains(&t), "one waits for itself"),
        ])
    }

    /// What holds where no step follows.
    fn check_end(&self, state: &State) -> Kept {
        let is_done = |thread: &Thread| thread.at == At::Ready && thread.held == 0 && !thread.is_known;
        let is_free = |word: &Word| *word == Word::Free || *word == Word::Fat && self.sizes[4] < self.sizes[1]; // (what is refused stays fat)
        none_of(&[
            (!state.threads.iter().all(is_done), "one never comes to its end"),
            (state.threads.iter().any(|thread| thread.taken != 0), "a name is taken in the end"),
            (state.owner != [None; MOST], "a name is owned in the end"),
            (!state.words.iter().all(is_free), "a bucket is not free in the end"),
        ])
    }

    /// All states that follow a state, in which all holds.
    fn follow(&mut self, state: &State) -> Result<Vec<State>, &'static str> {
        (0..self.sizes[1]).try_for_each(|name| self.check_name(state, name))?;
        (0..self.sizes[0]).try_for_each(|t| self.check_thread(state, t))?;
        self.next.clear();
        (0..self.sizes[0]).try_for_each(|t| self.step(state, t))?;
        if !state.is_ending {
            self.next.push(State { is_ending: true, ..*state });
        } else if self.next.is_empty() {
            self.check_end(state)?;
        }
        Ok(std::mem::take(&mut self.next))
    }
}

/// Looks at all states, each path to its end.
fn main() {
    let given: Vec<String> = std::env::args().skip(1).collect();
    let sizes = std::array::from_fn(|place| given[place].parse().expect("a number"));
    let mut search = Search { sizes, calls: given[5].clone(), fault: given.get(6).cloned().unwrap_or_default(), next: vec![] };
    let (mut seen, mut path) = (HashSet::new(), vec![(State::default(), vec![State::default()])]);
    while let Some((_, next)) = path.last_mut() {
        let state = match next.pop() {
            Some(state) => state,
            None => {
                path.pop();
                continue;
            }
        };
        let mut hasher = DefaultHasher::new();
        state.hash(&mut hasher);
        if seen.insert(hasher.finish()) {
            match search.follow(&state) {
                Ok(next) => path.push((state, next)),
                Err(why) => {
                    println!("{why}");
                    return path.iter().map(|(state, _)| state).chain([&state]).for_each(|state| println!("{state:?}"));
                }
            }
        }
    }
    println!("{} states", seen.len());
}
