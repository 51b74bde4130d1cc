//! Random readable histories: transactions that go on by turns, and in edition 2 accesses outside them, with reads that often, but not
//! always, return something that an order of the transactions explains.

use crate::random::Random;
use crate::stores::random_store;
use reference::event::*;
use reference::log::Log;
use reference::questions::{ended, pending};
use reference::reads::{last_write, transactions};
use reference::store::Store;

/// What a history may look like.
#[derive(Clone, Copy, Debug)]
pub struct Shape {
    pub transactions: usize,
    pub threads: u16,
    pub registers: u16,
    /// Written values are from 0 to this.
    pub values: u32,
    pub events: usize,
    /// Commits that wait for their answer at one time.
    pub pending: usize,
    /// Of a hundred commits, those that are answered with aborted.
    pub refused_commits: usize,
    /// Of a hundred reads, those that return a random value.
    pub wild_reads: usize,
    /// Of a hundred transactions, those that are lone accesses, where the history is of edition 2.
    pub lone: usize,
}

impl Shape {
    /// A small history, such as the brute force judges.
    pub fn small(random: &mut Random) -> Shape {
        Shape {
            transactions: random.pick(&[1, 2, 2, 3, 3, 3, 3, 4, 4, 5]),
            threads: random.pick(&[1, 2, 3, 4, 4]),
            registers: random.pick(&[1, 1, 2, 3]),
            values: random.pick(&[1, 2, 3]),
            events: 4 + random.below(30),
            pending: random.pick(&[1, 2, 3]),
            refused_commits: random.pick(&[10, 30, 70]),
            wild_reads: random.pick(&[0, 2, 10, 30]),
            lone: random.pick(&[0, 20, 50]),
        }
    }
}

/// A history of this shape over some store. It ends early where all its transactions have ended.
pub fn walk(random: &mut Random, shape: Shape) -> Log {
    let store = random_store(random, usize::from(shape.registers), shape.values);
    let mut walk = Walk { shape, store, events: Vec::new() };
    while walk.events.len() < shape.events && walk.go_on(random) {}
    walk.events.truncate(shape.events);
    Log { store, events: walk.events }
}

struct Walk {
    shape: Shape,
    store: Store,
    events: Vec<Event>,
}

impl Walk {
    /// Begins a transaction or goes on with one. False where neither can be.
    fn go_on(&mut self, random: &mut Random) -> bool {
        let begun = transactions(&self.events);
        let live: Vec<u16> = (0..begun as u16).filter(|&t| !ended(&self.events, t)).collect();
        let free = if begun < self.shape.transactions { self.free_threads(&live) } else { Vec::new() };
        if !free.is_empty() && (live.is_empty() || random.chance(25)) {
            self.begin(random, begun as u16, &free);
        } else if live.is_empty() {
            return false;
        } else {
            let transaction = random.pick(&live);
            self.act(random, transaction);
        }
        true
    }

    /// A begin or a lone access on a free thread.
    fn begin(&mut self, random: &mut Random, transaction: u16, free: &[u16]) {
        let thread = random.pick(free);
        if self.store.edition != 2 || !random.chance(self.shape.lone) {
            return self.events.push(Event { kind: BEGIN, transaction, register: 0, value: 0, thread });
        }
        let register = random.below(usize::from(self.shape.registers)) as u16;
        let (kind, value) = match random.chance(60) {
            true => (LONE_READ, self.value(random, transaction, register)),
            false => (LONE_WRITE, random.below(self.shape.values as usize + 1) as u32),
        };
        self.events.push(Event { kind, transaction, register, value, thread });
    }

    fn free_threads(&self, live: &[u16]) -> Vec<u16> {
        let busy = |thread| self.events.iter().any(|e| e.kind == BEGIN && e.thread == thread && live.contains(&e.transaction));
        (0..self.shape.threads).filter(|&thread| !busy(thread)).collect()
    }

    /// One event of a live transaction, or two where a call returns at once.
    fn act(&mut self, random: &mut Random, t: u16) {
        if let Some(call) = pending(&self.events, t) {
            return self.answer(random, t, call);
        }
        let register = random.below(usize::from(self.shape.registers)) as u16;
        match random.below(100) {
            0..=39 => self.add(READ_CALLED, t, register, 0),
            40..=69 => self.add(WRITE_CALLED, t, register, random.below(self.shape.values as usize + 1) as u32),
            70..=94 if self.commits_pending() < self.shape.pending => return self.add(COMMIT_CALLED, t, 0, 0),
            95.. => return self.add(ABORTED, t, 0, 0),
            _ => return,
        }
        if random.chance(75) {
            let call = pending(&self.events, t).expect("the call just made");
            self.answer(random, t, call);
        }
    }

    fn answer(&mut self, random: &mut Random, t: u16, call: Event) {
        match call.kind {
            _ if random.chance(4) => self.add(ABORTED, t, 0, 0),
            READ_CALLED => self.add(READ_RETURNED, t, call.register, self.value(random, t, call.register)),
            WRITE_CALLED => self.add(WRITE_RETURNED, t, 0, 0),
            // A commit may wait a while, so that others can read from it.
            _ if random.chance(40) => (),
            _ if random.chance(self.shape.refused_commits) => self.add(ABORTED, t, 0, 0),
            _ => self.add(COMMITTED, t, 0, 0),
        }
    }

    fn commits_pending(&self) -> usize {
        let called = |t| pending(&self.events, t).is_some_and(|call| call.kind == COMMIT_CALLED);
        (0..transactions(&self.events) as u16).filter(|&t| called(t)).count()
    }

    /// What a read returns: an own write, something that a transaction wrote, or what stood there first.
    fn value(&self, random: &mut Random, t: u16, register: u16) -> u32 {
        if random.chance(self.shape.wild_reads) {
            return random.below(self.shape.values as usize + 2) as u32;
        }
        if let Some(own) = last_write(&self.events, t, register) {
            return own;
        }
        // Reading the same again is what most transactional memories do.
        let mut earlier = self.events.iter().filter(|e| e.kind == READ_RETURNED && e.transaction == t && e.register == register);
        if let (Some(read), true) = (earlier.next(), random.chance(85)) {
            return read.value;
        }
        let mut choices: Vec<u32> = self.published(register);
        match choices.pop() {
            Some(latest) if random.chance(70) => latest,
            Some(_) if !choices.is_empty() => random.pick(&choices),
            _ => self.store.start(register),
        }
    }

    /// What transactions left in a register when they called commit, and lone writes at once, the latest last.
    fn published(&self, register: u16) -> Vec<u32> {
        let calls = self.events.iter().filter(|e| e.kind == COMMIT_CALLED || e.kind == LONE_WRITE);
        let aborted = |t: u16| self.events.iter().any(|e| e.kind == ABORTED && e.transaction == t);
        calls.filter(|e| !aborted(e.transaction)).filter_map(|e| last_write(&self.events, e.transaction, register)).collect()
    }

    fn add(&mut self, kind: u16, transaction: u16, register: u16, value: u32) {
        self.events.push(Event { kind, transaction, register, value, thread: 0 });
    }
}
