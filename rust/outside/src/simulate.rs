//! A simulated transactional memory. Each transaction reads from the contents that it found at its begin, under its own writes. A
//! commit goes through if nobody has since changed what it read, and its writes are in the store once commit is called. In edition 2
//! threads that run no transaction may access the store bare. Such histories are opaque; faults can be let in.

use crate::random::Random;
use reference::event::*;
use reference::log::Log;
use reference::store::Store;

/// What is simulated.
#[derive(Clone, Copy, Debug)]
pub struct Plan {
    pub transactions: usize,
    pub threads: usize,
    pub registers: usize,
    /// The exact number of events, if the transactions last so long.
    pub events: usize,
    /// Once in so many steps a thread ends what it does by a commit or a withdrawal.
    pub length: usize,
    /// Of a hundred transactions, those that are lone accesses, where the log is of edition 2.
    pub lone: usize,
    pub faults: Faults,
}

impl Plan {
    /// A small memory, such as the brute force judges, in which nothing goes wrong.
    pub fn small(random: &mut Random) -> Plan {
        Plan {
            transactions: random.pick(&[2, 3, 3, 4, 5]),
            threads: random.pick(&[2, 2, 3]),
            registers: random.pick(&[1, 1, 2, 3]),
            events: 20 + random.below(20),
            length: random.pick(&[3, 4]),
            lone: random.pick(&[0, 30, 60]),
            faults: Faults::default(),
        }
    }
}

/// What goes wrong, each in so many of a hundred cases.
#[derive(Clone, Copy, Debug, Default)]
pub struct Faults {
    /// A read returns what the store holds now, and not at the begin.
    pub reads: usize,
    /// A commit goes through although something that was read has changed.
    pub commits: usize,
    /// A commit that went through is answered with aborted.
    pub answers: usize,
    /// A lone read returns what the register held before its last change.
    pub lone_reads: usize,
}

/// Simulates a transactional memory that starts with this store, and returns its log.
pub fn simulate(random: &mut Random, store: Store, plan: Plan) -> Log {
    // Lone accesses came with edition 2.
    let plan = if store.edition == 2 { plan } else { Plan { lone: 0, ..plan } };
    let contents = store.starts[..plan.registers].to_vec();
    let mut memory = Memory {
        plan,
        before: contents.clone(),
        store: contents,
        version: vec![0; plan.registers],
        clock: 0,
        begun: 0,
        threads: vec![None; plan.threads],
        log: Vec::new(),
    };
    while memory.log.len() < plan.events {
        let thread = random.below(plan.threads);
        match memory.threads[thread].take() {
            Some(running) => memory.threads[thread] = memory.step(random, running),
            None if memory.begun < plan.transactions => memory.threads[thread] = memory.begin(random, thread),
            None if memory.threads.iter().all(Option::is_none) => break,
            None => (),
        }
    }
    Log { store, events: memory.log }
}

#[derive(Clone, Debug)]
struct Running {
    transaction: u16,
    began: u64,
    found: Vec<u32>,
    read: Vec<bool>,
    wrote: Vec<Option<u32>>,
    waits: Waits,
}

/// What a thread waits for.
#[derive(Clone, Copy, Debug)]
enum Waits {
    Nothing,
    Read(usize),
    Write,
    Commit { goes_through: bool },
}

struct Memory {
    plan: Plan,
    store: Vec<u32>,
    /// What stood in each register before its last change.
    before: Vec<u32>,
    /// When each register was last changed.
    version: Vec<u64>,
    clock: u64,
    begun: usize,
    threads: Vec<Option<Running>>,
    log: Vec<Event>,
}

impl Memory {
    /// A lone access, which takes effect at once.
    fn access(&mut self, random: &mut Random, thread: usize) {
        let (transaction, register) = (self.begun as u16, random.below(self.plan.registers));
        self.begun += 1;
        let (kind, value) = match random.chance(70) {
            true if random.chance(self.plan.faults.lone_reads) => (LONE_READ, self.before[register]),
            true => (LONE_READ, self.store[register]),
            false => (LONE_WRITE, 1 + random.below(1_000) as u32),
        };
        if kind == LONE_WRITE {
            self.clock += 1;
            self.change(register, value);
        }
        self.log.push(Event { kind, transaction, register: register as u16, value, thread: thread as u16 });
    }

    /// Begins a transaction, or makes a lone access, of which nothing is left.
    fn begin(&mut self, random: &mut Random, thread: usize) -> Option<Running> {
        if self.plan.lone > 0 && random.chance(self.plan.lone) {
            self.access(random, thread);
            return None;
        }
        let transaction = self.begun as u16;
        self.begun += 1;
        self.log.push(Event { kind: BEGIN, transaction, register: 0, value: 0, thread: thread as u16 });
        let registers = self.plan.registers;
        Some(Running {
            transaction,
            began: self.clock,
            found: self.store.clone(),
            read: vec![false; registers],
            wrote: vec![None; registers],
            waits: Waits::Nothing,
        })
    }

    /// The next event of a thread; nothing is left of a transaction that ends.
    fn step(&mut self, random: &mut Random, mut running: Running) -> Option<Running> {
        let t = running.transaction;
        match running.waits {
            Waits::Nothing => return self.call(random, running),
            Waits::Read(register) => {
                let value = self.read(random, &mut running, register);
                self.note(READ_RETURNED, t, register, value);
            }
            Waits::Write => self.note(WRITE_RETURNED, t, 0, 0),
            // The answer takes its time, so that others read what is not yet answered.
            Waits::Commit { .. } if random.chance(70) => return Some(running),
            Waits::Commit { goes_through } => {
                let goes_through = goes_through && !random.chance(self.plan.faults.answers);
                self.note(if goes_through { COMMITTED } else { ABORTED }, t, 0, 0);
                return None;
            }
        }
        running.waits = Waits::Nothing;
        Some(running)
    }

    fn call(&mut self, random: &mut Random, mut running: Running) -> Option<Running> {
        let t = running.transaction;
        let register = random.below(self.plan.registers);
        if random.one_in(self.plan.length) {
            if random.one_in(8) {
                self.note(ABORTED, t, 0, 0);
                return None;
            }
            self.note(COMMIT_CALLED, t, 0, 0);
            let goes_through = self.commit(random, &running);
            running.waits = Waits::Commit { goes_through };
        } else if random.chance(60) {
            self.note(READ_CALLED, t, register, 0);
            running.waits = Waits::Read(register);
        } else {
            let value = 1 + random.below(1_000) as u32;
            running.wrote[register] = Some(value);
            self.note(WRITE_CALLED, t, register, value);
            running.waits = Waits::Write;
        }
        Some(running)
    }

    fn read(&self, random: &mut Random, running: &mut Running, register: usize) -> u32 {
        if let Some(own) = running.wrote[register] {
            return own;
        }
        running.read[register] = true;
        match random.chance(self.plan.faults.reads) {
            true => self.store[register],
            false => running.found[register],
        }
    }

    /// Puts the writes into the store if nothing that was read has changed.
    fn commit(&mut self, random: &mut Random, running: &Running) -> bool {
        let unchanged = (0..self.plan.registers).all(|r| !running.read[r] || self.version[r] <= running.began);
        if !unchanged && !random.chance(self.plan.faults.commits) {
            return false;
        }
        self.clock += 1;
        for (register, value) in running.wrote.iter().enumerate() {
            if let Some(value) = *value {
                self.change(register, value);
            }
        }
        true
    }

    /// Puts a value into the store, at the time that the clock says.
    fn change(&mut self, register: usize, value: u32) {
        self.before[register] = self.store[register];
        self.store[register] = value;
        self.version[register] = self.clock;
    }

    fn note(&mut self, kind: u16, transaction: u16, register: usize, value: u32) {
        self.log.push(Event { kind, transaction, register: register as u16, value, thread: 0 });
    }
}
