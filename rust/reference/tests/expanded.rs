//! A lone access is judged as the transaction of five events that it stands for, begin, call, return, commit called and committed, with
//! nothing between them. Random histories are compared with the same ones written out so.

use reference::entries;
use reference::event::*;
use reference::judgement::{is_justified, lowest, scan, Scanned};
use reference::justification::{Outcome, Place};
use reference::log::Log;
use reference::marking_file::{Marking, Point};
use reference::questions::{begins, ended, pending};
use reference::reads::{store_reads, transactions};
use reference::rules::{verdict, Rule, Verdict};
use reference::straighten::{moved, straighten};
use reference::tally::tally;
use std::collections::BTreeMap;

const ROUNDS: u64 = 20_000;

/// The public splitmix64 generator.
struct Random(u64);

impl Random {
    fn below(&mut self, bound: usize) -> usize {
        self.0 = self.0.wrapping_add(0x9e37_79b9_7f4a_7c15);
        let word = (self.0 ^ (self.0 >> 30)).wrapping_mul(0xbf58_476d_1ce4_e5b9);
        let word = (word ^ (word >> 27)).wrapping_mul(0x94d0_49bb_1331_11eb);
        ((word ^ (word >> 31)) % bound as u64) as usize
    }
}

/// A readable history of up to five transactions on three threads and two registers.
fn random_history(random: &mut Random) -> Log {
    let starts = [(0, random.below(3) as u32), (1, random.below(3) as u32)];
    let steps = 4 + random.below(36);
    (0..steps).fold(Log::starting(&starts), |log, _| {
        let thread = random.below(3) as u16;
        let last = log.events.iter().rev().find(|e| e.is_begin() && e.thread == thread).map(|e| e.transaction);
        match last.filter(|&t| !ended(&log.events, t)) {
            Some(transaction) => continued(log, transaction, random),
            None if begins(&log.events) < 5 => begun(log, thread, random),
            None => log,
        }
    })
}

fn begun(log: Log, thread: u16, random: &mut Random) -> Log {
    let register = random.below(2) as u16;
    match random.below(4) {
        0 => read(&log, register, random, |log, value| log.lone_read(thread, register, value)),
        1 => log.lone_write(thread, register, random.below(4) as u32),
        _ => log.begin(thread),
    }
}

fn continued(log: Log, transaction: u16, random: &mut Random) -> Log {
    let (register, value) = (random.below(2) as u16, random.below(4) as u32);
    let Some(call) = pending(&log.events, transaction) else {
        return match random.below(16) {
            0..=5 => log.read_called(transaction, register),
            6..=10 => log.write_called(transaction, register, value),
            11..=14 => log.commit_called(transaction),
            _ => log.aborted(transaction),
        };
    };
    match call.kind {
        _ if random.below(16) == 0 => log.aborted(transaction),
        COMMIT_CALLED if random.below(2) == 0 => log, // commits wait, for others to read from them
        READ_CALLED => read(&log, call.register, random, |log, value| log.read_returned(transaction, value)),
        WRITE_CALLED => log.write_returned(transaction),
        _ if random.below(4) == 0 => log.aborted(transaction),
        _ => log.committed(transaction),
    }
}

/// The history with a read of what somebody wrote to the register or of what it started with. Mostly, that leaves it justified.
fn read(log: &Log, register: u16, random: &mut Random, with: impl Fn(Log, u32) -> Log) -> Log {
    let writes = log.events.iter().filter(|e| e.is_write() && e.register == register).map(|e| e.value);
    let values: Vec<u32> = writes.chain([log.store.start(register)]).collect();
    let mut any = || with(log.clone(), values[random.below(values.len())]);
    for _ in 0..2 {
        let longer = any();
        if is_justified(&longer.store, &longer.events) {
            return longer;
        }
    }
    any()
}

/// A history without lone accesses, and where each event of the first one begins in it.
struct Expanded {
    log: Log,
    first: Vec<usize>,
}

impl Expanded {
    fn of(lone: &Log) -> Expanded {
        let (mut log, mut first) = (Log { store: lone.store, events: Vec::new() }, Vec::new());
        for &event in &lone.events {
            first.push(log.events.len());
            log = written_out(log, event);
        }
        Expanded { log, first }
    }

    /// The events that take the place of the first so many.
    fn prefix(&self, length: usize) -> &[Event] {
        &self.log.events[..self.first.get(length).copied().unwrap_or(self.log.events.len())]
    }

    /// Where the value is read that this event reads: a lone read's returns third.
    fn read(&self, lone: &Log, event: usize) -> usize {
        self.first[event] + if lone.events[event].kind == LONE_READ { 2 } else { 0 }
    }

    /// The last of the events that take this one's place.
    fn last(&self, lone: &Log, event: usize) -> usize {
        self.first[event] + if lone.events[event].is_lone() { 4 } else { 0 }
    }
}

fn written_out(log: Log, event: Event) -> Log {
    let Event { kind, transaction, register, value, thread } = event;
    match kind {
        LONE_READ => log.begin(thread).read(transaction, register, value).commit(transaction),
        LONE_WRITE => log.begin(thread).write(transaction, register, value).commit(transaction),
        _ => log.event(kind, transaction, register, value, thread),
    }
}

/// What was met, and how often.
#[derive(Default)]
struct Met(BTreeMap<String, usize>);

impl Met {
    fn note(&mut self, what: String) {
        *self.0.entry(what).or_default() += 1;
    }

    fn require(&self, all: &[&str]) {
        all.iter().for_each(|what| assert!(self.0.contains_key(*what), "never met: {what} in {:#?}", self.0));
    }
}

#[test]
fn histories_are_judged_as_written_out() {
    let mut met = Met::default();
    for seed in 0..ROUNDS {
        let lone = random_history(&mut Random(seed));
        let expanded = Expanded::of(&lone);
        assert!(entries::history(&lone.store, &Columns::of(&lone.events), lone.events.len()).is_ok(), "seed {seed}");
        let written = &expanded.log.events;
        assert!(entries::history(&lone.store, &Columns::of(written), written.len()).is_ok(), "seed {seed}");
        let judged = scan(&lone.store, &lone.events);
        let mapped = match judged {
            Scanned::Opaque => Scanned::Opaque,
            Scanned::Faulted { event, cause } => Scanned::Faulted { event: expanded.read(&lone, event), cause },
        };
        assert_eq!(scan(&lone.store, written), mapped, "seed {seed}");
        met.note(match judged {
            Scanned::Opaque => format!("opaque, lone: {}", lone.events.iter().any(|e| e.is_lone())),
            Scanned::Faulted { event, cause } => format!("kind {} cause {cause}", lone.events[event].kind),
        });
    }
    met.require(&[
        "opaque, lone: true",
        "opaque, lone: false",
        "kind 18 cause 1",
        "kind 22 cause 2",
        "kind 23 cause 3",
        "kind 24 cause 1",
    ]);
    assert_eq!(met.0.len(), 6, "nothing else faults a history, a lone write least of all");
}

/// Not only up to the first fault: every prefix that ends with a whole lone access, and the lowest order of the whole.
#[test]
fn prefixes_are_justified_as_written_out() {
    for seed in 0..ROUNDS / 4 {
        let lone = random_history(&mut Random(seed));
        let expanded = Expanded::of(&lone);
        for length in 0..=lone.events.len() {
            let (prefix, written) = (&lone.events[..length], expanded.prefix(length));
            assert_eq!(is_justified(&lone.store, prefix), is_justified(&lone.store, written), "seed {seed}, prefix {length}");
            assert_eq!((transactions(prefix), tally(prefix)), (transactions(written), tally(written)), "seed {seed}");
            let reads: Vec<usize> = store_reads(prefix).map(|read| expanded.read(&lone, read)).collect();
            assert_eq!(reads, store_reads(written).collect::<Vec<_>>(), "seed {seed}, prefix {length}");
        }
        assert_eq!(lowest(&lone.store, &lone.events), lowest(&lone.store, &expanded.log.events), "seed {seed}");
    }
}

/// A marking of the history: often its lowest order, else any, mostly with the outcomes that are allowed, and points anywhere.
fn random_marking(log: &Log, random: &mut Random) -> Marking {
    let any = |random: &mut Random| {
        let mut left: Vec<u16> = (0..transactions(&log.events) as u16).collect();
        let outcome = |committed| if committed { Outcome::Committed } else { Outcome::Aborted };
        let committed = |t: u16| log.events.iter().any(|e| e.is_commit() && e.transaction == t);
        let mut places = Vec::new();
        while !left.is_empty() {
            let transaction = left.remove(random.below(left.len().min(2)));
            places.push(Place { transaction, outcome: outcome(committed(transaction) != (random.below(16) == 0)) });
        }
        places
    };
    let order = lowest(&log.store, &log.events).filter(|_| random.below(3) > 0).unwrap_or_else(|| any(random));
    let mut marking = Marking::of(&log.events, &order);
    for point in &mut marking.points {
        if random.below(3) == 0 {
            point.gap = random.below(order.len() + 1) as u16;
        }
    }
    marking
}

/// The verdict with the event that takes the named one's place: rule A names a last event, rule B a begin, the others a read.
fn mapped(broken: Verdict, lone: &Log, expanded: &Expanded) -> Verdict {
    match broken {
        Verdict::Accepted => Verdict::Accepted,
        Verdict::Broken { rule, event, transaction } => {
            let event = match rule {
                Rule::A => expanded.last(lone, event),
                Rule::B => expanded.first[event],
                Rule::C | Rule::D | Rule::E => expanded.read(lone, event),
            };
            Verdict::Broken { rule, event, transaction }
        }
    }
}

#[test]
fn markings_are_checked_as_written_out() {
    let mut met = Met::default();
    for seed in 0..ROUNDS / 4 {
        let random = &mut Random(seed);
        let lone = random_history(random);
        let expanded = Expanded::of(&lone);
        let (store, events, written) = (&lone.store, &lone.events, &expanded.log.events);
        let moved_there = |event: u32| expanded.read(&lone, event as usize) as u32;
        let there = |marking: &Marking| {
            let points = marking.points.iter().map(|p| Point { event: moved_there(p.event), ..*p });
            Marking { places: marking.places.clone(), points: points.collect() }
        };
        let marking = random_marking(&lone, random);
        let judged = verdict(store, events, &marking);
        assert_eq!(verdict(store, written, &there(&marking)), mapped(judged, &lone, &expanded), "seed {seed}");
        let listed: Vec<u32> = moved(store, events, &marking).into_iter().map(moved_there).collect();
        assert_eq!(moved(store, written, &there(&marking)), listed, "seed {seed}");
        let straight = straighten(store, events, &marking);
        assert_eq!(straighten(store, written, &there(&marking)), there(&straight), "seed {seed}");
        met.note(match judged {
            Verdict::Accepted => format!("accepted, lone: {}", events.iter().any(|e| e.is_lone())),
            Verdict::Broken { rule, event, .. } => format!("rule {rule:?}, lone: {}", events[event].is_lone()),
        });
    }
    met.require(&["accepted, lone: true", "rule A, lone: true", "rule B, lone: true", "rule C, lone: false"]);
    met.require(&["rule D, lone: true", "rule E, lone: true", "rule D, lone: false", "rule E, lone: false"]);
}
