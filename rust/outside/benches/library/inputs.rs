//! What is measured.

use outside::random::Random;
use outside::simulate::{simulate, Faults, Plan};
use reference::event::*;
use reference::justification::Outcome;
use reference::log::Log;
use reference::notes::note_record;
use reference::reads::transactions;
use reference::record::records_from;
use reference::store::Store;
use reference::worked::marking;

/// A log of a simulated transactional memory, with exactly so many transactions and events. It is opaque.
pub fn simulated(begins: usize, events: usize, seed: u64) -> Vec<Event> {
    let length = (events / begins / 2).max(2);
    some_log(Store::ZERO, plan(begins, events, length), seed).events
}

/// The same beside tasks that access the store bare: about so many of a hundred transactions are lone accesses. The registers start with
/// values of their own.
pub fn simulated_lone(begins: usize, events: usize, lone: usize, seed: u64) -> Log {
    let starts: Vec<(u16, u32)> = (0..16).map(|register| (register, 1_000 + u32::from(register))).collect();
    let length = (100 * events / begins / (100 - lone) / 2).max(2);
    some_log(Store::of(&starts), Plan { lone, ..plan(begins, events, length) }, seed)
}

fn plan(begins: usize, events: usize, length: usize) -> Plan {
    Plan { transactions: begins, threads: begins.min(4), registers: 16, events, length, lone: 0, faults: Faults::default() }
}

fn some_log(store: Store, plan: Plan, seed: u64) -> Log {
    let mut logs = (seed * 1_000_000..).map(|seed| simulate(&mut Random::new(seed), store, plan));
    let is_whole = |log: &Log| log.events.len() == plan.events && transactions(&log.events) == plan.transactions;
    logs.find(is_whole).expect("some seed gives such a log")
}

/// A file with a note of so many bytes before every so many of the records behind its head.
pub fn noted(file: &[u8], every: usize, size: usize) -> Vec<u8> {
    let (records, _) = records_from(file, 6);
    let note = |at: usize| if at % every == 0 { note_record(&vec![b'-'; size]) } else { vec![] };
    let behind = records.iter().enumerate().flat_map(|(at, record)| [&note(at)[..], &file[record.byte..record.next]].concat());
    file[..6].iter().copied().chain(behind).collect()
}

/// The same log with another value at its last returned read of a register that the transaction had not written: nothing
/// justifies it.
pub fn late_fault(mut log: Vec<Event>) -> Vec<Event> {
    let last = reference::reads::store_reads(&log).last().expect("a log has store reads");
    log[last].value = u32::MAX;
    log
}

/// So many transactions one after the other, all committed, with so many events or one less; and the marking in that order. Each
/// reads what the one before it wrote to register 0, and registers that nobody wrote, for which every place is looked through.
pub fn serial(begins: usize, events: usize) -> (Vec<Event>, Vec<u8>) {
    serial_reads(begins, events, 32)
}

/// The same with reads of so many registers only.
pub fn serial_reads(begins: usize, events: usize, registers: u16) -> (Vec<Event>, Vec<u8>) {
    let reads = (events - 5 * begins) / 2; // a begin, a write and a commit take five events
    let mut log = Log::new();
    let mut points = Vec::new();
    for t in 0..begins {
        let transaction = t as u16;
        log = log.begin(0);
        for read in 0..reads * (t + 1) / begins - reads * t / begins {
            let register = read as u16 % registers;
            let value = if register == 0 { t as u32 } else { 0 };
            log = log.read(transaction, register, value);
            points.push((log.events.len() as u32 - 1, transaction));
        }
        log = log.write(transaction, 0, t as u32 + 1).commit(transaction);
    }
    let places: Vec<(u16, Outcome)> = (0..begins as u16).map(|t| (t, Outcome::Committed)).collect();
    (log.events, marking(&places, &points))
}

/// A marking of the same outcomes and order, in which each read point stands at a random gap.
pub fn careless(events: &[Event], marking: &[u8]) -> Vec<u8> {
    let mut random = Random::new(1);
    let gaps = transactions(events) + 1;
    let mut careless = marking.to_vec();
    for point in careless[6 + 8 * transactions(events)..].chunks_mut(10) {
        point[8..].copy_from_slice(&(random.below(gaps) as u16).to_le_bytes());
    }
    careless
}

/// So many transactions that have written one register and called commit, and a read of a value that none of them wrote.
pub fn pending_writers(writers: u16) -> Vec<Event> {
    let log = (0..writers).fold(Log::new(), |log, t| log.begin(t).write(t, 0, u32::from(t) + 1).commit_called(t));
    log.begin(writers).read(writers, 0, 99).events
}

/// So many transactions at the same time, each of which read a register before the next one wrote it, all committed: each would have
/// to come before the next, and the last before the first.
pub fn cycle(length: u16) -> Vec<Event> {
    let log = (0..length).fold(Log::new(), |log, t| log.begin(t).read(t, t, 0));
    let log = (0..length).fold(log, |log, t| log.write(t, (t + 1) % length, 1));
    (0..length).fold(log, |log, t| log.commit(t)).events
}
