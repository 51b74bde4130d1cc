//! Histories at each limit and one step beyond it: together they meet every question that an event can fail.

use crate::random::Random;
use crate::simulate::{simulate, Faults, Plan};
use reference::event::*;
use reference::log::Log;
use reference::notes::NOTE;
use reference::store::Store;

/// A log of exactly so many events, from a few long transactions.
pub fn long(events: usize) -> Vec<Event> {
    let plan = Plan { transactions: 4, threads: 3, registers: 32, events, length: 1_000_000, lone: 0, faults: Faults::default() };
    simulate(&mut Random::new(events as u64), Store::ZERO, plan).events
}

/// Transactions one after the other on all threads by turns.
pub fn serial(begins: u16) -> Vec<Event> {
    (0..begins).fold(Log::new(), |log, t| log.begin(t % 16).aborted(t)).events
}

/// Lone accesses on all threads by turns.
pub fn alone(begins: u16) -> Vec<Event> {
    let access = |log: Log, t: u16| match t % 2 {
        0 => log.lone_read(t % 16, t % 32, 0),
        _ => log.lone_write(t % 16, t % 32, 0),
    };
    (0..begins).fold(Log::new(), access).events
}

/// Transactions that all run at the same time.
pub fn concurrent(begins: u16) -> Vec<Event> {
    (0..begins).fold(Log::new(), |log, thread| log.begin(thread)).events
}

/// All of them.
pub fn histories() -> Vec<Vec<Event>> {
    let logs = [single(), stray(), lone(), due(), several(), several_alone()].concat();
    let mut all: Vec<Vec<Event>> = logs.into_iter().map(|log| log.events).collect();
    all.extend([2_047, 2_048, 2_049].map(long));
    all.extend([63, 64, 65].map(serial));
    all.extend([10, 11, 16].map(concurrent));
    all.extend([5, 11, 63, 64, 65].map(alone));
    all
}

fn one() -> Log {
    Log::new().begin(0)
}

/// One question at a time, answered with yes and with no.
fn single() -> Vec<Log> {
    vec![
        Log::new(),
        one().read(0, 31, 0),
        one().read(0, 32, 0),
        one().write(0, 31, 1),
        one().write(0, 32, 1),
        Log::new().begin(15),
        Log::new().begin(16),
        one().begin(0),
        one().event(BEGIN, 2, 0, 0, 1),
        one().event(BEGIN, 0, 0, 0, 1),
        one().read_called(1, 0),
        one().aborted(0).aborted(0),
        one().commit(0).read_called(0, 0),
        Log::new().aborted(0),
        one().event(BEGIN - 1, 0, 0, 0, 0),
        one().event(LONE_WRITE + 1, 1, 0, 0, 1),
        // A note is no event: in columns its kind is unknown, in a file it is passed over.
        one().event(NOTE, 0, 0, 0, 0),
    ]
}

/// Fields that a kind lacks and that are not 0, and a returned read of another register than was asked for.
fn stray() -> Vec<Log> {
    vec![
        Log::new().event(BEGIN, 0, 0, 1, 0),
        Log::new().event(BEGIN, 0, 1, 0, 0),
        Log::new().event(BEGIN, 0, 1, 0, 1),
        one().event(READ_CALLED, 0, 1, 1, 0),
        one().event(READ_CALLED, 0, 1, 0, 1),
        one().read_called(0, 1).event(READ_RETURNED, 0, 2, 0, 0),
        one().read_called(0, 1).event(READ_RETURNED, 0, 1, 0, 1),
        one().event(WRITE_CALLED, 0, 1, 1, 1),
        one().write_called(0, 1, 1).event(WRITE_RETURNED, 0, 1, 0, 0),
        one().write_called(0, 1, 1).event(WRITE_RETURNED, 0, 0, 0, 1),
        one().event(COMMIT_CALLED, 0, 0, 1, 0),
        one().event(COMMIT_CALLED, 0, 0, 0, 1),
        one().commit_called(0).event(COMMITTED, 0, 0, 0, 1),
        one().event(ABORTED, 0, 1, 0, 0),
        one().event(ABORTED, 0, 0, 0, 256),
    ]
}

/// Lone accesses to which one question at a time says yes and no, and what may come after one.
fn lone() -> Vec<Log> {
    let of = |kind: u16| {
        let access = |t, register, thread| one().event(kind, t, register, 9, thread);
        vec![
            access(1, 31, 1),
            access(1, 32, 1),
            access(1, 0, 15),
            access(1, 0, 16),
            access(0, 0, 1),
            access(2, 0, 1),
            access(1, 0, 0),
            one().aborted(0).event(kind, 1, 0, 9, 0),
            access(1, 0, 1).event(kind, 2, 0, 9, 1),
            access(1, 0, 1).begin(1),
            access(1, 0, 1).begin(0),
            access(1, 0, 1).aborted(1),
            access(1, 0, 1).read_called(1, 0),
            access(1, 0, 1).event(COMMITTED, 1, 0, 0, 0),
            access(1, 0, 1).read(0, 0, 0),
        ]
    };
    [of(LONE_READ), of(LONE_WRITE)].concat()
}

/// Every kind of event with every kind of call pending, and with none.
fn due() -> Vec<Log> {
    let states = [one(), one().read_called(0, 1), one().write_called(0, 1, 1), one().commit_called(0)];
    let next = [READ_CALLED, READ_RETURNED, WRITE_CALLED, WRITE_RETURNED, COMMIT_CALLED, COMMITTED, ABORTED];
    let register = |kind| u16::from(kind == READ_RETURNED);
    states.iter().flat_map(|log| next.map(|kind| log.clone().event(kind, 0, register(kind), 0, 0))).collect()
}

fn full() -> Log {
    Log { events: long(2_048), ..Log::new() }
}

fn crowded() -> Log {
    Log { events: serial(64), ..Log::new() }
}

/// Events to which two or more questions say no: the first in order counts.
fn several() -> Vec<Log> {
    vec![
        full().event(LONE_WRITE + 1, 9, 9, 9, 9),
        full().event(NOTE, 9, 9, 9, 9),
        full().event(BEGIN, 9, 9, 9, 16),
        full().event(READ_CALLED, 9, 32, 9, 9),
        crowded().event(BEGIN, 0, 1, 1, 16),
        crowded().event(BEGIN, 65, 0, 0, 0),
        one().event(BEGIN, 2, 0, 1, 16),
        one().event(BEGIN, 0, 0, 1, 0),
        one().event(BEGIN, 1, 1, 1, 16),
        one().event(BEGIN, 1, 1, 1, 0),
        one().event(READ_CALLED, 1, 32, 1, 1),
        one().aborted(0).event(WRITE_CALLED, 0, 32, 0, 1),
        one().read_called(0, 1).event(READ_CALLED, 0, 32, 1, 1),
        one().commit_called(0).event(WRITE_CALLED, 0, 32, 1, 0),
        one().event(WRITE_CALLED, 0, 32, 1, 1),
        one().event(READ_CALLED, 0, 32, 1, 0),
        one().event(READ_RETURNED, 0, 5, 0, 5),
        one().event(COMMITTED, 0, 0, 1, 1),
        one().event(WRITE_RETURNED, 1, 1, 1, 1),
        one().event(LONE_WRITE + 1, 1, 1, 1, 1),
    ]
}

/// The same of lone accesses.
fn several_alone() -> Vec<Log> {
    let of = |kind| {
        vec![
            full().event(kind, 4, 0, 9, 15),
            full().event(kind, 9, 32, 9, 16),
            crowded().event(kind, 64, 0, 9, 0),
            crowded().event(kind, 0, 32, 9, 16),
            one().event(kind, 0, 32, 9, 16),
            one().event(kind, 2, 32, 9, 0),
            one().event(kind, 1, 32, 9, 16),
            one().event(kind, 1, 32, 9, 0),
        ]
    };
    [of(LONE_READ), of(LONE_WRITE)].concat()
}
