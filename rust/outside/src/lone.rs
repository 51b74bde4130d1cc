//! Accesses outside transactions: histories in which each is written out as the transaction that it stands for, histories in which
//! transactions become such accesses, and what the judged histories did with them.

use crate::coverage::{Coverage, Lone};
use crate::random::Random;
use reference::entries::Answer;
use reference::event::*;
use reference::log::Log;
use reference::questions::pending;
use reference::reads::{store_reads, transactions};
use reference::store::Store;

/// A log without lone accesses: each is a transaction that begins, calls and gets its answer, and commits, with nothing in between.
pub struct Expanded {
    pub log: Log,
    /// Where the events of each event of the log that was expanded begin, and where the last of them ends.
    bounds: Vec<usize>,
}

impl Expanded {
    pub fn of(log: &Log) -> Expanded {
        let mut expanded = Expanded { log: Log { store: log.store, events: Vec::new() }, bounds: vec![0] };
        for &event in &log.events {
            expanded.log = write_out(expanded.log, event);
            expanded.bounds.push(expanded.log.events.len());
        }
        expanded
    }

    /// How many events stand for the first so many.
    pub fn prefix(&self, length: usize) -> usize {
        self.bounds[length]
    }

    /// The event at which the transaction of an event that begins one begins.
    pub fn begin(&self, event: usize) -> usize {
        self.bounds[event]
    }

    /// The event at which what is read there is returned.
    pub fn read(&self, event: usize) -> usize {
        match self.bounds[event + 1] - self.bounds[event] {
            1 => self.bounds[event],
            _ => self.bounds[event] + 2, // behind a begin and a call
        }
    }

    /// The last of its events.
    pub fn last(&self, event: usize) -> usize {
        self.bounds[event + 1] - 1
    }
}

fn write_out(log: Log, event: Event) -> Log {
    let Event { kind, transaction: t, register, value, thread } = event;
    match kind {
        LONE_READ => log.begin(thread).read(t, register, value).commit(t),
        LONE_WRITE => log.begin(thread).write(t, register, value).commit(t),
        _ => log.event(kind, t, register, value, thread),
    }
}

/// The log in edition 2, with lone accesses in the place of transactions that committed after a single access: of so many of a hundred
/// such. Each stands where one of the events of its transaction stood, so that its thread is free.
pub fn collapsed(random: &mut Random, log: &Log, percent: usize) -> Log {
    let mut events: Vec<Option<Event>> = log.events.iter().copied().map(Some).collect();
    for t in 0..transactions(&log.events) as u16 {
        let own: Vec<usize> = (0..log.events.len()).filter(|&at| log.events[at].transaction == t).collect();
        if let Some(lone) = as_lone(&log.events, &own).filter(|_| random.chance(percent)) {
            own.iter().for_each(|&at| events[at] = None);
            events[random.pick(&own)] = Some(lone);
        }
    }
    Log { store: Store { edition: 2, ..log.store }, events: renumbered(events.into_iter().flatten().collect()) }
}

/// The lone access that the events of a transaction amount to, if they do.
fn as_lone(history: &[Event], own: &[usize]) -> Option<Event> {
    let kinds: Vec<u16> = own.iter().map(|&at| history[at].kind).collect();
    let kind = match kinds[..] {
        [BEGIN, READ_CALLED, READ_RETURNED, COMMIT_CALLED, COMMITTED] => LONE_READ,
        [BEGIN, WRITE_CALLED, WRITE_RETURNED, COMMIT_CALLED, COMMITTED] => LONE_WRITE,
        _ => return None,
    };
    // The register is the call's; a read has its value at its answer, and a write at its call.
    let (begin, call, answer) = (history[own[0]], history[own[1]], history[own[2]]);
    Some(Event { kind, value: call.value + answer.value, thread: begin.thread, ..call })
}

/// The same events with the transactions numbered as they begin.
fn renumbered(mut events: Vec<Event>) -> Vec<Event> {
    let begun: Vec<u16> = events.iter().filter(|e| e.is_begin()).map(|e| e.transaction).collect();
    for event in &mut events {
        let number = begun.iter().position(|&t| t == event.transaction);
        event.transaction = number.expect("a transaction that begins") as u16;
    }
    events
}

/// Notes what a history that was scanned had to do with accesses outside transactions.
pub fn note(store: &Store, history: &[Event], scanned: Answer, coverage: &mut Coverage) {
    if scanned.code == 0 {
        note_opaque(store, history, coverage);
    }
    // Of a history that is not opaque, only the read that faults it says something.
    let Some(read) = store_reads(history).find(|&read| scanned.code == 101 && read == scanned.place as usize) else {
        return;
    };
    if history[read].is_lone() {
        coverage.note_lone(Lone::ReadInVain);
    } else if is_of(store, history, read, Event::is_lone) {
        coverage.note_lone(Lone::WriteSeenInVain);
    }
}

fn note_opaque(store: &Store, history: &[Event], coverage: &mut Coverage) {
    if history.iter().any(|e| e.kind == LONE_WRITE) {
        coverage.note_lone(Lone::Write);
    }
    for read in store_reads(history) {
        let (before, is_lone) = (&history[..read], history[read].is_lone());
        let waits = |write: &Event| pending(before, write.transaction).is_some_and(|call| call.kind == COMMIT_CALLED);
        if is_lone {
            coverage.note_lone(Lone::Read);
        }
        if is_lone && is_of(store, history, read, waits) {
            coverage.note_lone(Lone::ReadOfPending);
        }
        if is_of(store, history, read, Event::is_lone) {
            coverage.note_lone(if is_lone { Lone::WriteSeenAlone } else { Lone::WriteSeen });
        }
    }
}

/// Is what was read there none of what the register started with, and is every write of it one of these?
fn is_of(store: &Store, history: &[Event], read: usize, is_one: impl Fn(&Event) -> bool) -> bool {
    let Event { register, value, .. } = history[read];
    let mut writes = history[..read].iter().filter(|e| e.is_write() && e.register == register && e.value == value).peekable();
    value != store.start(register) && writes.peek().is_some() && writes.all(is_one)
}

#[cfg(test)]
mod tests {
    use super::*;
    use crate::walk::{walk, Shape};

    fn readable(log: &Log) -> bool {
        reference::entries::history(&log.store, &Columns::of(&log.events), log.events.len()).is_ok()
    }

    /// T0 is live when a display task reads and another task writes bare.
    #[test]
    fn an_access_is_written_out_where_it_stands() {
        let log = Log::starting(&[(3, 9)]).begin(0).lone_read(1, 3, 9).lone_write(2, 4, 7).read(0, 4, 7);
        let written_out = Log::starting(&[(3, 9)]).begin(0).begin(1).read(1, 3, 9).commit(1).begin(2).write(2, 4, 7).commit(2);
        let expanded = Expanded::of(&log);
        assert_eq!(expanded.log, written_out.read(0, 4, 7));
        assert_eq!((expanded.begin(1), expanded.read(1), expanded.last(1)), (1, 3, 5));
        assert_eq!((expanded.begin(2), expanded.last(2)), (6, 10));
        assert_eq!((expanded.read(4), expanded.last(4)), (12, 12));
        assert_eq!([0, 1, 2, 3, 5].map(|length| expanded.prefix(length)), [0, 1, 6, 11, 13]);
    }

    #[test]
    fn collapsing_undoes_expanding() {
        let mut lone = 0;
        for seed in 0..2_000 {
            let mut random = Random::new(seed);
            let shape = Shape { lone: 60, ..Shape::small(&mut random) };
            let log = walk(&mut random, shape);
            let expanded = Expanded::of(&log).log;
            assert!(readable(&expanded) && !expanded.events.iter().any(Event::is_lone), "{log:?}");
            let again = collapsed(&mut random, &expanded, 100);
            assert!(readable(&again), "{again:?}");
            let count = |log: &Log| log.events.iter().filter(|e| e.is_lone()).count();
            assert_eq!(transactions(&again.events), transactions(&log.events));
            assert!(count(&again) >= count(&log), "{log:?} and {again:?}");
            lone += count(&log);
        }
        assert!(lone > 1_000, "{lone} lone accesses");
    }
}
