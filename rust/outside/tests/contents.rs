//! What a register holds for a reader, in a transaction or alone, worked out here by applying writes to a store: every way in which five
//! transactions one after the other may have written it, in registers at both ends of the store, and writers whose commits are
//! unanswered.

use outside::lent::lent_count;
use reference::event::Columns as Held;
use reference::justification::Outcome;
use reference::log::Log;
use reference::reads::transactions;
use reference::worked::marking;
use sendoshi::{calls, Answer, Columns, Store};

/// What a transaction did before the reader came.
#[derive(Clone, Copy)]
enum Deed {
    WroteOnce,
    WroteTwice,
    WroteElsewhere,
    WroteAndWithdrew,
    WroteAndWasRefused,
    WroteAlone,
}

const DEEDS: [Deed; 6] =
    [Deed::WroteOnce, Deed::WroteTwice, Deed::WroteElsewhere, Deed::WroteAndWithdrew, Deed::WroteAndWasRefused, Deed::WroteAlone];
const WRITERS: usize = 5;
/// A value that no transaction writes and no register starts with.
const ANOTHER: u32 = 9;
const OPAQUE: Answer = Answer { code: 0, place: 0 };

/// The events of the transaction t, which writes 10 (t + 1) and, where it writes twice, one more.
fn act(log: Log, t: u16, deed: Deed, register: u16) -> Log {
    let value = 10 * (u32::from(t) + 1);
    match deed {
        Deed::WroteOnce => log.begin(0).write(t, register, value).commit(t),
        Deed::WroteTwice => log.begin(0).write(t, register, value).write(t, register, value + 1).commit(t),
        Deed::WroteElsewhere => log.begin(0).write(t, (register + 1) % 32, value).commit(t),
        Deed::WroteAndWithdrew => log.begin(0).write(t, register, value).aborted(t),
        Deed::WroteAndWasRefused => log.begin(0).write(t, register, value).commit_called(t).aborted(t),
        Deed::WroteAlone => log.lone_write(0, register, value),
    }
}

/// Applies it to the value of the register, and says how it ended.
fn leave(t: u16, deed: Deed, value: u32) -> (u32, Outcome) {
    let written = 10 * (u32::from(t) + 1);
    match deed {
        Deed::WroteOnce | Deed::WroteAlone => (written, Outcome::Committed),
        Deed::WroteTwice => (written + 1, Outcome::Committed),
        Deed::WroteElsewhere => (value, Outcome::Committed),
        Deed::WroteAndWithdrew | Deed::WroteAndWasRefused => (value, Outcome::Aborted),
    }
}

/// Who reads what they left.
#[derive(Clone, Copy)]
enum Reader {
    /// A transaction that has not ended.
    Live,
    /// A lone read.
    Alone,
}

impl Reader {
    /// The reader's events behind these, on this thread.
    fn read(self, log: &Log, thread: u16, register: u16, value: u32) -> Log {
        let t = transactions(&log.events) as u16;
        match self {
            Reader::Live => log.clone().begin(thread).read(t, register, value),
            Reader::Alone => log.clone().lone_read(thread, register, value),
        }
    }

    fn outcome(self) -> Outcome {
        match self {
            Reader::Live => Outcome::Aborted,
            Reader::Alone => Outcome::Committed,
        }
    }
}

fn columns(held: &Held) -> Columns<'_> {
    let Held { kinds, transactions, registers, values, threads } = held;
    Columns { kinds, transactions, registers, values, threads }
}

fn scan(log: &Log) -> Answer {
    let held = Held::of(&log.events);
    calls::scan(Store { edition: 2, starts: &log.store.starts }, columns(&held), lent_count(log.events.len()))
}

fn found(log: &Log) -> Vec<u8> {
    let held = Held::of(&log.events);
    let mut output = vec![0; 32_768];
    let count = lent_count(log.events.len());
    let answer = calls::find(Store { edition: 2, starts: &log.store.starts }, columns(&held), count, count, &mut output);
    assert_eq!(answer.code, 0, "{log:?}");
    output.truncate(answer.place as usize);
    output
}

#[test]
fn a_read_gets_what_the_committed_writes_before_it_leave() {
    let start = 7;
    for register in [0, 1, 15, 16, 30, 31] {
        for choice in 0..DEEDS.len().pow(WRITERS as u32) {
            let (mut log, mut value, mut places) = (Log::starting(&[(register, start)]), start, Vec::new());
            for t in 0..WRITERS {
                let deed = DEEDS[choice / DEEDS.len().pow(t as u32) % DEEDS.len()];
                log = act(log, t as u16, deed, register);
                let (left, outcome) = leave(t as u16, deed, value);
                value = left;
                places.push((t as u16, outcome));
            }
            for reader in [Reader::Live, Reader::Alone] {
                reads(&log, register, value, reader, &places);
            }
        }
    }
}

/// The reader gets this value there, at its place behind the others, and no other that was ever written.
fn reads(log: &Log, register: u16, value: u32, reader: Reader, before: &[(u16, Outcome)]) {
    let t = WRITERS as u16;
    let right = reader.read(log, 0, register, value);
    let read = right.events.len() as u32 - 1;
    let places = [before, &[(t, reader.outcome())]].concat();
    assert_eq!(scan(&right), OPAQUE, "{right:?}");
    assert_eq!(found(&right), marking(&places, &[(read, t)]), "{right:?}");
    let written = (1..=WRITERS as u32).flat_map(|t| [10 * t, 10 * t + 1]);
    for wrong in written.chain([7, 0, ANOTHER]).filter(|wrong| *wrong != value) {
        let log = reader.read(log, 0, register, wrong);
        assert_eq!(scan(&log), Answer { code: 101, place: read }, "{log:?}");
    }
}

#[test]
fn an_unanswered_commit_leaves_its_last_write_or_nothing() {
    for register in [0, 31] {
        for writers in 1..=6 {
            let mut log = Log::starting(&[(register, 7)]);
            for t in 0..writers {
                let value = 10 * (u32::from(t) + 1);
                log = log.begin(t).write(t, register, value).write(t, register, value + 1).commit_called(t);
            }
            for reader in [Reader::Live, Reader::Alone] {
                let answer = |value| scan(&reader.read(&log, writers, register, value));
                let fault = Answer { code: 101, place: reader.read(&log, writers, register, 7).events.len() as u32 - 1 };
                assert_eq!(answer(7), OPAQUE);
                for t in 1..=u32::from(writers) {
                    assert_eq!(answer(10 * t + 1), OPAQUE, "the last write of one of {writers}");
                    assert_eq!(answer(10 * t), fault, "the first write of one of {writers}");
                }
                assert_eq!(answer(ANOTHER), fault);
            }
        }
    }
}
