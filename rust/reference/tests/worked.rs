//! The examples of the paper and of its sources, put to the brute force.

use reference::entries::{self, Answer};
use reference::event::*;
use reference::judgement::{is_justified, lowest};
use reference::justification::{Outcome, Place};
use reference::log::Log;
use reference::marking_file::{Marking, Point};
use reference::reads::{own_reads, store_reads};
use reference::store::Store;
use reference::worked::{self, Buffers, Call};
use reference::{history_file, questions};

fn answered(call: &Call) -> (Answer, Buffers) {
    let mut buffers = Buffers::for_call(call);
    let Buffers { output, moved, starts, columns: filled, note } = &mut buffers;
    let columns = |log: &Log| Columns::of(&log.events);
    let answer = match call {
        Call::Read(file) => entries::read(file, starts, filled),
        Call::NextNote(file, from) => entries::next_note(file, *from, note),
        Call::Write(log) => entries::write(&log.store, &columns(log), log.events.len(), output),
        Call::Scan(log) => entries::scan(&log.store, &columns(log), log.events.len()),
        Call::Find(log) => entries::find(&log.store, &columns(log), log.events.len(), log.events.len(), output),
        Call::Check(log, file) => entries::check(&log.store, &columns(log), log.events.len(), file),
        Call::Straighten(log, file) => entries::straighten(&log.store, &columns(log), log.events.len(), file, output, moved),
        Call::Tally(log) => entries::tally(&log.store, &columns(log), log.events.len()),
    };
    (answer, buffers)
}

#[test]
fn every_example_is_answered_as_written() {
    for example in worked::all() {
        let (answer, buffers) = answered(&example.call);
        assert_eq!(answer, example.answer, "{}", example.name);
        assert!(example.is_written(&buffers), "{}", example.name);
    }
}

/// Event by event, as the paper's table has it.
#[test]
fn h0_is_the_papers() {
    let events = Log::h0().events;
    let columns = Columns::of(&events);
    assert_eq!(columns.kinds, [16, 19, 20, 16, 17, 18, 21, 22, 17, 18]);
    assert_eq!(columns.transactions, [0, 0, 0, 1, 1, 1, 0, 0, 1, 1]);
    assert_eq!(columns.registers, [0, 3, 0, 0, 3, 3, 0, 0, 3, 3]);
    assert_eq!(columns.values, [0, 7, 0, 0, 0, 0, 0, 0, 0, 0]);
    assert_eq!(columns.threads, [0, 0, 0, 1, 0, 0, 0, 0, 0, 0]);
    let file = history_file::write(&Store::ZERO, &events);
    assert_eq!(file.len(), 88);
    assert_eq!(history_file::read(&file), Ok((Store::ZERO, events)));
}

#[test]
fn the_marking_of_h0_says_what_it_should() {
    let events = Log::h0().events;
    let order = lowest(&Store::ZERO, &events).expect("H0 has a justification");
    assert_eq!(order[0], Place { transaction: 1, outcome: Outcome::Aborted });
    assert_eq!(order[1], Place { transaction: 0, outcome: Outcome::Committed });
    let marking = Marking::of(&events, &order);
    assert_eq!(marking.points, [Point { event: 5, gap: 0 }, Point { event: 9, gap: 0 }]);
    let file = worked::h0_marking();
    assert_eq!(file.len(), 42);
    assert_eq!(file[..14], [4, 0, 2, 0, 1, 0, 6, 0, 32, 0, 1, 0, 0, 0]);
    assert_eq!(file[32..], [8, 0, 33, 0, 9, 0, 0, 0, 0, 0]);
    assert_eq!(Marking::read(&events, &file), Ok(marking));
}

/// The mistakes that the paper warns of, each on a history where it would show.
#[test]
fn usual_mistakes_would_show() {
    let early = Log::new().begin(0).write(0, 0, 5).begin(1).read(1, 0, 5).commit(0).events;
    assert!(is_justified(&Store::ZERO, &early), "judging the whole history only would pass the early read");
    let without_reads: Vec<Event> = Log::h7().events.into_iter().filter(|e| e.transaction == 0).collect();
    assert!(is_justified(&Store::ZERO, &without_reads), "dropping the reads of transactions that did not commit would pass H7");
    let twice = Log::new().begin(0).write(0, 0, 5).write(0, 0, 6).commit(0).begin(0).read(1, 0, 6).events;
    assert!(is_justified(&Store::ZERO, &twice), "the last write of a writer counts");
}

/// A start value counts only where no writer is placed before, and for its own register.
#[test]
fn start_values_stand_where_nobody_wrote() {
    let store = Store::of(&[(3, 9)]);
    let read = |value| Log::new().begin(0).read(0, 3, value).events;
    assert!(is_justified(&store, &read(9)) && !is_justified(&store, &read(0)));
    assert!(!is_justified(&Store::ZERO, &read(9)) && is_justified(&Store::ZERO, &read(0)));
    let hidden = |value| Log::new().begin(0).write(0, 3, 7).commit(0).begin(1).read(1, 3, value).events;
    assert!(is_justified(&store, &hidden(7)) && !is_justified(&store, &hidden(9)) && !is_justified(&store, &hidden(0)));
}

/// Another edition is none, and edition 1 starts at 0.
#[test]
fn stores_that_are_admitted() {
    let with = |edition, starts: &[(u16, u32)]| Store { edition, ..Store::of(starts) };
    for store in [with(1, &[]), with(2, &[]), with(2, &[(0, 1)]), with(2, &[(31, u32::MAX)])] {
        assert!(store.is_admitted(), "{store:?}");
    }
    for store in [with(1, &[(0, 1)]), with(1, &[(31, 1)]), with(0, &[]), with(3, &[]), with(258, &[]), with(65_535, &[(3, 9)])] {
        assert!(!store.is_admitted(), "{store:?}");
    }
}

#[test]
fn own_and_store_reads_are_told_apart() {
    let log = Log::new().begin(0).read(0, 0, 0).write(0, 0, 5).read(0, 0, 5).read(0, 1, 0);
    assert_eq!(store_reads(&log.events).collect::<Vec<_>>(), [2, 8]);
    assert_eq!(own_reads(&log.events).collect::<Vec<_>>(), [6]);
}

#[test]
fn a_pending_call_is_the_latest_event() {
    let log = Log::new().begin(0).begin(1).read_called(0, 3).write(1, 3, 1);
    assert_eq!(questions::pending(&log.events, 0).map(|call| call.register), Some(3));
    assert_eq!(questions::pending(&log.events, 1), None);
}
