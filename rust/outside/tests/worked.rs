//! The examples of the paper and of its sources, put to the library.

use outside::lent::lent_count;
use reference::event::Columns as Held;
use reference::justification::Outcome::{Aborted, Committed};
use reference::log::Log;
use reference::worked::{self, Buffers, Call};
use sendoshi::{calls, Answer, Columns, ColumnsMut, Store};

fn view(held: &Held) -> Columns<'_> {
    let Held { kinds, transactions, registers, values, threads } = held;
    Columns { kinds, transactions, registers, values, threads }
}

fn answered(call: &Call) -> (Answer, Buffers) {
    let mut buffers = Buffers::for_call(call);
    let Buffers { output, moved, starts, columns, note } = &mut buffers;
    let answer = match call {
        Call::Read(file) => {
            let Held { kinds, transactions, registers, values, threads } = columns;
            calls::read(file, starts, ColumnsMut { kinds, transactions, registers, values, threads })
        }
        Call::NextNote(file, from) => calls::next_note(file, *from, note),
        Call::Write(log) => with(log, |store, columns, count| calls::write(store, columns, count, output)),
        Call::Scan(log) => with(log, calls::scan),
        Call::Find(log) => with(log, |store, columns, count| calls::find(store, columns, count, count, output)),
        Call::Check(log, file) => with(log, |store, columns, count| calls::check(store, columns, count, file)),
        Call::Straighten(log, file) => {
            with(log, |store, columns, count| calls::straighten(store, columns, count, file, output, moved))
        }
        Call::Tally(log) => with(log, calls::tally),
    };
    (answer, buffers)
}

/// A call on a history: its store, its columns and its count.
fn with(log: &Log, call: impl FnOnce(Store, Columns, u32) -> Answer) -> Answer {
    let held = Held::of(&log.events);
    call(Store { edition: log.store.edition, starts: &log.store.starts }, view(&held), lent_count(log.events.len()))
}

#[test]
fn every_example_is_answered_as_written() {
    for example in worked::all() {
        let (answer, buffers) = answered(&example.call);
        assert_eq!((answer.code, answer.place), (example.answer.code, example.answer.place), "{}", example.name);
        assert!(example.is_written(&buffers), "{}", example.name);
    }
}

/// H0's marking has 42 bytes and two read points: an output with a byte less is too short, and so is a list with one entry, before
/// any verdict and whether a point is moved or not.
#[test]
fn an_output_or_a_list_that_is_too_short() {
    let held = Held::of(&Log::h0().events);
    let places = [(1, Aborted), (0, Committed)];
    let bad_order = [(0, Committed), (1, Aborted)];
    let points = [(5, 0), (9, 2)];
    for file in [worked::h0_marking(), worked::marking(&places, &points), worked::marking(&bad_order, &points)] {
        for (output, list) in [(41, 2), (42, 1), (0, 2), (42, 0), (41, 1), (100, 1), (41, 100), (0, 0)] {
            let (mut output, mut list) = (vec![0xee; output], vec![0xeeee; list]);
            let answer = calls::straighten(Store::ZERO, view(&held), 10, &file, &mut output, &mut list);
            assert_eq!(answer, Answer { code: 15, place: 10 }, "{} bytes and {} entries", output.len(), list.len());
            assert!(output.iter().all(|&byte| byte == 0xee) && list.iter().all(|&event| event == 0xeeee));
        }
        let answer = calls::straighten(Store::ZERO, view(&held), 10, &file, &mut [0; 42], &mut [0; 2]);
        assert_ne!(answer.code, 15, "42 bytes and two entries are enough");
    }
}
