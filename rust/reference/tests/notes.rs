//! Notes: what a file is without them, where they stand in it, and that a file with notes means what the same file without them does.

use reference::entries::{self, Answer};
use reference::event::{Columns, Event};
use reference::history_file::{read, start_record, write};
use reference::log::Log;
use reference::notes::{note_record, noted_before, notes, without_notes, Note};
use reference::record::{record, records_from, Refusal};
use reference::store::REGISTERS;

/// T0 reads a start value, and a lone write comes beside it: eight records behind a head.
fn log() -> Log {
    Log::starting(&[(3, 9), (31, 1)]).begin(0).read(0, 3, 9).lone_write(1, 3, 5).commit(0)
}

fn file() -> Vec<u8> {
    write(&log().store, &log().events)
}

/// The file with one of these notes before every record behind the head whose bit is set, and the last bit's at the end.
fn noted(file: &[u8], gaps: u32) -> Vec<u8> {
    let texts: [&[u8]; 4] = [b"", b"pump 2 by hand", &[6, 0, 16, 0, 9, 0, 0, 0], &[0x30; 64]];
    let note = |gap: usize| match gaps >> gap & 1 {
        0 => vec![],
        _ => note_record(texts[gap % texts.len()]),
    };
    let (records, _) = records_from(file, 6);
    let behind = records.iter().enumerate().flat_map(|(at, r)| [note(at), file[r.byte..r.next].to_vec()].concat());
    [file[..6].to_vec(), behind.collect(), note(records.len())].concat()
}

/// The same question and, where the notes before it are not counted, the same byte; or the same history.
fn reads_as_without_notes(file: &[u8]) -> Option<u8> {
    let bare = without_notes(file);
    let moved = |refusal: Refusal| Refusal { place: refusal.place - noted_before(file, refusal.place), ..refusal };
    let read_with = read(file);
    assert_eq!(read_with.clone().map_err(moved), read(&bare), "{file:?} and, without notes, {bare:?}");
    read_with.err().map(|refusal| refusal.number)
}

#[test]
fn a_file_without_its_notes() {
    let (head, begin, note, empty) = ([4, 0, 1, 0, 1, 0], record(16, &[0; 4]), note_record(b"x"), note_record(b""));
    let long = note_record(&[7; 65]);
    let without = |records: &[&[u8]]| without_notes(&records.concat());
    assert_eq!(without(&[&head, &note, &begin, &empty, &note]), [&head[..], &begin].concat());
    assert_eq!(without(&[&head]), head);
    assert_eq!(without(&[]), []);
    // Notes that are too long, what is cut off, and what stands behind that.
    assert_eq!(without(&[&head, &note, &long, &note, &begin]), [&head[..], &long, &begin].concat());
    assert_eq!(without(&[&head, &note, &note[..4]]), [&head[..], &note[..4]].concat());
    assert_eq!(without(&[&head, &[1, 0, 48, 0], &note]), [&head[..], &[1, 0, 48, 0], &note].concat());
    // In the head's place.
    assert_eq!(without(&[&note, &note, &begin]), [&note[..], &begin].concat());
    let file = [&head[..], &note, &begin, &empty, &long, &note].concat();
    assert_eq!([0, 6, 7, 11, 19, 20, 23, 92, 93, 97].map(|byte| noted_before(&file, byte)), [0, 0, 5, 5, 5, 9, 9, 9, 14, 14]);
}

#[test]
fn notes_stand_behind_events() {
    let text = b"card 1 changed";
    let file =
        [&[4, 0, 1, 0, 2, 0][..], &note_record(text), &start_record(3, 9), &record(16, &[0; 4]), &note_record(b"")].concat();
    let expected = [Note { events: 0, byte: 6, bytes: text }, Note { events: 1, byte: 42, bytes: b"" }];
    assert_eq!(notes(&file), expected);
    assert_eq!(expected.map(|note| note.start()), [10, 46]);
    assert_eq!(notes(&without_notes(&file)), []);
    // Three numbers that are there already stay where no note is found.
    let mut note = [7; 3];
    assert_eq!(entries::next_note(&file, 43, &mut note), Answer { code: 100, place: 0 });
    assert_eq!(note, [7; 3]);
    assert_eq!(entries::next_note(&file, 42, &mut note), Answer { code: 0, place: 0 });
    assert_eq!(note, [1, 46, 0]);
}

/// With notes before any of the eight records and at the end: the same history, and written it is the same file.
#[test]
fn notes_anywhere_leave_the_history_as_it_is() {
    let (file, log) = (file(), log());
    for gaps in 0..1 << 9 {
        let noted = noted(&file, gaps);
        assert_eq!(without_notes(&noted), file);
        assert_eq!(read(&noted), Ok((log.store, log.events.clone())), "{gaps:b}");
        assert_eq!(notes(&noted).len(), gaps.count_ones() as usize);
        let (store, events) = read(&noted).expect("as above");
        assert_eq!(write(&store, &events), file);
    }
}

/// The same of files that are cut anywhere, and of files with another byte anywhere.
#[test]
fn what_is_refused_is_refused_without_notes_too() {
    let mut refused = [0; 45];
    for gaps in [0, 0b1_1111_1111, 0b1_0101_0101, 0b0_1010_1010, 0b1_0001_0001] {
        let file = noted(&file(), gaps);
        let mut count = |number: Option<u8>| refused[usize::from(number.unwrap_or(0))] += 1;
        (0..=file.len()).for_each(|length| count(reads_as_without_notes(&file[..length])));
        for (at, byte) in (0..file.len()).flat_map(|at| [0, 1, 2, 3, 16, 23, 48, 66, 67, 255].map(|byte| (at, byte))) {
            let mut other = file.clone();
            other[at] = byte;
            count(reads_as_without_notes(&other));
        }
    }
    for number in [0, 2, 3, 4, 5, 8, 9, 11, 12, 13, 41, 42, 43, 44] {
        assert!(refused[number] > 0, "question {number} said no");
    }
}

/// Question 14 comes with the file's length, to which notes count; columns that hold the events are enough, however many notes there are.
#[test]
fn columns_need_no_entry_for_a_note() {
    let (file, log) = (noted(&file(), 0b1_1111_1111), log());
    let old = Event { kind: 7, transaction: 7, register: 7, value: 7, thread: 7 };
    let count = log.events.len();
    let (mut starts, mut columns) = ([7; REGISTERS], Columns::of(&vec![old; count]));
    assert_eq!(entries::read(&file, &mut starts, &mut columns), Answer { code: 0, place: 2 * 65_536 + count as u32 });
    assert_eq!((columns, starts), (Columns::of(&log.events), log.store.starts));
    let mut short = Columns::of(&vec![old; count - 1]);
    assert_eq!(entries::read(&file, &mut [7; REGISTERS], &mut short), Answer { code: 14, place: file.len() as u32 });
    assert_eq!(short, Columns::of(&vec![old; count - 1]));
}
