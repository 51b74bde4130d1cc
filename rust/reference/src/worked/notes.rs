//! Notes in the log: the sixth change request, worked out by hand.

use super::*;
use crate::event::*;
use crate::history_file::start_record;
use crate::notes::note_record;

/// Every example.
pub fn all() -> Vec<Worked> {
    let read = [passed_over(), among_starts(), at_limits()].concat();
    let refused = [too_long(), cut(), in_the_heads_place(), behind_notes(), elsewhere()].concat();
    [read, refused, found(), not_found()].concat()
}

const EMPTY: [u8; 4] = [2, 0, 48, 0];
const ABC: [u8; 7] = [5, 0, 48, 0, 97, 98, 99];

const BEGIN_5: [u8; 8] = [6, 0, 16, 0, 0, 0, 5, 0]; // T0 on thread 5
const CALLED: [u8; 8] = [6, 0, 17, 0, 0, 0, 3, 0]; // T0 calls a read of register 3
const RETURNED: [u8; 10] = [8, 0, 18, 0, 0, 0, 9, 0, 0, 0]; // which returns 9

/// What these three events are, in edition 1.
fn three() -> Log {
    Log::new().begin(5).read(0, 3, 9)
}

/// A file with notes, the same without them, and the history that both are read as and that is written as the second.
fn both(name: &str, noted: Vec<u8>, bare: Vec<u8>, log: Log) -> Vec<Worked> {
    let [read, written] = read_and_written(name, bare, log.clone());
    vec![is_read_as(name, noted, &log), read, written]
}

fn row(name: &str, edition: u16, records: &[&[u8]], code: u32, place: u32) -> Worked {
    worked(name, Call::Read(file_of(edition, records)), code, place)
}

/// A note of so many bytes.
fn of_size(size: usize) -> Vec<u8> {
    note_record(&vec![0x7e; size])
}

/// 2,048 events of T0 on thread 0.
fn full() -> Log {
    (0..1_023).fold(Log::new().begin(0), |log, _| log.read(0, 0, 0)).read_called(0, 0)
}

/// Notes before, between and behind events, in both editions.
fn passed_over() -> Vec<Worked> {
    let bare: [&[u8]; 3] = [&BEGIN_5, &CALLED, &RETURNED];
    let everywhere: [&[u8]; 8] = [&ABC, &BEGIN_5, &ABC, &EMPTY, &CALLED, &EMPTY, &RETURNED, &ABC];
    // The bytes of a note say nothing to the reader, whatever they look like.
    let looks_like: [&[u8]; 5] =
        [&note_record(&[4, 0, 1, 0, 2, 0]), &BEGIN_5, &note_record(&CALLED), &note_record(&ABC), &note_record(&[66, 0, 48, 0])];
    let rows = |edition: u16| {
        let over = |log: Log| Log { store: Store { edition, ..Store::ZERO }, ..log };
        let file = |records: &[&[u8]]| file_of(edition, records);
        [
            both("a note and no event", file(&[&ABC]), file(&[]), over(Log::new())),
            both("an empty note and no event", file(&[&EMPTY]), file(&[]), over(Log::new())),
            both("notes and no event", file(&[&ABC, &EMPTY, &EMPTY, &ABC]), file(&[]), over(Log::new())),
            both("a note before an event", file(&[&ABC, &BEGIN_5]), file(&[&BEGIN_5]), over(Log::new().begin(5))),
            both("a note behind an event", file(&[&BEGIN_5, &ABC]), file(&[&BEGIN_5]), over(Log::new().begin(5))),
            both("a note between a call and its answer", file(&[&BEGIN_5, &CALLED, &ABC, &RETURNED]), file(&bare), over(three())),
            both("notes everywhere", file(&everywhere), file(&bare), over(three())),
            both("notes that look like records", file(&looks_like), file(&[&BEGIN_5]), over(Log::new().begin(5))),
        ]
        .concat()
    };
    [1, 2].map(rows).concat()
}

/// A note is no event: start records may come behind it.
fn among_starts() -> Vec<Worked> {
    let (three_9, last_1) = (start_record(3, 9), start_record(31, 1));
    let bare = file_of(2, &[&three_9, &last_1, &BEGIN_5]);
    let log = Log::starting(&[(3, 9), (31, 1)]).begin(5);
    let with = |name, records: &[&[u8]]| both(name, file_of(2, records), bare.clone(), log.clone());
    [
        with("a note before start records", &[&ABC, &three_9, &last_1, &BEGIN_5]),
        with("a note between start records", &[&three_9, &EMPTY, &last_1, &BEGIN_5]),
        with("a note behind start records", &[&three_9, &last_1, &ABC, &BEGIN_5]),
        with("notes among start records", &[&EMPTY, &ABC, &three_9, &ABC, &ABC, &last_1, &EMPTY, &BEGIN_5, &ABC]),
        both("a start record behind a note alone", file_of(2, &[&ABC, &three_9]), file_of(2, &[&three_9]), nine()),
    ]
    .concat()
}

/// Register 3 starts with 9.
fn nine() -> Log {
    Log::starting(&[(3, 9)])
}

/// As many bytes as a note carries, as many events as a history has, as many bytes as a file.
fn at_limits() -> Vec<Worked> {
    let (full_file, full_length) = (file(&full()), file(&full()).len() as u32);
    let behind = |notes: &[&[u8]]| [&full_file[..], &notes.concat()].concat();
    let ending = full().read_returned(0, 0);
    let last = file(&ending)[full_length as usize..].to_vec();
    // A head, 481 notes of 68 bytes each and one of 54: 32,768 bytes.
    let notes = |last: usize| file_of(1, &[&of_size(64).repeat(481), &of_size(last)]);
    assert_eq!((notes(50).len(), notes(51).len()), (32_768, 32_769));
    [
        both("a note of 63 bytes", file_of(1, &[&of_size(63), &BEGIN_5]), file_of(1, &[&BEGIN_5]), Log::new().begin(5)),
        both("a note of 64 bytes", file_of(1, &[&of_size(64), &BEGIN_5]), file_of(1, &[&BEGIN_5]), Log::new().begin(5)),
        both("notes behind 2,048 events", behind(&[&ABC, &of_size(64), &EMPTY]), full_file.clone(), full()),
        both("a file of 32,768 bytes, all of them notes", notes(50), file_of(1, &[]), Log::new()),
        vec![
            worked("a file of 32,769 bytes, all of them notes", Call::Read(notes(51)), 1, 0),
            worked("2,049 events, a note before the last", Call::Read(behind(&[&ABC, &last])), 6, full_length + 7),
            worked("a note too long behind 2,048 events", Call::Read(behind(&[&of_size(65)])), 44, full_length),
            worked("a note too long behind 2,049 events", Call::Read(behind(&[&last, &of_size(65)])), 6, full_length),
            worked(
                "a start record behind 2,048 events and a note",
                Call::Read(behind(&[&ABC, &start_record(3, 9)])),
                4,
                full_length + 7,
            ),
        ],
    ]
    .concat()
}

/// A body over 64 bytes gets 44 where another kind's wrong size gets 5.
fn too_long() -> Vec<Worked> {
    let largest = of_size(32_758); // with the head as long as a file may be
    let rows = |edition: u16| {
        vec![
            row("a note of 65 bytes", edition, &[&of_size(65)], 44, 6),
            row("a note of 66 bytes", edition, &[&of_size(66)], 44, 6),
            row("a note of 320 bytes", edition, &[&of_size(320)], 44, 6), // 64 in its lower byte
            row("a note of 32,758 bytes", edition, &[&largest], 44, 6),
            row("a note of 32,759 bytes", edition, &[&of_size(32_759)], 1, 0),
            row("a note of 65 bytes behind an event", edition, &[&BEGIN_5, &of_size(65), &CALLED], 44, 14),
            row("a note of 65 bytes behind notes", edition, &[&ABC, &EMPTY, &of_size(65)], 44, 17),
            row("a note of 65 bytes behind one of 64", edition, &[&of_size(64), &of_size(65)], 44, 74),
            row("two notes of 65 bytes", edition, &[&of_size(65), &of_size(65)], 44, 6),
            row("a note of 65 bytes before an event that is not due", edition, &[&BEGIN_5, &of_size(65), &RETURNED], 44, 14),
            row("a note of 65 bytes behind one", edition, &[&BEGIN_5, &RETURNED, &of_size(65)], 13, 14),
            row("a note of 65 bytes before what is cut off", edition, &[&of_size(65), &[5]], 44, 6),
        ]
    };
    let among_starts = vec![
        row("a note of 65 bytes before a start record", 2, &[&of_size(65), &start_record(3, 9)], 44, 6),
        row("a note of 65 bytes behind a start record", 2, &[&start_record(3, 9), &of_size(65)], 44, 16),
        row("a note of 65 bytes before a start of 0", 2, &[&of_size(65), &start_record(3, 0)], 44, 6),
        row("a note of 65 bytes behind a start of 0", 2, &[&start_record(3, 0), &of_size(65)], 42, 6),
    ];
    [rows(1), rows(2), among_starts].concat()
}

/// Question 2 comes before 44.
fn cut() -> Vec<Worked> {
    let rows = |edition: u16| {
        vec![
            row("a note without its last byte", edition, &[&ABC[..6]], 2, 6),
            row("a note without its bytes", edition, &[&ABC[..4]], 2, 6),
            row("half a note's kind", edition, &[&ABC[..3]], 2, 6),
            row("a note's length alone", edition, &[&ABC[..2]], 2, 6),
            row("half a note's length", edition, &[&ABC[..1]], 2, 6),
            row("an empty note without half its kind", edition, &[&EMPTY[..3]], 2, 6),
            row("a note that is cut off behind an event and a note", edition, &[&BEGIN_5, &ABC, &ABC[..6]], 2, 21),
            row("a note of 65 bytes without the last", edition, &[&of_size(65)[..68]], 2, 6),
            row("a note of 64 bytes without the last", edition, &[&of_size(64)[..67]], 2, 6),
            row("a length that does not cover the kind of a note", edition, &[&[1, 0, 48, 0]], 2, 6),
            row("a length of 0 before the kind of a note", edition, &[&[0, 0, 48, 0]], 2, 6),
            row("a length of 65,535 before the kind of a note", edition, &[&[255, 255, 48, 0]], 2, 6),
        ]
    };
    [rows(1), rows(2)].concat()
}

/// A note is one behind the head only: as the first record it gets what any other kind gets there.
fn in_the_heads_place() -> Vec<Worked> {
    let first = |name, records: &[&[u8]], code| worked(name, Call::Read(records.concat()), code, 0);
    let head = record(history_file::HEAD, &[1, 0]);
    vec![
        first("a note alone", &[&ABC], 3),
        first("an empty note alone", &[&EMPTY], 3),
        first("a note with a head's body", &[&record(48, &[1, 0])], 3),
        first("a note before the head", &[&ABC, &head], 3),
        first("a note before the head and an event", &[&EMPTY, &head, &BEGIN_5], 3),
        first("a note of 65 bytes before the head", &[&of_size(65), &head], 3),
        first("a note in the head's place that is cut off", &[&ABC[..6]], 2),
        row("a note in edition 3", 3, &[&ABC], 3, 0),
        row("a note of 65 bytes in edition 0", 0, &[&of_size(65)], 3, 0),
    ]
}

/// What stands behind notes is asked its own questions, and refused at its own byte, to which the notes before it count.
fn behind_notes() -> Vec<Worked> {
    let at = |register, value| start_record(register, value);
    vec![
        row("a late start behind an event and a note", 2, &[&BEGIN_5, &ABC, &at(3, 9)], 43, 21),
        row("a late start behind a note, an event and a note", 2, &[&EMPTY, &BEGIN_5, &ABC, &at(3, 9)], 43, 25),
        row("a start in edition 1 behind a note", 1, &[&ABC, &at(3, 9)], 4, 13),
        row("a register that falls behind a note", 2, &[&at(3, 9), &ABC, &at(2, 9)], 41, 23),
        row("a register twice with a note between", 2, &[&at(3, 9), &EMPTY, &at(3, 9)], 41, 20),
        row("a start of 0 behind a note", 2, &[&ABC, &at(3, 0)], 42, 13),
        row("an unknown kind behind a note", 1, &[&ABC, &record(26, &[0; 10])], 4, 13),
        row("a lone read of edition 2 behind a note of edition 1", 1, &[&ABC, &record(LONE_READ, &[0; 10])], 4, 13),
        row("an event of another size behind a note", 2, &[&ABC, &record(BEGIN, &[0, 0])], 5, 13),
        row("an answer without its call behind a note", 1, &[&BEGIN_5, &ABC, &RETURNED], 13, 21),
        row("a second begin on a thread, a note between", 2, &[&BEGIN_5, &ABC, &record(BEGIN, &[1, 0, 5, 0])], 10, 21),
        row("a number taken twice, a note between", 1, &[&BEGIN_5, &EMPTY, &BEGIN_5], 8, 18),
        row("what is cut off behind a note", 1, &[&ABC, &BEGIN_5[..7]], 2, 13),
        row("a length of 1 behind notes", 1, &[&ABC, &EMPTY, &[1, 0, 16]], 2, 17),
    ]
}

/// Kinds beside that of a note, and the kind of a note where no history file is read.
fn elsewhere() -> Vec<Worked> {
    let kinds = [47, 49, 304, 12_288, 65_328]; // those above have the 48 in one of their bytes
    let beside = kinds.map(|kind| [1, 2].map(|edition| row("a kind beside a note's", edition, &[&record(kind, &[97])], 4, 6)));
    let placed = marking(&[(1, Aborted), (0, Committed)], &[(5, 0), (9, 0)]);
    let (places, points) = placed.split_at(22);
    let marked = |name, records: &[&[u8]], place| worked(name, Call::Check(Log::h0(), records.concat()), 22, place);
    let in_markings = vec![
        marked("a note behind the head of a marking", &[&placed[..6], &ABC, &placed[6..]], 6),
        marked("a note between places and points", &[places, &EMPTY, points], 22),
        marked("a note behind a marking", &[&placed, &of_size(64)], 42),
        marked("a note of 65 bytes in a marking", &[&placed, &of_size(65)], 42),
        worked("a note straightened", Call::Straighten(Log::h0(), [&placed[..], &ABC].concat()), 22, 42),
    ];
    let in_columns = [
        refused_alike("kind 48 in columns", Log::new().event(48, 0, 0, 0, 0), 4, 0),
        refused_alike("kind 48 in columns of edition 2", nine().event(48, 0, 0, 0, 0), 4, 0),
        refused_alike("kind 48 in columns behind H0", Log::h0().event(48, 0, 0, 0, 0), 4, 10),
        refused_alike("kind 48 in columns behind 2,048 events", full().event(48, 0, 0, 0, 0), 4, 2_048),
    ];
    [beside.concat(), in_markings, in_columns.concat()].concat()
}

/// The first note from a byte on: the events before it, where its bytes begin, and how many they are.
fn is_found(name: &str, file: &[u8], from: u32, note: [u32; 3]) -> Worked {
    Worked { note: Some(note), ..worked(name, Call::NextNote(file.to_vec(), from), 0, 0) }
}

fn is_none(name: &str, file: &[u8], from: u32) -> Worked {
    worked(name, Call::NextNote(file.to_vec(), from), NONE, 0)
}

/// Walks through files that are read, and through some that are not.
fn found() -> Vec<Worked> {
    let walked = file_of(2, &[&ABC, &start_record(3, 9), &EMPTY, &BEGIN_5, &ABC, &ABC, &CALLED, &of_size(64)]);
    let lone = file_of(2, &[&record(LONE_READ, &[0; 10]), &record(LONE_WRITE, &[0; 10]), &EMPTY]);
    // Neither kind nor size of these is right, and the first two are no events.
    let odd = file_of(1, &[&record(15, &[]), &record(26, &[0; 9]), &record(16, &[]), &record(25, &[0; 65]), &ABC]);
    vec![
        is_found("the first note", &walked, 0, [0, 10, 3]),
        is_found("the first note, from where it begins", &walked, 6, [0, 10, 3]),
        is_found("the second, from a byte within the first", &walked, 7, [0, 27, 0]),
        is_found("the second, from behind the first", &walked, 13, [0, 27, 0]),
        is_found("the second, from where it begins", &walked, 23, [0, 27, 0]),
        is_found("the third, from behind the second", &walked, 27, [1, 39, 3]),
        is_found("the third, from within an event", &walked, 30, [1, 39, 3]),
        is_found("the fourth", &walked, 42, [1, 46, 3]),
        is_found("the last", &walked, 49, [2, 61, 64]),
        is_found("the last, from where it begins", &walked, 57, [2, 61, 64]),
        is_found("a note behind lone accesses", &lone, 0, [2, 38, 0]),
        is_found("a note in a file that is not read", &odd, 0, [2, 100, 3]),
        is_found("a note behind six bytes that are no head", &[&[9; 6][..], &ABC].concat(), 0, [0, 10, 3]),
        is_found("a note that looks like notes", &file_of(1, &[&note_record(&ABC.repeat(2))]), 0, [0, 10, 14]),
        is_found("a note before one that is too long", &file_of(1, &[&ABC, &of_size(65), &ABC]), 0, [0, 10, 3]),
        is_found("a note before what is cut off", &file_of(1, &[&BEGIN_5, &ABC, &ABC[..6]]), 0, [1, 18, 3]),
    ]
}

/// Walks that come to an end.
fn not_found() -> Vec<Worked> {
    let two = file_of(1, &[&ABC, &BEGIN_5, &ABC]);
    let notes = |last: usize| file_of(1, &[&of_size(64).repeat(481), &of_size(last)]);
    vec![
        is_none("behind the last note", &two, 28),
        is_none("within the last note", &two, 22),
        is_none("far behind the file", &two, u32::MAX),
        is_none("events alone", &file_of(1, &[&BEGIN_5, &CALLED, &RETURNED]), 0),
        is_none("a note within an event", &file_of(1, &[&record(WRITE_CALLED, &[0, 0, 0, 0, 2, 0, 48, 0])]), 0),
        is_none("a head alone", &file_of(1, &[]), 0),
        is_none("no file", &[], 0),
        is_none("less than a head", &[2, 0, 48, 0, 2], 0),
        is_none("a note in the head's place", &[&ABC[..], &ABC].concat(), 0),
        is_none("a note that is too long", &file_of(1, &[&of_size(65)]), 0),
        is_none("a note behind one that is too long", &file_of(1, &[&of_size(65), &ABC]), 0),
        is_none("the same from where it begins", &file_of(1, &[&of_size(65), &ABC]), 75),
        is_none("a note that is cut off", &file_of(1, &[&ABC[..6]]), 0),
        is_none("a note behind what is no record", &file_of(1, &[&[1, 0, 0, 0], &ABC]), 0),
        is_none("a file of 32,769 bytes", &notes(51), 0),
        is_found("a file of 32,768 bytes", &notes(50), 0, [0, 10, 64]),
        is_found("its last note", &notes(50), 32_714, [0, 32_718, 50]),
        is_none("behind its last note", &notes(50), 32_715),
    ]
}
