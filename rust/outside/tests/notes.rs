//! Notes in history files: records of kind 48 that are wrong in several ways at once, random files with notes read as the same files
//! without them, sound and damaged, and the notes themselves, found from every byte on.

use outside::compare;
use outside::coverage::{Coverage, Entry};
use outside::damage;
use outside::limits;
use outside::notes::{scattered, Remarked};
use outside::random::Random;
use outside::rounds;
use outside::shapes::{columns_for, output_for};
use outside::simulate::{simulate, Plan};
use outside::stores::{random_store, starts_for};
use outside::walk::{walk, Shape};
use reference::entries::{Answer, NONE};
use reference::event::*;
use reference::history_file::{self, start_record};
use reference::log::Log;
use reference::notes::{note_record, noted_before, without_notes, NOTE};
use reference::record::{record, records_from};
use reference::store::Store;
use sendoshi::{calls, notes, ColumnsMut, History, Note};

/// The records between the head and a note, and what they leave: start records, events, and room for another.
struct Before {
    records: Vec<u8>,
    started: bool,
    events: u32,
    full: bool,
}

impl Before {
    fn all(edition: u16) -> Vec<Before> {
        let of = |records: Vec<u8>, started, events| Before { records, started, events, full: events == 2_048 };
        let begin = record(BEGIN, &[0; 4]);
        let full = history_file::write(&Store::ZERO, &limits::long(2_048))[6..].to_vec();
        let empty = note_record(b"");
        let mut all = vec![
            of(vec![], false, 0),
            of(empty.clone(), false, 0),
            of(begin.clone(), false, 1),
            of([&note_record(&[0x55; 64])[..], &begin, &empty].concat(), false, 1),
            of([&full[..], &empty].concat(), false, 2_048),
            of(full, false, 2_048),
        ];
        if edition == 2 {
            all.push(of(start_record(3, 9), true, 0));
            all.push(of([&empty[..], &start_record(3, 9), &empty].concat(), true, 0));
            all.push(of([start_record(3, 9), record(LONE_READ, &[0; 10])].concat(), true, 1));
        }
        all
    }
}

/// What comes behind a note.
#[derive(Clone, Copy, Debug)]
enum Behind {
    Nothing,
    ShortNote,
    LongNote,
    Start,
    Begin,
    LateAnswer,
    ShortBegin,
    UnknownKind,
    Cut,
}

use Behind::*;

impl Behind {
    const ALL: [Behind; 9] = [Nothing, ShortNote, LongNote, Start, Begin, LateAnswer, ShortBegin, UnknownKind, Cut];

    fn bytes(self) -> Vec<u8> {
        match self {
            Nothing => vec![],
            ShortNote => note_record(&[0x30; 64]),
            LongNote => note_record(&[0x30; 65]),
            Start => start_record(3, 9),
            Begin => record(BEGIN, &[0, 0, 15, 0]), // the first transaction, on a thread that nobody uses
            LateAnswer => record(COMMITTED, &[63, 0]),
            ShortBegin => record(BEGIN, &[0, 0]),
            UnknownKind => record(NOTE + 1, &[0; 4]),
            Cut => vec![3, 0, NOTE as u8],
        }
    }

    /// The question that says no to it, if one does.
    fn refused(self, edition: u16, before: &Before) -> Option<u32> {
        match self {
            Nothing | ShortNote => None,
            LongNote => Some(44),
            Start if edition == 1 => Some(4),
            Start if before.events > 0 => Some(43),
            Start => before.started.then_some(41), // register 3 a second time
            Begin | LateAnswer if before.full => Some(6),
            Begin => (before.events > 0).then_some(8),
            LateAnswer => Some(11),
            ShortBegin => Some(5),
            UnknownKind => Some(4),
            Cut => Some(2),
        }
    }

    fn is_event(self) -> bool {
        matches!(self, Begin)
    }
}

/// A note is asked 2 and 44, in this order, and nothing else: not 4, not 5, and not 6 behind as many events as there may be. What comes
/// behind it is asked what it would be asked without it.
#[test]
fn a_note_meets_its_questions_in_order() {
    let mut met = Coverage::default();
    for edition in [1, 2, 3] {
        for before in Before::all(edition) {
            for size in [0, 1, 2, 10, 63, 64, 65, 66, 320] {
                for behind in Behind::ALL {
                    meets(edition, &before, size, 0, behind, &mut met);
                }
                for missing in [1, 2, size, size + 1, size + 2, size + 3] {
                    meets(edition, &before, size, missing, Nothing, &mut met);
                }
            }
        }
    }
    met.allow();
    met.require(Entry::Read, &[0, 2, 3, 4, 5, 6, 8, 11, 41, 43, 44]);
}

/// A note of so many bytes, of which so many are missing at the file's end.
fn meets(edition: u16, before: &Before, size: usize, missing: usize, behind: Behind, coverage: &mut Coverage) {
    let mut file = [&record(history_file::HEAD, &edition.to_le_bytes())[..], &before.records].concat();
    let byte = file.len() as u32;
    file.extend(note_record(&vec![0x7e; size]));
    let next = file.len() as u32;
    file.extend(behind.bytes());
    file.truncate(file.len() - missing);
    let follows = behind.refused(edition, before);
    let asked =
        [(3, 0, edition != 3), (2, byte, missing == 0), (44, byte, size <= 64), (follows.unwrap_or(0), next, follows.is_none())];
    let count = before.events + u32::from(behind.is_event());
    let done = (0, u32::from(edition) * 65_536 + count);
    let expected = asked.into_iter().find(|&(_, _, yes)| !yes).map_or(done, |(code, place, _)| (code, place));
    let mut columns = Columns::of(&vec![UNFILLED; count as usize]);
    let answer = compare::read(&file, &mut [0xeeee; 32], &mut columns, coverage);
    let what = format!("edition {edition}, {size} bytes less {missing} at byte {byte}, then {behind:?}");
    assert_eq!((answer.code, answer.place), expected, "{what}");
    if answer.code != 0 {
        assert_eq!(columns, Columns::of(&vec![UNFILLED; count as usize]), "{what}");
    }
}

const UNFILLED: Event = Event { kind: 0xeeee, transaction: 0xeeee, register: 0xeeee, value: 0xeeee, thread: 0xeeee };

/// Kinds that have one byte of a note's or are next to it are none, and a note in the head's place is no head.
#[test]
fn a_note_is_of_kind_48_and_behind_the_head() {
    let mut met = Coverage::default();
    let mut read = |file: Vec<u8>| {
        let answer = compare::read(&file, &mut [0xeeee; 32], &mut Columns::default(), &mut met);
        (answer.code, answer.place)
    };
    for (edition, size) in [1, 2].into_iter().flat_map(|edition| [0, 2, 4, 64, 65].map(|size| (edition, size))) {
        let (head, body) = (record(history_file::HEAD, &[edition, 0]), vec![0; size]);
        for kind in [0, 47, 49, 176, 304, 0x3000, 0x3030, 0xff30, 0xffff] {
            assert_eq!(read([&head[..], &record(kind, &body)].concat()), (4, 6), "kind {kind} of {size} bytes");
        }
        assert_eq!(read([&record(NOTE, &body)[..], &head].concat()), (3, 0));
        assert_eq!(read(record(NOTE, &body)), (3, 0));
        for length in [0, 1] {
            assert_eq!(read([&head[..], &[length, 0, NOTE as u8, 0]].concat()), (2, 6));
        }
    }
}

/// A file is as long as it may be with its notes: one byte more is too much, though nothing would be left of it without them. The walk
/// finds all of them or none.
#[test]
fn notes_count_to_the_length_of_a_file() {
    let mut met = Coverage::default();
    // Notes of one size, and a last one that ends where a file ends at the latest: 32,762 bytes behind the head.
    for (size, count, last) in [(0, 8_189, 2), (1, 6_551, 3), (60, 511, 54), (64, 481, 50)] {
        let noted = |last: usize| {
            [&[4, 0, 1, 0, 1, 0][..], &note_record(&vec![0x20; size]).repeat(count), &note_record(&vec![0x21; last])].concat()
        };
        let (file, longer) = (noted(last), noted(last + 1));
        assert_eq!((file.len(), longer.len()), (32_768, 32_769), "notes of {size} bytes");
        let mut read = |file: &[u8]| {
            let answer = compare::read(file, &mut [0xeeee; 32], &mut Columns::default(), &mut met);
            (answer.code, answer.place)
        };
        assert_eq!((read(&file), read(&longer)), ((0, 65_536), (1, 0)));
        assert_eq!((notes(&file).count(), notes(&longer).count()), (count + 1, 0));
        assert_eq!(compare::next_note(&longer, 0, &mut [0xeeee; 3], &mut met).code, NONE);
        let mut note = [0xeeee; 3];
        let from = file.len() - last - 4;
        assert_eq!(compare::next_note(&file, from as u32, &mut note, &mut met).code, 0);
        assert_eq!(note, [0, from as u32 + 4, last as u32]);
    }
}

/// As many events as a history may have, with notes among them and behind them; and one more, which is refused behind them.
#[test]
fn notes_stand_among_2048_events() {
    let mut met = Coverage::default();
    let log = Log { store: Store::ZERO, events: limits::long(2_049) };
    let bare = history_file::write(&log.store, &log.events);
    let (records, _) = records_from(&bare, 6);
    let (mut file, mut put) = (bare[..6].to_vec(), Vec::new());
    for (at, event) in records.iter().enumerate() {
        if at % 16 == 0 {
            put.push([at as u32, file.len() as u32 + 4, at as u32 / 16 % 65]);
            file.extend(note_record(&vec![0x40; at / 16 % 65]));
        }
        if at == 2_048 {
            let mut columns = Columns::of(&[UNFILLED; 2_048]);
            let read = compare::read(&file, &mut [0xeeee; 32], &mut columns, &mut met);
            assert_eq!((read.code, read.place), (0, 65_536 + 2_048));
            assert_eq!(columns, Columns::of(&log.events[..2_048]));
        }
        file.extend(&bare[event.byte..event.next]);
    }
    let last = file.len() - (bare.len() - records[2_048].byte);
    let read = compare::read(&file, &mut [0xeeee; 32], &mut Columns::of(&[UNFILLED; 2_049]), &mut met);
    assert_eq!((read.code, read.place as usize), (6, last));
    assert_eq!((found(&file), put.len()), (put, 129));
}

/// A small history, or its beginning.
fn history(random: &mut Random) -> Log {
    let mut log = if random.chance(60) {
        let shape = Shape::small(random);
        walk(random, shape)
    } else {
        let plan = Plan::small(random);
        let store = random_store(random, plan.registers, 9);
        simulate(random, store, plan)
    };
    let length = if random.chance(20) { random.below(4) } else { log.events.len() };
    log.events.truncate(length);
    log
}

/// A readable file with notes reads as the same file without them, and is written as that.
#[test]
fn a_file_with_notes_reads_as_without() {
    let met = rounds::run((rounds::rounds() / 4).max(1), |random, coverage| {
        let log = history(random);
        let bare = history_file::write(&log.store, &log.events);
        let remarked = scattered(random, &bare);
        let file = &remarked.file;
        assert_eq!(without_notes(file), bare);
        let lent = (starts_for(random), columns_for(random, log.events.len()));
        let read = reads_alike(file, &bare, &lent, coverage);
        if lent.1.hold(log.events.len()) {
            assert_eq!((read.code, read.place as usize), (0, usize::from(log.store.edition) * 65_536 + log.events.len()));
        } else {
            assert_eq!((read.code, read.place as usize), (14, file.len()));
        }
        wrapped(&log, &remarked, &bare);
        let mut output = output_for(random, bare.len());
        let written = compare::write(&log.store, &Columns::of(&log.events), log.events.len(), &mut output, coverage);
        assert!(written.code == 15 || output[..written.place as usize] == bare, "what is written has no notes");
        assert_eq!(found(file), remarked.notes);
        if random.one_in(4) {
            found_from_every_byte(file, &remarked.notes);
        }
    });
    println!("{met}");
    met.allow();
    if rounds::rounds() >= 20_000 {
        met.require(Entry::Read, &[0, 14]);
        met.require_every_noted();
    }
}

/// The wrapper: the same history, whose file has no notes, and the notes with their bytes.
fn wrapped(log: &Log, remarked: &Remarked, bare: &[u8]) {
    let file = &remarked.file;
    let history = History::read(file).expect("a file that is readable without its notes");
    assert_eq!(history, History::read(bare).expect("a readable file"));
    assert_eq!((history.edition(), history.starts(), history.len()), (log.store.edition, &log.store.starts, log.events.len()));
    assert_eq!(history.to_bytes(), bare);
    let put = remarked.notes.iter().map(|note| note.map(|number| number as usize));
    let put = put.map(|[events, start, length]| Note { events, start, bytes: &file[start..start + length] });
    assert!(notes(file).eq(put), "the notes that were put in");
}

/// Files that are not quite right: with notes they are refused by the same question, at the byte that the notes before it have moved.
#[test]
fn what_is_refused_is_refused_alike_without_notes() {
    let met = rounds::run((rounds::rounds() / 4).max(1), |random, coverage| {
        let log = history(random);
        let bare = history_file::write(&log.store, &log.events);
        // Damage may come to the notes, or be there before them.
        let file = if random.chance(50) {
            let sound = scattered(random, &bare).file;
            damage::file(random, sound)
        } else {
            let damaged = damage::file(random, bare);
            scattered(random, &damaged).file
        };
        let lent = (starts_for(random), columns_for(random, log.events.len()));
        let read = reads_alike(&file, &without_notes(&file), &lent, coverage);
        assert_eq!(read.code == 1, file.len() > 32_768, "question 1 counts notes");
        if random.one_in(4) {
            let listed = reference::notes::notes(&file);
            let listed = listed.iter().map(|note| [note.events, note.start(), note.bytes.len()].map(|number| number as u32));
            found_from_every_byte(&file, &listed.collect::<Vec<_>>());
        }
    });
    println!("{met}");
    met.allow();
    if rounds::rounds() >= 20_000 {
        met.require(Entry::Read, &[0, 1, 2, 3, 4, 5, 8, 9, 10, 11, 12, 13, 14, 41, 42, 43, 44]);
    }
}

type Lent = ([u32; 32], Columns);

/// Reads a file and the same without notes, each into the same start values and columns: what they hold afterwards is the same, and so is
/// the answer, but for the notes before the byte of a refusal. Returns the answer with notes.
fn reads_alike(file: &[u8], bare: &[u8], lent: &Lent, coverage: &mut Coverage) -> Answer {
    let (mut with, mut without) = (lent.clone(), lent.clone());
    let answer = compare::read(file, &mut with.0, &mut with.1, coverage);
    let other = read(bare, &mut without);
    let moved = match answer.code {
        0 => 0,
        1 => return answer, // as long as it is, it may be readable without notes
        _ => noted_before(file, answer.place as usize) as u32,
    };
    assert_eq!(Answer { place: answer.place - moved, ..answer }, other, "with notes and without");
    assert!(with == without, "start values and columns with notes and without");
    let mut plain = lent.clone();
    assert_eq!(plain_read(file, &mut plain), answer, "plain Rust");
    assert!(plain == with, "plain Rust's start values and columns");
    answer
}

fn read(file: &[u8], (starts, columns): &mut Lent) -> Answer {
    let Columns { kinds, transactions, registers, values, threads } = columns;
    let answer = calls::read(file, starts, ColumnsMut { kinds, transactions, registers, values, threads });
    Answer { code: answer.code, place: answer.place }
}

fn plain_read(file: &[u8], (starts, columns): &mut Lent) -> Answer {
    let Columns { kinds, transactions, registers, values, threads } = columns;
    match plain::read(file, starts, kinds, transactions, registers, values, threads) {
        Ok((edition, count)) => Answer { code: 0, place: u32::from(edition) * 65_536 + count as u32 },
        Err(refusal) => Answer { code: u32::from(refusal.number), place: refusal.place as u32 },
    }
}

/// All notes of a file, each found from behind the one before it on.
fn found(file: &[u8]) -> Vec<[u32; 3]> {
    let (mut all, mut note) = (Vec::new(), [0; 3]);
    loop {
        let from = note[1] + note[2];
        let answer = calls::next_note(file, from, &mut note);
        assert_eq!(answer.place, 0);
        if answer.code != 0 {
            assert_eq!(answer.code, NONE);
            return all;
        }
        assert!(note[1] > from, "from {from} a note was found before it");
        all.push(note);
    }
}

/// From each byte on the first of these notes whose record begins there or later is found, by the library and by plain Rust; behind the
/// last one, and from each number beyond the file on, there is none.
fn found_from_every_byte(file: &[u8], notes: &[[u32; 3]]) {
    let length = file.len() as u32;
    for from in (0..length + 4).chain([32_768, 65_536 + 6, 1 << 31, u32::MAX - 1, u32::MAX]) {
        // A length and a kind stand between the beginning of a record and its bytes.
        let expected = notes.iter().find(|note| note[1] - 4 >= from);
        let mut note = [0xeeee; 3];
        let answer = calls::next_note(file, from, &mut note);
        let code = if expected.is_some() { 0 } else { NONE };
        assert_eq!((answer.code, answer.place), (code, 0), "from {from}");
        assert_eq!(note, *expected.unwrap_or(&[0xeeee; 3]), "from {from}");
        let by_plain = plain::next_note(file, from as usize);
        let by_plain = by_plain.map(|note| [note.events, note.start, note.length].map(|number| number as u32));
        assert_eq!(by_plain.as_ref(), expected, "plain Rust, from {from}");
    }
}
