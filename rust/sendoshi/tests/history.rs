//! The wrapper's own promises: what it takes, how it refuses and how its answers read.

use sendoshi::{
    calls, notes, Answer, Cause, Columns, History, Note, Place, Question, Refusal, Rule, Scan, Store, Straightening, Tally,
    Verdict,
};
use std::error::Error;

const KINDS: [u16; 10] = [16, 19, 20, 16, 17, 18, 21, 22, 17, 18];
const TRANSACTIONS: [u16; 10] = [0, 0, 0, 1, 1, 1, 0, 0, 1, 1];
const REGISTERS: [u16; 10] = [0, 3, 0, 0, 3, 3, 0, 0, 3, 3];
const VALUES: [u32; 10] = [0, 7, 0, 0, 0, 0, 0, 0, 0, 0];
const THREADS: [u16; 10] = [0, 0, 0, 1, 0, 0, 0, 0, 0, 0];
const H0: Columns =
    Columns { kinds: &KINDS, transactions: &TRANSACTIONS, registers: &REGISTERS, values: &VALUES, threads: &THREADS };

fn h0() -> History {
    History::from_columns(H0).unwrap()
}

fn refusal(question: Question, place: Place) -> Refusal {
    Refusal { question, place }
}

#[test]
fn h0_goes_through_every_call() {
    let history = h0();
    assert_eq!((history.len(), history.transactions(), history.store_reads()), (10, 2, 2));
    assert_eq!(history.tally(), Tally { committed: 1, aborted: 0, pending: 0, live: 1 });
    assert_eq!(History::read(&history.to_bytes()).unwrap(), history);
    assert_eq!(history.scan(), Ok(Scan::Opaque));
    let marking = history.lowest_marking(10).unwrap().unwrap();
    assert_eq!(marking.len(), 42);
    assert_eq!(history.check(&marking), Ok(Verdict::Accepted));
    assert_eq!(history.tally().to_string(), "committed 1 aborted 0 pending 0 live 1");
    assert_eq!(history.scan().unwrap().to_string(), "opaque yes");
    assert_eq!(history.check(&marking).unwrap().to_string(), "marking accepted");
}

/// H0 as it goes on: a prefix of its own, and the same events in columns that go on behind them.
#[test]
fn a_tally_follows_the_events() {
    let history = h0();
    let expected = [
        (0, [0, 0, 0, 0]),
        (1, [0, 0, 0, 1]), // T0 begins
        (3, [0, 0, 0, 1]),
        (4, [0, 0, 0, 2]), // T1 begins
        (6, [0, 0, 0, 2]),
        (7, [0, 0, 1, 1]), // T0 calls commit
        (8, [1, 0, 0, 1]), // and has committed
        (10, [1, 0, 0, 1]),
    ];
    for (length, [committed, aborted, pending, live]) in expected {
        let tally = history.prefix(length).unwrap().tally();
        assert_eq!(tally, Tally { committed, aborted, pending, live }, "{length} events");
        let answer = calls::tally(history.store(), history.columns(), length as u32);
        assert_eq!((answer.code, answer.quarters()), (0, [committed, aborted, pending, live]), "{length} of 10 events");
    }
}

/// Each number has a byte of its own, and comes to its own name.
#[test]
fn a_tally_is_taken_apart_byte_by_byte() {
    let answer = Answer::of(0x4001_0203);
    assert_eq!((answer.code, answer.quarters()), (0, [64, 1, 2, 3]));
    let tally = Tally { committed: 64, aborted: 1, pending: 2, live: 3 };
    assert_eq!(tally.to_string(), "committed 64 aborted 1 pending 2 live 3");
}

#[test]
fn a_broken_rule_names_event_and_transaction() {
    let history = h0();
    let mut marking = history.lowest_marking(10).unwrap().unwrap();
    marking[40] = 2; // event 9 at gap 2
    let verdict = history.check(&marking).unwrap();
    assert_eq!(verdict, Verdict::Broken { rule: Rule::D, event: 9, transaction: 1 });
    assert_eq!(verdict.to_string(), "marking rule D event 9 transaction 1");
}

#[test]
fn a_careless_point_is_moved_to_its_reader() {
    let history = h0();
    let lowest = history.lowest_marking(10).unwrap().unwrap();
    let mut careless = lowest.clone();
    careless[40] = 2; // event 9 at gap 2
    let straightened = |moved| Ok(Straightening::Straightened { marking: lowest.clone(), moved });
    assert_eq!(history.straighten(&careless), straightened(vec![9]));
    assert_eq!(history.straighten(&lowest), straightened(vec![]));
}

/// T1, aborted, read 0 before T0 wrote 7: behind T0 it has no place, wherever its points are.
#[test]
fn a_bad_order_is_not_straightened() {
    let history = h0();
    let mut marking = history.lowest_marking(10).unwrap().unwrap();
    marking[10..14].copy_from_slice(&[0, 0, 1, 0]);
    marking[18..22].copy_from_slice(&[1, 0, 0, 0]);
    assert_eq!(history.check(&marking), Ok(Verdict::Broken { rule: Rule::D, event: 5, transaction: 1 }));
    assert_eq!(history.straighten(&marking), Ok(Straightening::Broken { rule: Rule::E, event: 5, transaction: 1 }));
    marking[12] = 0; // T0 aborted, which committed
    assert_eq!(history.straighten(&marking), Ok(Straightening::Broken { rule: Rule::A, event: 7, transaction: 0 }));
}

#[test]
fn what_the_checker_refuses_is_not_straightened() {
    let history = h0();
    let mut marking = history.lowest_marking(10).unwrap().unwrap();
    assert_eq!(history.straighten(&marking[..32]), Err(refusal(Question::PointMissing, Place::Byte(32))));
    assert_eq!(history.straighten(&[]), Err(refusal(Question::MarkingHead, Place::Byte(0))));
    marking[40] = 3; // a gap behind more places than there are
    assert_eq!(history.straighten(&marking), Err(refusal(Question::GapTooLarge, Place::Byte(32))));
}

#[test]
fn columns_of_different_lengths_are_refused() {
    let one_short = [
        Columns { kinds: &KINDS[..9], ..H0 },
        Columns { transactions: &TRANSACTIONS[..9], ..H0 },
        Columns { registers: &REGISTERS[..9], ..H0 },
        Columns { values: &VALUES[..9], ..H0 },
        Columns { threads: &THREADS[..9], ..H0 },
    ];
    for columns in one_short {
        assert_eq!(History::from_columns(columns), Err(refusal(Question::CountTooLarge, Place::Event(10))));
    }
}

#[test]
fn an_event_is_refused_by_its_own_question() {
    let (mut registers, mut threads) = (REGISTERS, THREADS);
    registers[9] = 4;
    let columns = Columns { registers: &registers, ..H0 };
    assert_eq!(History::from_columns(columns), Err(refusal(Question::StrayField, Place::Event(9))));
    threads[4] = 1;
    let columns = Columns { threads: &threads, ..H0 };
    assert_eq!(History::from_columns(columns), Err(refusal(Question::StrayField, Place::Event(4))));
}

/// T1 begins on thread 1: its number stands in the column of threads, and no longer in that of registers.
#[test]
fn a_begin_has_its_thread_in_the_fifth_column() {
    let read = History::read(&h0().to_bytes()).unwrap();
    assert_eq!((read.columns().threads, read.columns().registers), (&THREADS[..], &REGISTERS[..]));
    let mut registers = REGISTERS;
    registers[3] = 1;
    let columns = Columns { registers: &registers, ..H0 };
    assert_eq!(History::from_columns(columns), Err(refusal(Question::StrayField, Place::Event(3))));
    let columns = Columns { threads: &[0; 10], ..H0 };
    assert_eq!(History::from_columns(columns), Err(refusal(Question::ThreadBusy, Place::Event(3))));
}

/// One transaction that goes on reading. The last two lengths are small in their lower 16 bits.
#[test]
fn a_history_has_at_most_2048_events() {
    for length in [2_047, 2_048, 2_049, 2_050, 65_536, 65_546] {
        let kinds: Vec<u16> = [16].into_iter().chain([17, 18].into_iter().cycle()).take(length).collect();
        let (zeros, values) = (vec![0; length], vec![0; length]);
        let columns = Columns { kinds: &kinds, transactions: &zeros, registers: &zeros, values: &values, threads: &zeros };
        let expected = if length > 2_048 { Err(refusal(Question::TooManyEvents, Place::Event(2_048))) } else { Ok(length) };
        assert_eq!(History::from_columns(columns).map(|history| history.len()), expected, "{length} events");
    }
}

#[test]
fn a_prefix_is_a_history() {
    let history = h0();
    let prefix = history.prefix(6).unwrap();
    assert_eq!((prefix.len(), prefix.store_reads()), (6, 1));
    let marking = history.lowest_marking(6).unwrap().unwrap();
    assert_eq!(prefix.lowest_marking(6).unwrap().unwrap(), marking);
    assert_eq!(prefix.check(&marking), Ok(Verdict::Accepted));
    assert_eq!(history.prefix(11), None);
    assert!(history.prefix(0).unwrap().is_empty());
    // Cut to 32 or to 16 bits, the last three would be prefixes of six events.
    for long in [11, u32::MAX as usize, usize::MAX, 65_536 + 6, (1 << 32) + 6, (1 << 48) + 6] {
        assert_eq!(history.lowest_marking(long), Err(refusal(Question::PrefixTooLong, Place::Event(10))), "{long} events");
    }
}

/// H0 over a store in which register 3 starts with 9 and register 31 with 1.
fn started(values: &[u32; 10]) -> History {
    let mut starts = [0; 32];
    (starts[3], starts[31]) = (9, 1);
    History::with_starts(starts, Columns { values, ..H0 }).unwrap()
}

#[test]
fn a_history_keeps_its_edition_and_its_start_values() {
    let history = started(&[0, 7, 0, 0, 0, 9, 0, 0, 0, 9]);
    assert_eq!((history.edition(), history.starts()[3], history.starts()[31], history.starts()[4]), (2, 9, 1, 0));
    let file = history.to_bytes();
    assert_eq!(file.len(), 88 + 2 * 10);
    assert_eq!(file[..26], [4, 0, 1, 0, 2, 0, 8, 0, 3, 0, 3, 0, 9, 0, 0, 0, 8, 0, 3, 0, 31, 0, 1, 0, 0, 0]);
    assert_eq!(History::read(&file).unwrap(), history);
    let prefix = history.prefix(6).unwrap();
    assert_eq!((prefix.edition(), prefix.starts()), (2, history.starts()));
    assert_eq!(History::read(&prefix.to_bytes()).unwrap(), prefix);
    let empty = history.prefix(0).unwrap();
    assert_eq!((empty.to_bytes().len(), History::read(&empty.to_bytes())), (26, Ok(empty)));
}

#[test]
fn edition_1_starts_at_0() {
    let history = h0();
    assert_eq!((history.edition(), history.starts()), (1, &[0; 32]));
    assert_eq!(history.to_bytes()[..6], [4, 0, 1, 0, 1, 0]);
    assert_eq!(history.store(), Store::ZERO);
    let zeros = History::with_starts([0; 32], H0).unwrap();
    assert_eq!((zeros.edition(), zeros.starts(), zeros.scan()), (2, &[0; 32], Ok(Scan::Opaque)));
    assert_eq!(zeros.to_bytes()[..6], [4, 0, 1, 0, 2, 0]);
    assert_eq!(zeros.to_bytes()[6..], history.to_bytes()[6..]);
    assert_ne!(zeros, history);
}

/// H0's marking fits H0 over a start value, if its reads return that value; and no marking does if they return 0.
#[test]
fn reads_are_of_start_values() {
    let marking = h0().lowest_marking(10).unwrap().unwrap();
    let mut careless = marking.clone();
    careless[40] = 2; // event 9 at gap 2
    let sound = started(&[0, 7, 0, 0, 0, 9, 0, 0, 0, 9]);
    assert_eq!(sound.scan(), Ok(Scan::Opaque));
    assert_eq!(sound.lowest_marking(10), Ok(Some(marking.clone())));
    assert_eq!(sound.check(&marking), Ok(Verdict::Accepted));
    let straightened = Straightening::Straightened { marking: marking.clone(), moved: vec![9] };
    assert_eq!(sound.straighten(&careless), Ok(straightened));
    let torn = started(&VALUES);
    assert_eq!(torn.scan().unwrap().to_string(), "opaque no event 5 cause 1");
    assert_eq!(torn.prefix(6).unwrap().scan(), torn.scan());
    assert_eq!((torn.lowest_marking(5).unwrap().is_some(), torn.lowest_marking(6)), (true, Ok(None)));
    assert_eq!(torn.check(&marking), Ok(Verdict::Broken { rule: Rule::E, event: 5, transaction: 1 }));
    assert_eq!(torn.straighten(&marking), Ok(Straightening::Broken { rule: Rule::E, event: 5, transaction: 1 }));
}

#[test]
fn start_records_are_refused_by_their_own_questions() {
    let (head, start) = ([4, 0, 1, 0, 2, 0], [8, 0, 3, 0, 3, 0, 9, 0, 0, 0]);
    let read = |parts: &[&[u8]]| History::read(&parts.concat()).map(|history| history.starts()[3]);
    assert_eq!(read(&[&head, &start]), Ok(9));
    assert_eq!(read(&[&head, &start, &start]), Err(refusal(Question::StartRegister, Place::Byte(16))));
    assert_eq!(read(&[&head, &[8, 0, 3, 0, 3, 0, 0, 0, 0, 0]]), Err(refusal(Question::StartZero, Place::Byte(6))));
    let begin = [6, 0, 16, 0, 0, 0, 0, 0];
    assert_eq!(read(&[&head, &begin, &start]), Err(refusal(Question::StartLate, Place::Byte(14))));
    assert_eq!(read(&[&[4, 0, 1, 0, 1, 0], &start]), Err(refusal(Question::EventKind, Place::Byte(6))));
    assert_eq!(read(&[&[4, 0, 1, 0, 3, 0], &start]), Err(refusal(Question::HistoryHead, Place::Byte(0))));
}

/// The calls themselves take any numbers, and refuse other editions and edition 1 with a start value.
#[test]
fn calls_refuse_other_editions() {
    let (history, starts) = (h0(), [1; 32]);
    for store in
        [Store { edition: 1, starts: &starts }, Store { edition: 0, starts: &[0; 32] }, Store { edition: 3, starts: &starts }]
    {
        for call in [calls::scan, calls::transactions, calls::store_reads, calls::tally] {
            assert_eq!(call(store, history.columns(), 10), Answer { code: 3, place: 10 });
            assert_eq!(call(store, history.columns(), 11), Answer { code: 17, place: 11 });
        }
    }
    assert_eq!(calls::scan(Store { edition: 2, starts: &starts }, history.columns(), 10), Answer { code: 101, place: 5 });
}

/// T0 has written 7 to register 3, which started with 9, and called commit. A display task on thread 1 reads register 3 twice, and a
/// task on thread 2 writes 5 there.
fn displayed(first: u32, second: u32) -> History {
    let mut starts = [0; 32];
    starts[3] = 9;
    let columns = Columns {
        kinds: &[16, 19, 20, 21, 24, 24, 25],
        transactions: &[0, 0, 0, 0, 1, 2, 3],
        registers: &[0, 3, 0, 0, 3, 3, 3],
        values: &[0, 7, 0, 0, first, second, 5],
        threads: &[0, 0, 0, 0, 1, 1, 2],
    };
    History::with_starts(starts, columns).unwrap()
}

#[test]
fn a_lone_access_is_a_transaction_of_its_own() {
    let history = displayed(9, 7);
    assert_eq!((history.len(), history.transactions(), history.store_reads()), (7, 4, 2));
    assert_eq!(history.tally(), Tally { committed: 3, aborted: 0, pending: 1, live: 0 });
    let file = history.to_bytes();
    // A head, a start, what T0 did, and three accesses of 14 bytes each.
    assert_eq!(file.len(), 6 + 10 + 8 + 12 + 6 + 6 + 3 * 14);
    assert_eq!(file[48..62], [12, 0, 24, 0, 1, 0, 1, 0, 3, 0, 9, 0, 0, 0]);
    assert_eq!(file[76..], [12, 0, 25, 0, 3, 0, 2, 0, 3, 0, 5, 0, 0, 0]);
    assert_eq!(History::read(&file).unwrap(), history);
    assert_eq!(history.prefix(5).unwrap().store_reads(), 1);
}

/// New after old is what a commit between the two reads shows; old after new is what nothing shows.
#[test]
fn lone_reads_are_judged_at_their_events() {
    assert_eq!(displayed(9, 9).scan(), Ok(Scan::Opaque));
    assert_eq!(displayed(7, 7).scan(), Ok(Scan::Opaque));
    assert_eq!(displayed(7, 9).scan(), Ok(Scan::Faulted { event: 5, cause: Cause::ReadReturned }));
    assert_eq!(displayed(8, 7).scan(), Ok(Scan::Faulted { event: 4, cause: Cause::ReadReturned }));
    let history = displayed(9, 7);
    assert_eq!(history.scan(), Ok(Scan::Opaque));
    let marking = history.lowest_marking(7).unwrap().unwrap();
    // T1, T0, T2 and T3, all committed; the reads at gaps 0 and 2.
    assert_eq!(marking.len(), 6 + 4 * 8 + 2 * 10);
    assert_eq!([10, 18, 26, 34].map(|place| (marking[place], marking[place + 2])), [(1, 1), (0, 1), (2, 1), (3, 1)]);
    assert_eq!([42, 52].map(|point| (marking[point], marking[point + 4])), [(4, 0), (5, 2)]);
    assert_eq!(history.check(&marking), Ok(Verdict::Accepted));
    let mut wrong = marking.clone();
    wrong[46] = 2; // event 4 behind T0's write
    assert_eq!(history.check(&wrong), Ok(Verdict::Broken { rule: Rule::D, event: 4, transaction: 1 }));
    assert_eq!(history.straighten(&wrong), Ok(Straightening::Straightened { marking: marking.clone(), moved: vec![4] }));
    wrong[12] = 0; // T1 aborted
    assert_eq!(history.check(&wrong), Ok(Verdict::Broken { rule: Rule::A, event: 4, transaction: 1 }));
}

#[test]
fn lone_accesses_are_refused_by_their_own_questions() {
    let read =
        |edition: u8, record: &[u8]| History::read(&[&[4, 0, 1, 0, edition, 0], record].concat()).map(|history| history.len());
    let lone = [12, 0, 24, 0, 0, 0, 15, 0, 31, 0, 9, 0, 0, 0];
    assert_eq!(read(2, &lone), Ok(1));
    assert_eq!(read(1, &lone), Err(refusal(Question::EventKind, Place::Byte(6))));
    assert_eq!(read(2, &[4, 0, 24, 0, 0, 0]), Err(refusal(Question::EventSize, Place::Byte(6))));
    let changed = |at: usize, byte: u8| {
        let mut record = lone;
        record[at] = byte;
        read(2, &record)
    };
    assert_eq!(changed(2, 26), Err(refusal(Question::EventKind, Place::Byte(6))));
    assert_eq!(changed(4, 1), Err(refusal(Question::TransactionNumber, Place::Byte(6))));
    assert_eq!(changed(6, 16), Err(refusal(Question::ThreadNumber, Place::Byte(6))));
    assert_eq!(changed(8, 32), Err(refusal(Question::RegisterNumber, Place::Byte(6))));
    let busy = [&[6, 0, 16, 0, 0, 0, 15, 0][..], &[12, 0, 25, 0, 1, 0, 15, 0, 31, 0, 9, 0, 0, 0]].concat();
    assert_eq!(read(2, &busy), Err(refusal(Question::ThreadBusy, Place::Byte(14))));
    let ended = [&lone[..], &[4, 0, 23, 0, 0, 0]].concat();
    assert_eq!(read(2, &ended), Err(refusal(Question::TransactionNotRunning, Place::Byte(20))));
    let late = [&lone[..], &[8, 0, 3, 0, 3, 0, 9, 0, 0, 0]].concat();
    assert_eq!(read(2, &late), Err(refusal(Question::StartLate, Place::Byte(20))));
}

/// The record of a note.
fn note(bytes: &[u8]) -> Vec<u8> {
    [&[2 + bytes.len() as u8, 0, 48, 0], bytes].concat()
}

/// H0's file with notes behind its head, between its first two events, where two stand in a row, and at its end.
fn noted_h0() -> Vec<u8> {
    let file = h0().to_bytes();
    let parts: [&[u8]; 7] =
        [&file[..6], &note(b"shift A"), &file[6..14], &note(b""), &note(&[0xff; 64]), &file[14..], &note(b"end")];
    parts.concat()
}

#[test]
fn notes_are_passed_over() {
    let (history, file) = (h0(), noted_h0());
    assert_eq!(file.len(), 88 + 11 + 4 + 68 + 7);
    let read = History::read(&file).unwrap();
    assert_eq!(read, history);
    assert_eq!(read.to_bytes(), history.to_bytes());
    // Before, between and behind start records, which are not late for that.
    let started = started(&VALUES);
    let file = started.to_bytes();
    let parts: [&[u8]; 7] = [&file[..6], &note(b"a"), &file[6..16], &note(b"b"), &file[16..26], &note(b"c"), &file[26..]];
    assert_eq!(History::read(&parts.concat()), Ok(started));
}

#[test]
fn notes_are_given_in_the_order_of_the_file() {
    let file = noted_h0();
    let expected = [
        Note { events: 0, start: 10, bytes: b"shift A" },
        Note { events: 1, start: 29, bytes: b"" },
        Note { events: 1, start: 33, bytes: &[0xff; 64] },
        Note { events: 10, start: 175, bytes: b"end" },
    ];
    assert_eq!(notes(&file).collect::<Vec<_>>(), expected);
    let mut walk = notes(&file);
    assert_eq!((walk.by_ref().count(), walk.next(), walk.next()), (4, None, None));
    assert_eq!(notes(&h0().to_bytes()).next(), None);
    assert_eq!(notes(&[]).next(), None);
    // The bytes are the file's own.
    let third = notes(&file).nth(2).unwrap();
    assert!(std::ptr::eq(third.bytes, &file[33..97]));
}

/// A file that is refused: its notes up to what is cut off or too long.
#[test]
fn notes_of_a_file_that_is_refused() {
    let file = noted_h0();
    let mut long = [&file[..25], &note(&[7; 65]), &file[25..]].concat();
    assert_eq!(History::read(&long), Err(refusal(Question::NoteLong, Place::Byte(25))));
    assert_eq!(notes(&long).count(), 1);
    assert_eq!(History::read(&file[..96]), Err(refusal(Question::RecordCut, Place::Byte(29))));
    assert_eq!(notes(&file[..96]).count(), 2);
    long.resize(32_769, 0);
    assert_eq!(History::read(&long), Err(refusal(Question::FileTooLong, Place::Byte(0))));
    assert_eq!(notes(&long).count(), 0);
    let torn = [&file[..25], &[4, 0, 22, 0, 0, 0], &file[25..]].concat();
    assert_eq!(History::read(&torn), Err(refusal(Question::EventNotDue, Place::Byte(25))));
    assert_eq!(notes(&torn).map(|note| note.events).collect::<Vec<_>>(), [0, 2, 2, 11]);
}

#[test]
fn notes_are_refused_by_their_own_questions() {
    let head = [4, 0, 1, 0, 1, 0];
    let read = |parts: &[&[u8]]| History::read(&parts.concat()).map(|history| history.len());
    assert_eq!(read(&[&head, &note(&[7; 64])]), Ok(0));
    assert_eq!(read(&[&head, &note(&[7; 65])]), Err(refusal(Question::NoteLong, Place::Byte(6))));
    assert_eq!(read(&[&head, &note(b"abc")[..6]]), Err(refusal(Question::RecordCut, Place::Byte(6))));
    assert_eq!(read(&[&note(b"abc"), &head]), Err(refusal(Question::HistoryHead, Place::Byte(0))));
    let columns = Columns { kinds: &[48], transactions: &[0], registers: &[0], values: &[0], threads: &[0] };
    assert_eq!(History::from_columns(columns), Err(refusal(Question::EventKind, Place::Event(0))));
    assert_eq!(History::with_starts([0; 32], columns), Err(refusal(Question::EventKind, Place::Event(0))));
}

/// The call itself: three numbers, which stay where no note is found.
#[test]
fn the_next_note_is_found_from_a_byte_on() {
    let (file, mut found) = (noted_h0(), [9; 3]);
    let (done, none) = (Answer { code: 0, place: 0 }, Answer { code: 100, place: 0 });
    for (from, note) in [(0, [0, 10, 7]), (6, [0, 10, 7]), (7, [1, 29, 0]), (29, [1, 33, 64]), (30, [10, 175, 3])] {
        assert_eq!((calls::next_note(&file, from, &mut found), found), (done, note), "from {from}");
    }
    for from in [172, 178, 179, 32_768, u32::MAX] {
        found = [9; 3];
        assert_eq!((calls::next_note(&file, from, &mut found), found), (none, [9; 3]), "from {from}");
    }
}

#[test]
fn what_is_judged_has_at_most_10_transactions() {
    let threads = [0, 1, 2, 3, 4, 5, 6, 7, 8, 9, 10];
    let columns = Columns { kinds: &[16; 11], transactions: &threads, registers: &[0; 11], values: &[0; 11], threads: &threads };
    let history = History::from_columns(columns).unwrap();
    let refused = refusal(Question::TooManyToJudge, Place::Event(11));
    assert_eq!(history.scan(), Err(refused));
    assert_eq!(history.lowest_marking(11), Err(refused));
    assert_eq!(history.lowest_marking(10).unwrap().unwrap().len(), 86);
    assert_eq!(history.lowest_marking(12), Err(refusal(Question::PrefixTooLong, Place::Event(11))));
}

#[test]
fn questions_keep_their_numbers_and_say_what_is_wrong() {
    let numbers: Vec<u8> = Question::ALL.iter().map(|question| question.number()).collect();
    let expected: Vec<u8> = (1..=18).chain(21..=29).chain(31..=32).chain(41..=44).collect();
    assert_eq!(numbers, expected);
    for &question in Question::ALL {
        assert_eq!(Question::from_number(question.number()), Some(question));
        assert_eq!(question.to_string(), question.text());
    }
    assert_eq!(Question::from_number(0), None);
    assert_eq!(Question::from_number(30), None);
    assert_eq!(Question::from_number(40), None);
    assert_eq!(Question::from_number(45), None);
}

#[test]
fn a_refusal_is_an_error() {
    let error: Box<dyn Error> = Box::new(History::read(&[]).unwrap_err());
    let text = "there is no head of a history of edition 1 or 2, or edition 1 is given with a start value that is not 0";
    assert_eq!(error.to_string(), format!("refused 3 at byte 0: {text}"));
    let error = h0().check(&[]).unwrap_err();
    assert_eq!(error, refusal(Question::MarkingHead, Place::Byte(0)));
}
