//! One call put to the library and to the brute force: the answers must be equal, and so must all buffers afterwards.

use crate::coverage::{Coverage, Entry};
use crate::lent::{lent_count, lent_starts, Lent, LentColumns, LentStore};
use crate::lone;
use crate::notes;
use crate::stores;
use crate::tallies;
use reference::entries::{self, Answer};
use reference::event::{Columns, Event};
use reference::store::{Store, REGISTERS};
use sendoshi::{answer, calls};

const BYTE: u8 = 0xa5;
const EVENT: u32 = 0xc35a_a53c;
const NUMBER: u32 = 0x69c3_3c96;

fn same(entry: Entry, got: sendoshi::Answer, expected: Answer, coverage: &mut Coverage) -> Answer {
    let got = Answer { code: got.code, place: got.place };
    assert_eq!(got, expected, "{entry:?}: the library's answer and the brute force's");
    coverage.note(entry, got.code);
    got
}

/// Reads a file into start values and columns that hold something already, and returns the answer; both are then as the reader left
/// them.
pub fn read(file: &[u8], starts: &mut [u32; REGISTERS], columns: &mut Columns, coverage: &mut Coverage) -> Answer {
    let lent_file = Lent::new(file, BYTE);
    let mut lent_starts = lent_starts(starts);
    let mut lent = LentColumns::new(columns);
    let got = calls::read(lent_file.slice(), lent_starts.starts_mut(), lent.view_mut());
    let answer = same(Entry::Read, got, entries::read(file, starts, columns), coverage);
    assert!(lent_file.holds(file), "read changed its file");
    assert!(lent_starts.holds(starts), "read left other start values than it should");
    assert!(lent.hold(columns), "read left other columns than it should");
    if answer.code == answer::DONE {
        notes::note(file, coverage);
    }
    answer
}

/// Finds the first note from a byte on, in three numbers that hold something already.
pub fn next_note(file: &[u8], from: u32, note: &mut [u32; 3], coverage: &mut Coverage) -> Answer {
    let lent_file = Lent::new(file, BYTE);
    let mut lent_note = Lent::new(note, NUMBER);
    let got = calls::next_note(lent_file.slice(), from, lent_note.note_mut());
    let answer = same(Entry::NextNote, got, entries::next_note(file, from, note), coverage);
    assert!(lent_file.holds(file), "next_note changed its file");
    assert!(lent_note.holds(note), "next_note left another note than it should");
    answer
}

/// Writes columns to an output that holds something already.
pub fn write(store: &Store, columns: &Columns, count: usize, output: &mut [u8], coverage: &mut Coverage) -> Answer {
    let (lent_store, lent) = (LentStore::new(store), LentColumns::new(columns));
    let mut lent_output = Lent::new(output, BYTE);
    let got = calls::write(lent_store.view(), lent.view(), lent_count(count), lent_output.slice_mut());
    let answer = same(Entry::Write, got, entries::write(store, columns, count, output), coverage);
    assert!(lent_store.holds(store), "write changed its start values");
    assert!(lent.hold(columns), "write changed its columns");
    assert!(lent_output.holds(output), "write left another output than it should");
    answer
}

/// Finds the lowest marking of a prefix.
pub fn find(store: &Store, columns: &Columns, count: usize, prefix: usize, output: &mut [u8], coverage: &mut Coverage) -> Answer {
    let (lent_store, lent) = (LentStore::new(store), LentColumns::new(columns));
    let mut lent_output = Lent::new(output, BYTE);
    let got = calls::find(lent_store.view(), lent.view(), lent_count(count), lent_count(prefix), lent_output.slice_mut());
    let answer = same(Entry::Find, got, entries::find(store, columns, count, prefix, output), coverage);
    assert!(lent_store.holds(store), "find changed its start values");
    assert!(lent.hold(columns), "find changed its columns");
    assert!(lent_output.holds(output), "find left another output than it should");
    answer
}

/// Judges every prefix.
pub fn scan(store: &Store, columns: &Columns, count: usize, coverage: &mut Coverage) -> Answer {
    let (lent_store, lent) = (LentStore::new(store), LentColumns::new(columns));
    let got = calls::scan(lent_store.view(), lent.view(), lent_count(count));
    let answer = same(Entry::Scan, got, entries::scan(store, columns, count), coverage);
    assert!(lent_store.holds(store), "scan changed its start values");
    assert!(lent.hold(columns), "scan changed its columns");
    if matches!(answer.code, answer::DONE | 101..=104) {
        let history = first_events(columns, count);
        stores::note(store, &history, answer, coverage);
        lone::note(store, &history, answer, coverage);
    }
    answer
}

/// The first events of columns that hold so many.
fn first_events(columns: &Columns, count: usize) -> Vec<Event> {
    (0..count).map(|at| columns.event(at)).collect()
}

/// Checks a marking.
pub fn check(store: &Store, columns: &Columns, count: usize, file: &[u8], coverage: &mut Coverage) -> Answer {
    let (lent_store, lent) = (LentStore::new(store), LentColumns::new(columns));
    let lent_file = Lent::new(file, BYTE);
    let got = calls::check(lent_store.view(), lent.view(), lent_count(count), lent_file.slice());
    let answer = same(Entry::Check, got, entries::check(store, columns, count, file), coverage);
    assert!(lent_store.holds(store), "check changed its start values");
    assert!(lent.hold(columns), "check changed its columns");
    assert!(lent_file.holds(file), "check changed its file");
    answer
}

/// Straightens a marking into an output and a list that hold something already.
pub fn straighten(
    store: &Store,
    columns: &Columns,
    count: usize,
    file: &[u8],
    output: &mut [u8],
    list: &mut [u32],
    coverage: &mut Coverage,
) -> Answer {
    let (lent_store, lent) = (LentStore::new(store), LentColumns::new(columns));
    let lent_file = Lent::new(file, BYTE);
    let mut lent_output = Lent::new(output, BYTE);
    let mut lent_list = Lent::new(list, EVENT);
    let (output_slice, list_slice) = (lent_output.slice_mut(), lent_list.slice_mut());
    let got = calls::straighten(lent_store.view(), lent.view(), lent_count(count), lent_file.slice(), output_slice, list_slice);
    let answer = same(Entry::Straighten, got, entries::straighten(store, columns, count, file, output, list), coverage);
    assert!(lent_store.holds(store), "straighten changed its start values");
    assert!(lent.hold(columns), "straighten changed its columns");
    assert!(lent_file.holds(file), "straighten changed its file");
    assert!(lent_output.holds(output), "straighten left another output than it should");
    assert!(lent_list.holds(list), "straighten left another list than it should");
    answer
}

/// Counts transactions and store reads.
pub fn counts(store: &Store, columns: &Columns, count: usize, coverage: &mut Coverage) -> (Answer, Answer) {
    let (lent_store, lent) = (LentStore::new(store), LentColumns::new(columns));
    let begun = calls::transactions(lent_store.view(), lent.view(), lent_count(count));
    let reads = calls::store_reads(lent_store.view(), lent.view(), lent_count(count));
    assert!(lent_store.holds(store), "a count changed its start values");
    assert!(lent.hold(columns), "a count changed its columns");
    (
        same(Entry::Transactions, begun, entries::transactions(store, columns, count), coverage),
        same(Entry::StoreReads, reads, entries::store_reads(store, columns, count), coverage),
    )
}

/// Tallies the transactions.
pub fn tally(store: &Store, columns: &Columns, count: usize, coverage: &mut Coverage) -> Answer {
    let (lent_store, lent) = (LentStore::new(store), LentColumns::new(columns));
    let got = calls::tally(lent_store.view(), lent.view(), lent_count(count));
    assert!(lent_store.holds(store), "tally changed its start values");
    assert!(lent.hold(columns), "tally changed its columns");
    tallies::adds_up(got, calls::transactions(lent_store.view(), lent.view(), lent_count(count)));
    let answer = same(Entry::Tally, got, entries::tally(store, columns, count), coverage);
    if answer.code == answer::DONE {
        tallies::note(&first_events(columns, count), got, coverage);
    }
    answer
}
