//! Lone accesses in the five columns, what is counted of them, and what every call over columns asks before their events.

use reference::entries::{self, Answer};
use reference::event::*;
use reference::history_file;
use reference::log::Log;
use reference::reads::{own_reads, store_reads, transactions};
use reference::store::{Store, REGISTERS};
use reference::tally::{tally, Tally};
use reference::worked::h0_marking;

/// T0 is a lone read, T1 begins on its thread, T2 is a lone write that T1 reads.
fn mixed() -> Log {
    Log::starting(&[(3, 9)]).lone_read(5, 3, 9).begin(5).lone_write(15, 31, 7).read(1, 31, 7)
}

/// The answers of all calls over columns, into buffers that are long enough.
fn all_calls(store: &Store, columns: &Columns, count: usize) -> [Answer; 8] {
    let (mut output, mut list) = (vec![0xee; 512], vec![0xeeee_eeee; 16]);
    let answers = [
        entries::write(store, columns, count, &mut output),
        entries::find(store, columns, count, 0, &mut output),
        entries::scan(store, columns, count),
        entries::check(store, columns, count, &h0_marking()),
        entries::straighten(store, columns, count, &h0_marking(), &mut output, &mut list),
        entries::transactions(store, columns, count),
        entries::store_reads(store, columns, count),
        entries::tally(store, columns, count),
    ];
    assert!(output.iter().all(|byte| *byte == 0xee) && list.iter().all(|entry| *entry == 0xeeee_eeee));
    answers
}

/// The columns without the last entry of one of them.
fn without_last(columns: &Columns, column: usize) -> Columns {
    let mut short = columns.clone();
    match column {
        0 => drop(short.kinds.pop()),
        1 => drop(short.transactions.pop()),
        2 => drop(short.registers.pop()),
        3 => drop(short.values.pop()),
        _ => drop(short.threads.pop()),
    }
    short
}

#[test]
fn columns_hold_what_a_lone_access_says() {
    let log = mixed();
    let columns = Columns::of(&log.events);
    assert_eq!(columns.kinds, [24, 16, 25, 17, 18]);
    assert_eq!(columns.transactions, [0, 1, 2, 1, 1]);
    assert_eq!(columns.registers, [3, 0, 31, 31, 31]);
    assert_eq!(columns.values, [9, 0, 7, 0, 7]);
    assert_eq!(columns.threads, [5, 5, 15, 0, 0]);
    let file = history_file::write(&log.store, &log.events);
    assert_eq!(file.len(), 6 + 10 + 14 + 8 + 14 + 8 + 10);
    assert_eq!(file[16..30], [12, 0, 24, 0, 0, 0, 5, 0, 3, 0, 9, 0, 0, 0]);
    assert_eq!(file[38..52], [12, 0, 25, 0, 2, 0, 15, 0, 31, 0, 7, 0, 0, 0]);
    assert_eq!(history_file::read(&file), Ok((log.store, log.events)));
}

/// The reader fills all five, and nothing behind the count.
#[test]
fn the_reader_fills_five_columns() {
    let log = mixed();
    let file = history_file::write(&log.store, &log.events);
    let old = Event { kind: 7, transaction: 7, register: 7, value: 7, thread: 7 };
    let (mut columns, mut starts) = (Columns::of(&[old; 6]), [7; REGISTERS]);
    assert_eq!(entries::read(&file, &mut starts, &mut columns), Answer { code: 0, place: 2 * 65_536 + 5 });
    assert_eq!((columns, starts), (Columns::of(&[&log.events[..], &[old]].concat()), log.store.starts));
}

/// A column that is too short is refused by 14 where it is filled, and elsewhere by 17, before 3 and 4.
#[test]
fn every_column_is_asked() {
    let log = mixed();
    let (file, count) = (history_file::write(&log.store, &log.events), log.events.len());
    for column in 0..5 {
        let short = without_last(&Columns::of(&log.events), column);
        let (mut filled, mut starts) = (short.clone(), [7; REGISTERS]);
        assert_eq!(entries::read(&file, &mut starts, &mut filled), Answer { code: 14, place: file.len() as u32 });
        assert_eq!((filled, starts), (short.clone(), [7; REGISTERS]));
        for store in [log.store, Store::ZERO, Store { edition: 3, ..log.store }] {
            assert_eq!(all_calls(&store, &short, count), [Answer { code: 17, place: count as u32 }; 8]);
        }
    }
}

/// The counts and the tally are told edition and start values as the others are: 17, 3, and then each event's own.
#[test]
fn every_call_asks_edition_and_start_values() {
    let (log, count) = (mixed(), mixed().events.len());
    let columns = Columns::of(&log.events);
    for store in [Store { edition: 1, ..log.store }, Store { edition: 3, ..Store::ZERO }, Store { edition: 0, ..log.store }] {
        assert_eq!(all_calls(&store, &columns, count), [Answer { code: 3, place: count as u32 }; 8]);
    }
    assert_eq!(all_calls(&Store::ZERO, &columns, count), [Answer { code: 4, place: 0 }; 8]);
    let later = Log::new().begin(0).lone_write(1, 3, 5);
    assert_eq!(all_calls(&later.store, &Columns::of(&later.events), 2), [Answer { code: 4, place: 1 }; 8]);
}

#[test]
fn lone_accesses_are_counted() {
    let log = mixed().lone_read(0, 3, 9);
    let (columns, count) = (Columns::of(&log.events), log.events.len());
    let counted = |place| Answer { code: 0, place };
    assert_eq!(entries::transactions(&log.store, &columns, count), counted(4));
    assert_eq!(entries::store_reads(&log.store, &columns, count), counted(3));
    assert_eq!(entries::tally(&log.store, &columns, count), counted(3 * 16_777_216 + 1));
    assert_eq!((transactions(&log.events), store_reads(&log.events).collect::<Vec<_>>()), (4, vec![0, 4, 5]));
    assert_eq!(tally(&log.events), Tally { committed: 3, aborted: 0, pending: 0, live: 1 });
}

/// A lone read is never an own read, not even of a register that its thread has just written alone.
#[test]
fn a_lone_read_is_a_store_read() {
    let log = Log::starting(&[]).lone_write(0, 3, 5).lone_read(0, 3, 5).begin(0).write(2, 3, 6).lone_read(1, 3, 5).read(2, 3, 6);
    assert_eq!(store_reads(&log.events).collect::<Vec<_>>(), [1, 5]);
    assert_eq!(own_reads(&log.events).collect::<Vec<_>>(), [7]);
}

/// The finder's output has eight bytes for a lone access and ten more for a lone read.
#[test]
fn the_output_has_room_for_lone_reads() {
    let log = mixed().lone_read(0, 3, 9);
    let (columns, count, needed) = (Columns::of(&log.events), log.events.len(), 6 + 8 * 4 + 10 * 3);
    let find = |length: usize| entries::find(&log.store, &columns, count, count, &mut vec![0; length]);
    assert_eq!(find(needed - 1), Answer { code: 32, place: count as u32 });
    assert_eq!(find(needed), Answer { code: 0, place: needed as u32 });
}
