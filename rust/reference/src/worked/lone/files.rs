//! Lone accesses in files and in columns: what is read, written and refused.

use super::*;
use crate::event::*;
use crate::history_file::start_record;

/// Every example.
pub fn all() -> Vec<Worked> {
    let in_files = [files(), refused_files(), refused_by_first(), busy_threads(), after_a_lone_access()].concat();
    [in_files, first_edition(), refused_in_columns(), fields_lacking()].concat()
}

/// Files that are read, and written back.
fn files() -> Vec<Worked> {
    let head = [4, 0, 1, 0, 2, 0];
    let start = [8, 0, 3, 0, 3, 0, 9, 0, 0, 0]; // register 3 starts with 9
    let read = [12, 0, 24, 0, 0, 0, 5, 0, 3, 0, 9, 0, 0, 0]; // T0 on thread 5 reads 9 in register 3
    let write = [12, 0, 25, 0, 1, 0, 5, 0, 31, 0, 4, 3, 2, 1]; // T1 on thread 5 writes 0x01020304 to register 31
    let begin = [6, 0, 16, 0, 2, 0, 5, 0]; // T2 on thread 5
    let beside = [12, 0, 24, 0, 3, 0, 15, 0, 0, 0, 255, 255, 255, 255]; // T3 on thread 15 reads the highest value in register 0
    let called = [6, 0, 17, 0, 2, 0, 31, 0]; // T2 calls a read of register 31
    let log = nine().lone_read(5, 3, 9).lone_write(5, 31, 0x0102_0304);
    let longer = log.clone().begin(5).lone_read(15, 0, u32::MAX).read_called(2, 31);
    let aborted = nine().begin(5).aborted(0).lone_read(5, 3, 9);
    let aborted_file = file(&aborted);
    [
        read_and_written("a lone read", [&head[..], &start, &read].concat(), nine().lone_read(5, 3, 9)),
        read_and_written("a lone read and a lone write", [&head[..], &start, &read, &write].concat(), log),
        read_and_written(
            "lone accesses and a begin on their thread",
            [&head[..], &start, &read, &write, &begin, &beside, &called].concat(),
            longer,
        ),
        read_and_written("a lone read on a thread that was aborted", aborted_file, aborted),
        read_and_written("64 lone accesses", file(&in_turn(64)), in_turn(64)),
    ]
    .concat()
}

const LONE: [u16; 2] = [LONE_READ, LONE_WRITE];

/// The bytes of a lone access with the value 9.
fn lone(kind: u16, transaction: u16, thread: u16, register: u16) -> Vec<u8> {
    let value = 9u32.to_le_bytes();
    record(kind, &[&transaction.to_le_bytes()[..], &thread.to_le_bytes(), &register.to_le_bytes(), &value].concat())
}

fn row(name: &str, edition: u16, records: &[&[u8]], code: u32, place: u32) -> Worked {
    worked(name, Call::Read(file_of(edition, records)), code, place)
}

/// 2,048 events of T0 on thread 0.
fn full() -> Log {
    (0..1_023).fold(Log::starting(&[]).begin(0), |log, _| log.read(0, 0, 0)).read_called(0, 0)
}

/// The records of those events, and the byte where the next would begin.
fn full_records() -> (Vec<u8>, u32) {
    let file = file(&full());
    (file[6..].to_vec(), file.len() as u32)
}

/// Kinds and sizes: 4 comes before 5, and both before what is asked of an event.
fn refused_files() -> Vec<Worked> {
    let (full, behind) = full_records();
    let rows = |kind| {
        let (right, wrong) = (lone(kind, 0, 0, 3), record(kind, &[0; 4]));
        vec![
            row("a lone access in edition 1", 1, &[&right], 4, 6),
            row("a lone access of another size in edition 1", 1, &[&wrong], 4, 6),
            row("a late lone access in edition 1", 1, &[&record(BEGIN, &[0; 4]), &lone(kind, 1, 1, 3)], 4, 14),
            row("a lone access after 2,048 events of edition 1", 1, &[&full, &lone(kind, 9, 16, 32)], 4, behind),
            row("a lone access in edition 3", 3, &[&right], 3, 0),
            row("a lone access that is cut off", 2, &[&right[..13]], 2, 6),
            row("a lone access with a begin's body", 2, &[&wrong], 5, 6),
            row("a lone access with a written register's body", 2, &[&record(kind, &[0; 8])], 5, 6),
            row("a lone access that is too short", 2, &[&record(kind, &[0; 9])], 5, 6),
            row("a lone access that is too long", 2, &[&record(kind, &[0; 11])], 5, 6),
            row("a lone access without a body", 2, &[&record(kind, &[])], 5, 6),
            row("a begin with a lone access's body", 2, &[&record(BEGIN, &[0; 10])], 5, 6),
            row("a wrong lone access of another size", 2, &[&full, &record(kind, &[255; 9])], 5, behind),
        ]
    };
    LONE.map(rows).concat()
}

/// Lone accesses that are wrong in several ways at once, each refused by the first of 6, 7, 8, 9, 10 and 12 that says no.
fn refused_by_first() -> Vec<Worked> {
    let (full, behind) = full_records();
    let crowd = &file(&in_turn(64))[16..]; // behind the head and a start
    let busy = record(BEGIN, &[0, 0, 7, 0]); // T0 on thread 7
    let rows = |kind| {
        let first = |name, thread, register, code| row(name, 2, &[&lone(kind, 0, thread, register)], code, 6);
        let second =
            |name, number, thread, register, code| row(name, 2, &[&busy, &lone(kind, number, thread, register)], code, 14);
        vec![
            row("6 before the others", 2, &[&full, &lone(kind, 9, 16, 32)], 6, behind),
            row("6 alone", 2, &[&full, &lone(kind, 1, 1, 3)], 6, behind),
            row("7 before the others", 2, &[crowd, &lone(kind, 9, 16, 32)], 7, 902),
            row("7 alone", 2, &[crowd, &lone(kind, 64, 0, 3)], 7, 902),
            second("8 before 9 and 12", 2, 16, 32, 8),
            second("8 before 10 and 12", 0, 7, 32, 8),
            second("8 alone, too low", 0, 1, 3, 8),
            second("8 alone, too high", 2, 1, 3, 8),
            second("9 before 12", 1, 16, 32, 9),
            second("9 alone", 1, 16, 3, 9),
            second("10 before 12", 1, 7, 32, 10),
            second("10 alone", 1, 7, 3, 10),
            second("12 alone", 1, 8, 32, 12),
            first("a first lone access on thread 65,535", 65_535, 3, 9),
            first("a first lone access of register 32", 0, 32, 12),
            first("a first lone access of register 288", 15, 288, 12),
            row("a first lone access numbered 1", 2, &[&lone(kind, 1, 0, 3)], 8, 6),
        ]
    };
    LONE.map(rows).concat()
}

/// A lone access needs a free thread, whatever the transaction that runs there is at.
fn busy_threads() -> Vec<Worked> {
    let begun = nine().begin(5);
    let states = [
        begun.clone(),
        begun.clone().read_called(0, 3),
        begun.clone().read(0, 3, 9),
        begun.clone().write_called(0, 3, 5),
        begun.clone().write(0, 3, 5),
        begun.commit_called(0),
    ];
    let refused = |log: Log, place: u32| {
        let (read, write) = (log.clone().lone_read(5, 3, 9), log.lone_write(5, 3, 9));
        let event = read.events.len() as u32 - 1;
        [
            worked("a lone read on a busy thread", Call::Read(file(&read)), 10, place),
            worked("a lone write on a busy thread", Call::Read(file(&write)), 10, place),
            worked("the same read in columns", scan(&read), 10, event),
            worked("the same write in columns", Call::Write(write), 10, event),
        ]
    };
    states.into_iter().flat_map(|log| refused(log.clone(), file(&log).len() as u32)).collect()
}

/// What comes after a lone access: its number is used up, and it has ended.
fn after_a_lone_access() -> Vec<Worked> {
    let rows = |kind| {
        let alone = lone(kind, 0, 5, 3);
        let then = |name, next: Vec<u8>, code| row(name, 2, &[&alone, &next], code, 20);
        vec![
            then("its number begins again", record(BEGIN, &[0, 0, 5, 0]), 8),
            then("its number is taken again", lone(kind, 0, 5, 3), 8),
            then("it calls a read", record(READ_CALLED, &[0, 0, 3, 0]), 11),
            then("its read returns", record(READ_RETURNED, &[0, 0, 9, 0, 0, 0]), 11),
            then("it calls a write", record(WRITE_CALLED, &[0, 0, 3, 0, 9, 0, 0, 0]), 11),
            then("its write returns", record(WRITE_RETURNED, &[0, 0]), 11),
            then("it calls commit", record(COMMIT_CALLED, &[0, 0]), 11),
            then("it is committed", record(COMMITTED, &[0, 0]), 11),
            then("it is aborted", record(ABORTED, &[0, 0]), 11),
            then("a start after it", start_record(3, 9), 43),
            then("a wrong start after it", start_record(32, 0), 43),
            then("a start of another size after it", record(history_file::START, &[3, 0, 9, 0]), 5),
            is_read("a begin after it", file_of(2, &[&alone, &record(BEGIN, &[1, 0, 5, 0])]), Store::of(&[]), 2),
            is_read("another after it", file_of(2, &[&alone, &lone(kind, 1, 5, 31)]), Store::of(&[]), 2),
        ]
    };
    LONE.map(rows).concat()
}

/// Edition 1 has no lone access in columns either.
fn first_edition() -> Vec<Worked> {
    let crowded = (0..11).fold(Log::new(), |log, thread| log.begin(thread));
    [
        refused_alike("a lone read in edition 1", Log::new().lone_read(0, 3, 0), 4, 0),
        refused_alike("a lone write in edition 1", Log::new().lone_write(0, 3, 0), 4, 0),
        refused_alike("a lone read behind H0", Log::h0().lone_read(2, 3, 7), 4, 10),
        refused_alike("a lone write on a busy thread in edition 1", Log::h0().lone_write(1, 32, 7), 4, 10),
        refused_alike("4 comes before 31", crowded.lone_read(11, 3, 0), 4, 11),
        refused_alike(
            "3 comes before 4",
            Log { store: Store { edition: 3, ..Store::ZERO }, ..Log::new().lone_read(0, 3, 0) },
            3,
            1,
        ),
        refused_alike("kind 26 in edition 2", nine().event(LONE_WRITE + 1, 0, 3, 9, 0), 4, 0),
    ]
    .concat()
}

/// The questions of a lone access in columns, in their order.
fn refused_in_columns() -> Vec<Worked> {
    let rows = |kind| {
        let one = nine().begin(7);
        [
            refused_alike("6 in columns", full().event(kind, 9, 32, 9, 16), 6, 2_048),
            refused_alike("7 in columns", in_turn(64).event(kind, 9, 32, 9, 16), 7, 64),
            refused_alike("8 in columns", one.clone().event(kind, 0, 32, 9, 16), 8, 1),
            refused_alike("9 in columns", one.clone().event(kind, 1, 32, 9, 16), 9, 1),
            refused_alike("10 in columns", one.clone().event(kind, 1, 32, 9, 7), 10, 1),
            refused_alike("12 in columns", one.event(kind, 1, 32, 9, 8), 12, 1),
        ]
        .concat()
    };
    LONE.map(rows).concat()
}

/// Question 16 in both editions: a begin has a thread and nothing else, and the events of a transaction have none.
fn fields_lacking() -> Vec<Worked> {
    let rows = |store: Store| {
        let none = || Log { store, events: Vec::new() };
        let one = || none().begin(1);
        let commit = || one().commit_called(0);
        [
            refused_alike("a begin with its thread in the register", none().event(BEGIN, 0, 1, 0, 0), 16, 0),
            refused_alike("a begin with a thread and a register", none().event(BEGIN, 0, 5, 0, 5), 16, 0),
            refused_alike("a begin with a value", none().event(BEGIN, 0, 0, 1, 5), 16, 0),
            refused_alike("a begin on thread 16", none().event(BEGIN, 0, 1, 1, 16), 9, 0),
            refused_alike("a begin on a busy thread", one().event(BEGIN, 1, 1, 1, 1), 10, 1),
            refused_alike("a read called with a thread", one().event(READ_CALLED, 0, 3, 0, 1), 16, 1),
            refused_alike("a read returned with a thread", one().read_called(0, 3).event(READ_RETURNED, 0, 3, 0, 1), 16, 2),
            refused_alike("a write called with a thread", one().event(WRITE_CALLED, 0, 3, 5, 1), 16, 1),
            refused_alike("a write returned with a thread", one().write_called(0, 3, 5).event(WRITE_RETURNED, 0, 0, 0, 1), 16, 2),
            refused_alike("a commit called with a thread", one().event(COMMIT_CALLED, 0, 0, 0, 1), 16, 1),
            refused_alike("a commit with a thread", commit().event(COMMITTED, 0, 0, 0, 1), 16, 2),
            refused_alike("an abort with a thread", one().event(ABORTED, 0, 0, 0, 16), 16, 1),
            refused_alike("11 comes before the thread", one().event(ABORTED, 1, 0, 0, 1), 11, 1),
            refused_alike("12 comes before the thread", one().event(READ_CALLED, 0, 32, 0, 1), 12, 1),
            refused_alike("13 comes before the thread", one().event(COMMITTED, 0, 0, 0, 1), 13, 1),
        ]
        .concat()
    };
    [Store::ZERO, Store::of(&[]), nine().store].map(rows).concat()
}
