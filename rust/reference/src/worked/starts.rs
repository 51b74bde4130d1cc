//! Stores that don't start at zero: the third change request, worked out by hand.

use super::*;
use crate::event::*;
use crate::history_file::start_record;

/// Every example.
pub fn all() -> Vec<Worked> {
    [judged(), marked(), files(), refused_files(), refused_stores()].concat()
}

/// Register 3 starts with 9.
fn nine() -> Log {
    Log::starting(&[(3, 9)])
}

/// H0 over that store, with other values read at events 5 and 9.
fn h0_reads(value: u32) -> Log {
    nine().begin(0).write(0, 3, 7).begin(1).read(1, 3, value).commit(0).read(1, 3, value)
}

/// T0 commits a write to register 3, and T1, which begins after that, reads this value there.
fn hidden(written: u32, value: u32) -> Log {
    nine().begin(0).write(0, 3, written).commit(0).begin(1).read(1, 3, value)
}

/// Scans, with and without a justification.
fn judged() -> Vec<Worked> {
    let withdrawn = nine().begin(0).write(0, 3, 7).aborted(0).begin(1);
    let unanswered = nine().begin(0).write(0, 3, 7).commit_called(0).begin(1);
    let all: Vec<(u16, u32)> = (0..32).map(|register| (register, u32::MAX - u32::from(register))).collect();
    let all = |register: u16, value| Log::starting(&all).begin(0).read(0, register, value);
    let own = nine().begin(0).read(0, 3, 9).write(0, 3, 7);
    vec![
        worked("a start value is read", scan(&nine().begin(0).read(0, 3, 9)), 0, 0),
        worked("0 is read where a start value stands", scan(&nine().begin(0).read(0, 3, 0)), 101, 2),
        worked("another value is read where a start value stands", scan(&nine().begin(0).read(0, 3, 8)), 101, 2),
        worked("another register still starts at 0", scan(&nine().begin(0).read(0, 4, 0)), 0, 0),
        worked("a start value in another register", scan(&nine().begin(0).read(0, 4, 9)), 101, 2),
        worked("edition 2 without starts reads 0", scan(&Log::starting(&[]).begin(0).read(0, 3, 0)), 0, 0),
        worked("edition 2 without starts reads no 9", scan(&Log::starting(&[]).begin(0).read(0, 3, 9)), 101, 2),
        worked("the lowest register's start", scan(&all(0, u32::MAX)), 0, 0),
        worked("the highest register's start", scan(&all(31, u32::MAX - 31)), 0, 0),
        worked("a neighbour's start", scan(&all(30, u32::MAX - 31)), 101, 2),
        worked("H0 over a start value", scan(&h0_reads(9)), 0, 0),
        worked("H0 with reads of 0 over a start value", scan(&h0_reads(0)), 101, 5),
        worked("a committed write hides a start value", scan(&hidden(7, 7)), 0, 0),
        worked("a start value that is hidden is read", scan(&hidden(7, 9)), 101, 7),
        worked("a committed write of 0 hides a start value", scan(&hidden(0, 0)), 0, 0),
        worked("a start value under a write of 0 is read", scan(&hidden(0, 9)), 101, 7),
        worked("an aborted write hides nothing", scan(&withdrawn.clone().read(1, 3, 9)), 0, 0),
        worked("0 is read after an aborted write", scan(&withdrawn.read(1, 3, 0)), 101, 6),
        worked("an unanswered commit hides nothing yet", scan(&unanswered.clone().read(1, 3, 9)), 0, 0),
        worked("an unanswered commit hides a start value", scan(&unanswered.clone().read(1, 3, 7)), 0, 0),
        worked("0 is read beside an unanswered commit", scan(&unanswered.read(1, 3, 0)), 101, 6),
        worked("an own write hides a start value", scan(&own.clone().read(0, 3, 7)), 0, 0),
        worked("a start value under an own write is read", scan(&own.read(0, 3, 9)), 101, 6),
    ]
}

/// What finder, checker and straightening say of the same histories.
fn marked() -> Vec<Worked> {
    let (first, torn) = (nine().begin(0).read(0, 3, 9), nine().begin(0).read(0, 3, 0));
    let alone = |gap| marking(&[(0, Aborted)], &[(2, gap)]);
    let writer_first = |gap| marking(&[(0, Committed), (1, Aborted)], &[(7, gap)]);
    let unanswered = nine().begin(0).write(0, 3, 7).commit_called(0).begin(1);
    let both = |first, gap| marking(&[(0, first), (1, Aborted)], &[(6, gap)]);
    vec![
        lowest("the lowest marking of a start value's read", &first, alone(0)),
        worked("no marking of a read of 0 where a start value stands", find(&torn), NONE, 0),
        worked("a start value's read is accepted", Call::Check(first.clone(), alone(0)), 0, 0),
        worked("and behind its reader, who writes nothing", Call::Check(first.clone(), alone(1)), 0, 0),
        broken("a read of 0 where a start value stands", Call::Check(torn.clone(), alone(0)), 'E', 2, 0),
        straightened("a start value's read is straight", &first, alone(1), alone(1), &[]),
        unjustified("a read of 0 is not mended", &torn, alone(1), 'E', 2, 0),
        lowest("H0 over a start value has H0's marking", &h0_reads(9), h0_marking()),
        lowest("the writer is aborted while its commit waits", &unanswered.clone().read(1, 3, 9), both(Aborted, 1)),
        lowest("or has committed", &unanswered.clone().read(1, 3, 7), both(Committed, 1)),
        worked("no outcome leaves 0", find(&unanswered.read(1, 3, 0)), NONE, 0),
        lowest("the lowest marking over a hidden start value", &hidden(7, 7), writer_first(1)),
        worked("no marking of a start value that is hidden", find(&hidden(7, 9)), NONE, 0),
        worked("the writer's value at gap 1", Call::Check(hidden(7, 7), writer_first(1)), 0, 0),
        broken("the writer's value at gap 0", Call::Check(hidden(7, 7), writer_first(0)), 'D', 7, 1),
        broken("the hidden value at gap 0", Call::Check(hidden(7, 9), writer_first(0)), 'D', 7, 1),
        broken("the hidden value at gap 1", Call::Check(hidden(7, 9), writer_first(1)), 'E', 7, 1),
        lowest("the lowest marking over a written 0", &hidden(0, 0), writer_first(1)),
        worked("a written 0 at gap 1", Call::Check(hidden(0, 0), writer_first(1)), 0, 0),
        broken("the start value under a written 0", Call::Check(hidden(0, 9), writer_first(1)), 'E', 7, 1),
        straightened("a point before the writer is moved", &hidden(7, 7), writer_first(0), writer_first(1), &[7]),
        unjustified("a hidden value is not mended", &hidden(7, 9), writer_first(0), 'E', 7, 1),
        straightened("H0 over a start value, both at gap 2", &h0_reads(9), late_points(), h0_marking(), &[5, 9]),
    ]
}

/// H0's order with both points behind the writer.
fn late_points() -> Vec<u8> {
    marking(&[(1, Aborted), (0, Committed)], &[(5, 2), (9, 2)])
}

/// Files that are read, and written back.
fn files() -> Vec<Worked> {
    let head = [4, 0, 1, 0, 2, 0];
    let start = [8, 0, 3, 0, 3, 0, 9, 0, 0, 0]; // register 3 starts with 9
    let begin = [6, 0, 16, 0, 0, 0, 5, 0]; // T0 on thread 5
    let first = [8, 0, 3, 0, 0, 0, 0, 0, 1, 0]; // register 0 starts with 65,536
    let last = [8, 0, 3, 0, 31, 0, 4, 3, 2, 1]; // register 31 starts with 0x01020304
    let both = read_and_written;
    let mut full = Log::starting(&(0..32).map(|register| (register, 1)).collect::<Vec<_>>()).begin(0);
    full = (0..1_023).fold(full, |log, _| log.read(0, 0, 1)).read_called(0, 0);
    let full_file = file(&full);
    assert_eq!(full_file.len(), 6 + 32 * 10 + 8 + 1_023 * 18 + 8);
    [
        both("edition 1 alone", vec![4, 0, 1, 0, 1, 0], Log::new()),
        both("edition 2 alone", head.to_vec(), Log::starting(&[])),
        both("edition 2 without starts", [&head[..], &begin].concat(), Log::starting(&[]).begin(5)),
        both("a start value and no event", [&head[..], &start].concat(), nine()),
        both("a start value and an event", [&head[..], &start, &begin].concat(), nine().begin(5)),
        both(
            "start values of the lowest and the highest register",
            [&head[..], &first, &start, &last, &begin].concat(),
            Log::starting(&[(31, 0x0102_0304), (3, 9), (0, 65_536)]).begin(5),
        ),
        both("every start value and 2,048 events", full_file, full),
    ]
    .concat()
}

/// Files that are refused by 3, by 4 or 5, or by 43, 41 or 42, in this order.
fn refused_files() -> Vec<Worked> {
    let begin = record(BEGIN, &[0, 0, 0, 0]);
    let at = |register, value| start_record(register, value);
    let short = |register: u8| record(history_file::START, &[register, 0, 9, 0]);
    let long = |register: u8| record(history_file::START, &[register, 0, 9, 0, 0, 0, 0, 0]);
    let full = file(&(0..1_023).fold(Log::new().begin(0), |log, _| log.read(0, 0, 0)).read_called(0, 0));
    let (full, behind) = (&full[6..], full.len() as u32); // the records of 2,048 events, and where the next would begin
    let row = |name, edition, records: &[&[u8]], code, place| worked(name, Call::Read(file_of(edition, records)), code, place);
    vec![
        row("edition 0", 0, &[], 3, 0),
        row("edition 3 with a start", 3, &[&at(3, 9)], 3, 0),
        row("edition 258", 258, &[], 3, 0),
        row("a start in edition 1", 1, &[&at(3, 9)], 4, 6),
        row("a late start in edition 1", 1, &[&begin, &at(3, 9)], 4, 14),
        row("a start of another size in edition 1", 1, &[&short(3)], 4, 6),
        row("a second head in edition 2", 2, &[&record(1, &[2, 0])], 4, 6),
        row("a place of a marking in edition 2", 2, &[&record(32, &[0, 0, 0, 0])], 4, 6),
        row("kind 15 in edition 2", 2, &[&record(15, &[0, 0])], 4, 6),
        row("kind 26 in edition 2", 2, &[&at(3, 9), &record(26, &[0, 0])], 4, 16),
        row("a start that is cut off", 2, &[&at(3, 9)[..9]], 2, 6),
        row("a start that is too short", 2, &[&short(3)], 5, 6),
        row("a start that is too long", 2, &[&at(3, 9), &long(4)], 5, 16),
        row("a start without a body", 2, &[&record(history_file::START, &[])], 5, 6),
        row("a start of another size and of no register", 2, &[&short(32)], 5, 6),
        row("a start of another size that falls", 2, &[&at(3, 9), &short(2)], 5, 16),
        row("a late start of another size", 2, &[&begin, &short(3)], 5, 14),
        row("a late start", 2, &[&begin, &at(3, 9)], 43, 14),
        row("a late start after another", 2, &[&at(3, 9), &begin, &at(4, 9)], 43, 24),
        row("a late start of no register", 2, &[&begin, &at(32, 9)], 43, 14),
        row("a late start that falls", 2, &[&at(3, 9), &begin, &at(2, 9)], 43, 24),
        row("a late start of 0", 2, &[&begin, &at(3, 0)], 43, 14),
        row("a late start of no register and of 0", 2, &[&begin, &at(32, 0)], 43, 14),
        row("a late start after 2,048 events", 2, &[full, &at(3, 9)], 43, behind),
        row("a late and wrong start after 2,048 events", 2, &[full, &at(32, 0)], 43, behind),
        row("a late start of another size after 2,048 events", 2, &[full, &long(3)], 5, behind),
        row("a late start after 2,048 events of edition 1", 1, &[full, &at(3, 9)], 4, behind),
        row("2,049 events in edition 2", 2, &[full, &begin], 6, behind),
        row("a start of register 32", 2, &[&at(32, 9)], 41, 6),
        row("a start of register 260", 2, &[&at(3, 9), &at(260, 9)], 41, 16),
        row("a start of register 65,535", 2, &[&at(65_535, 9)], 41, 6),
        row("a start of register 32 after register 31", 2, &[&at(31, 9), &at(32, 9)], 41, 16),
        row("a register twice", 2, &[&at(3, 9), &at(3, 8)], 41, 16),
        row("register 0 twice", 2, &[&at(0, 9), &at(0, 9)], 41, 16),
        row("a register that falls", 2, &[&at(3, 9), &at(2, 9)], 41, 16),
        row("a register that falls from the last", 2, &[&at(3, 9), &at(8, 9), &at(5, 9)], 41, 26),
        row("a start of 0 and of no register", 2, &[&at(32, 0)], 41, 6),
        row("a start of 0 that falls", 2, &[&at(3, 9), &at(2, 0)], 41, 16),
        row("a start of 0", 2, &[&at(3, 0)], 42, 6),
        row("a start of 0 after another", 2, &[&at(3, 9), &at(4, 0)], 42, 16),
        row("a start of 0 before an event that is not due", 2, &[&at(0, 0), &record(COMMITTED, &[0, 0])], 42, 6),
        row("an event that is not due before a late start", 2, &[&record(COMMITTED, &[0, 0]), &at(3, 9)], 11, 6),
        row("an event that is not due after a start", 2, &[&at(3, 9), &begin, &record(COMMITTED, &[0, 0])], 13, 24),
    ]
}

/// Editions and start values that no call takes: 3, with the count, before the events' own questions, those of a marking and 31.
fn refused_stores() -> Vec<Worked> {
    let stores = [
        Store { edition: 1, ..Store::of(&[(0, 9)]) },
        Store { edition: 1, ..Store::of(&[(31, 1)]) },
        Store { edition: 0, ..Store::ZERO },
        Store { edition: 3, ..Store::ZERO },
        Store { edition: 258, ..Store::of(&[(3, 9)]) },
        Store { edition: 65_535, ..Store::of(&[(3, 9)]) },
    ];
    let broken = Log::h0().event(LONE_WRITE + 1, 9, 9, 9, 9);
    let crowded = (0..11).fold(Log::new(), |log, thread| log.begin(thread));
    let logs = [Log::new(), Log::h0(), broken, crowded];
    stores.iter().flat_map(|&store| logs.clone().map(|log| Log { store, ..log })).flat_map(refused_store).collect()
}

fn refused_store(log: Log) -> [Worked; 8] {
    let name = format!("edition {} of {} events", log.store.edition, log.events.len());
    let count = log.events.len() as u32;
    let calls = [
        Call::Write(log.clone()),
        scan(&log),
        find(&log),
        Call::Check(log.clone(), h0_marking()),
        Call::Check(log.clone(), vec![]),
        Call::Straighten(log.clone(), late_points()),
        Call::Straighten(log.clone(), vec![]),
        tally(&log),
    ];
    calls.map(|call| Worked { output: Some(vec![]), moved: Some(vec![]), ..worked(&name, call, 3, count) })
}
