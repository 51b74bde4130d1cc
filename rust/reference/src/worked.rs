//! The histories of the paper and of its sources with what each call must answer: one list, which the tests put to this crate and to
//! the library alike.

mod lone;
mod notes;
mod starts;

use crate::entries::{Answer, NONE};
use crate::event::{Columns, Event};
use crate::history_file;
use crate::justification::{Outcome, Place};
use crate::log::Log;
use crate::marking_file::{Marking, Point};
use crate::record::record;
use crate::store::{Store, REGISTERS};
use Outcome::{Aborted, Committed};

/// A call. Columns are exactly as long as the history; outputs and the columns of a reader are long enough.
#[derive(Clone, Debug)]
pub enum Call {
    Read(Vec<u8>),
    /// The first note of a file from a byte on.
    NextNote(Vec<u8>, u32),
    Write(Log),
    Scan(Log),
    /// The finder on the whole history.
    Find(Log),
    Check(Log, Vec<u8>),
    /// The list is as long as the history.
    Straighten(Log, Vec<u8>),
    Tally(Log),
}

/// What a call may write to.
#[derive(Clone, Debug)]
pub struct Buffers {
    pub output: Vec<u8>,
    pub moved: Vec<u32>,
    pub starts: [u32; REGISTERS],
    /// The columns that a reader fills.
    pub columns: Columns,
    pub note: [u32; 3],
}

/// What the start values hold before a call, and what a note does.
const UNREAD: [u32; REGISTERS] = [0xeeee_eeee; REGISTERS];
const UNFOUND: [u32; 3] = [0xeeee_eeee; 3];

/// What each entry of the columns holds.
const UNFILLED: Event = Event { kind: 0, transaction: 0, register: 0, value: 0, thread: 0 };

impl Buffers {
    /// An output of zeros for any file, a list of zeros with an entry for every event, columns of zeros for any history that is read,
    /// and start values and a note that are none.
    pub fn for_call(call: &Call) -> Buffers {
        let (entries, events) = match call {
            Call::Straighten(log, _) => (log.events.len(), 0),
            Call::Read(_) => (0, 2_048),
            _ => (0, 0),
        };
        let columns = Columns::of(&vec![UNFILLED; events]);
        Buffers { output: vec![0; 32_768], moved: vec![0; entries], starts: UNREAD, columns, note: UNFOUND }
    }
}

/// A call with its answer, and with what it writes to the output, to the list of moved events and to the columns, where that is of
/// interest. Nothing is written behind it. Start values and columns are written by a reader that is done, a note by a walk that finds
/// one, and neither by anything else.
#[derive(Clone, Debug)]
pub struct Worked {
    pub name: String,
    pub call: Call,
    pub answer: Answer,
    pub output: Option<Vec<u8>>,
    pub moved: Option<Vec<u32>>,
    pub starts: Option<[u32; REGISTERS]>,
    pub events: Option<Vec<Event>>,
    pub note: Option<[u32; 3]>,
}

impl Worked {
    /// Do the buffers, after the call, hold what they should, and behind it what they held?
    pub fn is_written(&self, buffers: &Buffers) -> bool {
        let output_is = self.output.as_ref().is_none_or(|bytes| begins_with_only(&buffers.output, bytes));
        let list_is = self.moved.as_ref().is_none_or(|events| begins_with_only(&buffers.moved, events));
        let lent_are = buffers.starts == self.starts.unwrap_or(UNREAD) && buffers.note == self.note.unwrap_or(UNFOUND);
        output_is && list_is && lent_are && self.is_filled(&buffers.columns)
    }

    /// Do the columns hold the events that are read, and nothing where none are?
    fn is_filled(&self, columns: &Columns) -> bool {
        let read = match (&self.events, self.answer.code) {
            (Some(events), _) => &events[..],
            (None, 0) => return true,
            (None, _) => &[],
        };
        let behind = columns.kinds.len().saturating_sub(read.len());
        *columns == Columns::of(&[read, &vec![UNFILLED; behind]].concat())
    }
}

fn begins_with_only<T: PartialEq + Default>(buffer: &[T], entries: &[T]) -> bool {
    buffer.starts_with(entries) && buffer[entries.len()..].iter().all(|entry| *entry == T::default())
}

fn worked(name: &str, call: Call, code: u32, place: u32) -> Worked {
    let answer = Answer { code, place };
    Worked { name: name.to_string(), call, answer, output: None, moved: None, starts: None, events: None, note: None }
}

/// A broken rule, packed as the library does.
fn broken(name: &str, call: Call, rule: char, event: u32, transaction: u32) -> Worked {
    worked(name, call, 201 + (rule as u32 - 'A' as u32), event * 65_536 + transaction)
}

fn check(log: &Log, places: &[(u16, Outcome)], points: &[(u32, u16)]) -> Call {
    Call::Check(log.clone(), marking(places, points))
}

/// A file that is read: its edition, its event count and its start values.
fn is_read(name: &str, file: Vec<u8>, store: Store, count: u32) -> Worked {
    let place = u32::from(store.edition) * 65_536 + count;
    Worked { starts: Some(store.starts), ..worked(name, Call::Read(file), 0, place) }
}

/// A file whose events are read, and written back as it was.
fn read_and_written(name: &str, file: Vec<u8>, log: Log) -> [Worked; 2] {
    let length = file.len() as u32;
    let read = is_read_as(name, file.clone(), &log);
    [read, Worked { output: Some(file), ..worked(name, Call::Write(log), 0, length) }]
}

/// A file that is read: its edition, its start values and its events.
fn is_read_as(name: &str, file: Vec<u8>, log: &Log) -> Worked {
    Worked { events: Some(log.events.clone()), ..is_read(name, file, log.store, log.events.len() as u32) }
}

/// The finder's marking of a whole history.
fn lowest(name: &str, log: &Log, file: Vec<u8>) -> Worked {
    let length = file.len() as u32;
    Worked { output: Some(file), ..worked(name, find(log), 0, length) }
}

/// A marking that is straightened: what is written, and the events whose points are moved.
fn straightened(name: &str, log: &Log, file: Vec<u8>, straight: Vec<u8>, moved: &[u32]) -> Worked {
    let place = moved.len() as u32 * 65_536 + straight.len() as u32;
    let example = worked(name, Call::Straighten(log.clone(), file), 0, place);
    Worked { output: Some(straight), moved: Some(moved.to_vec()), ..example }
}

/// A marking whose points are of no help: nothing is written.
fn unjustified(name: &str, log: &Log, file: Vec<u8>, rule: char, event: u32, transaction: u32) -> Worked {
    let example = broken(name, Call::Straighten(log.clone(), file), rule, event, transaction);
    Worked { output: Some(vec![]), moved: Some(vec![]), ..example }
}

/// A tally, packed as the library does.
fn tallied(name: &str, log: &Log, [committed, aborted, pending, live]: [u32; 4]) -> Worked {
    worked(name, tally(log), 0, committed * 16_777_216 + aborted * 65_536 + pending * 256 + live)
}

fn tally(log: &Log) -> Call {
    Call::Tally(log.clone())
}

fn scan(log: &Log) -> Call {
    Call::Scan(log.clone())
}

fn find(log: &Log) -> Call {
    Call::Find(log.clone())
}

fn read(log: &Log) -> Call {
    Call::Read(file(log))
}

fn file(log: &Log) -> Vec<u8> {
    history_file::write(&log.store, &log.events)
}

/// A head of this edition and these records.
fn file_of(edition: u16, records: &[&[u8]]) -> Vec<u8> {
    [&record(history_file::HEAD, &edition.to_le_bytes())[..], &records.concat()].concat()
}

/// Every call that is given columns, each refused alike.
fn refused_alike(name: &str, log: Log, code: u32, event: u32) -> Vec<Worked> {
    let calls = [
        Call::Write(log.clone()),
        scan(&log),
        find(&log),
        Call::Check(log.clone(), h0_marking()),
        Call::Straighten(log.clone(), vec![]),
        tally(&log),
    ];
    calls.map(|call| Worked { output: Some(vec![]), moved: Some(vec![]), ..worked(name, call, code, event) }).to_vec()
}

/// The bytes of a marking with these places and points.
pub fn marking(places: &[(u16, Outcome)], points: &[(u32, u16)]) -> Vec<u8> {
    let place = |&(transaction, outcome)| Place { transaction, outcome };
    let point = |&(event, gap)| Point { event, gap };
    let (places, points) = (places.iter().map(place).collect(), points.iter().map(point).collect());
    Marking { places, points }.to_bytes()
}

/// H0's lowest marking.
pub fn h0_marking() -> Vec<u8> {
    marking(&[(1, Aborted), (0, Committed)], &[(5, 0), (9, 0)])
}

/// Every example.
pub fn all() -> Vec<Worked> {
    [starred(), straightenings(), tallies(), limits(), sources(), starts::all(), lone::all(), notes::all()].concat()
}

/// The starred histories of the paper, in its order.
fn starred() -> Vec<Worked> {
    let (h0, h7) = (Log::h0(), Log::h7());
    let serial = [(0, Committed), (1, Aborted)];
    let cross = Log::new().begin(0).begin(1).read(0, 0, 0).read(1, 1, 0).write(0, 1, 1).write(1, 0, 1).commit(1).commit(0);
    let pending = Log::new().begin(0).write(0, 0, 5).commit_called(0).begin(1).read(1, 0, 5);
    let early = Log::new().begin(0).write(0, 0, 5).begin(1).read(1, 0, 5).commit(0);
    let stale = Log::new().begin(0).write(0, 0, 1).commit(0).begin(1).read(1, 0, 0);
    let own = Log::new().begin(0).write(0, 0, 5).read(0, 0, 0);
    vec![
        is_read("head alone is read", file(&Log::new()), Store::ZERO, 0),
        worked("head alone is opaque", scan(&Log::new()), 0, 0),
        worked("head alone has an accepted marking", Call::Check(Log::new(), vec![4, 0, 2, 0, 1, 0]), 0, 0),
        Worked { output: Some(h0_marking()), ..worked("the lowest marking of H0", find(&h0), 0, 42) },
        worked("H0 with its marking", Call::Check(h0.clone(), h0_marking()), 0, 0),
        worked("H0 is opaque", scan(&h0), 0, 0),
        worked("H0, event 9 at gap 1", check(&h0, &[(1, Aborted), (0, Committed)], &[(5, 0), (9, 1)]), 0, 0),
        broken("H0, event 9 at gap 2", check(&h0, &[(1, Aborted), (0, Committed)], &[(5, 0), (9, 2)]), 'D', 9, 1),
        worked("H7 is faulted", scan(&h7), 101, 9),
        worked("H7 has no justification", find(&h7), NONE, 0),
        broken("H7, T0 then T1, both gaps 1", check(&h7, &serial, &[(5, 1), (9, 1)]), 'E', 5, 1),
        broken("H7, event 5 at gap 0", check(&h7, &serial, &[(5, 0), (9, 1)]), 'D', 5, 1),
        worked("reads that cross", scan(&cross), 102, 13),
        worked("a read from a pending commit", scan(&pending), 0, 0),
        worked("the pending commit is aborted", scan(&pending.aborted(0)), 103, 7),
        worked("a read before the commit is called", scan(&early), 101, 5),
        worked("that history as a whole has a justification", find(&early), 0, 32),
        broken("an order against real time", check(&stale, &[(1, Aborted), (0, Committed)], &[(7, 0)]), 'B', 5, 1),
        broken("a read of 0 after an own write of 5", check(&own, &[(0, Aborted)], &[]), 'C', 4, 0),
        worked("an own read that is wrong", scan(&own), 101, 4),
    ]
}

/// The markings of the paper, and some more of its histories, with their read points straightened.
fn straightenings() -> Vec<Worked> {
    let (h0, h7) = (Log::h0(), Log::h7());
    let reader_first = |points: &[(u32, u16)]| marking(&[(1, Aborted), (0, Committed)], points);
    let writer_first = |points: &[(u32, u16)]| marking(&[(0, Committed), (1, Aborted)], points);
    // Three writers of register 0 one after the other, and between them two readers.
    let chain = Log::new().begin(0).write(0, 0, 1).commit(0).begin(0).read(1, 0, 1).read(1, 1, 0).commit(1);
    let chain = chain.begin(0).write(2, 0, 2).commit(2).begin(0).read(3, 0, 2).commit(3).begin(0).write(4, 0, 3).commit(4);
    let chain_points = |points: &[(u32, u16)]| marking(&[0, 1, 2, 3, 4].map(|t| (t, Committed)), points);
    // T0 reads 0 and then writes 5: its point may stand behind it, since no other transaction writes.
    let own_write = Log::new().begin(0).read(0, 0, 0).write(0, 0, 5).commit(0);
    let own_write_point = marking(&[(0, Committed)], &[(2, 1)]);
    let twice = Log::new().begin(0).write(0, 0, 1).write(0, 0, 2).commit(0).begin(0).read(1, 0, 2);
    let stale = Log::new().begin(0).write(0, 0, 1).commit(0).begin(1).read(1, 0, 0);
    let own = Log::new().begin(0).read(0, 1, 0).write(0, 0, 5).read(0, 0, 0);
    let lost = Log::new().begin(0).write(0, 0, 5).aborted(0).begin(0).read(1, 0, 5);
    vec![
        straightened("head alone is straight", &Log::new(), marking(&[], &[]), marking(&[], &[]), &[]),
        straightened("H0's marking is straight", &h0, h0_marking(), h0_marking(), &[]),
        straightened("H0, event 9 at gap 1, stays", &h0, reader_first(&[(5, 0), (9, 1)]), reader_first(&[(5, 0), (9, 1)]), &[]),
        straightened("H0, event 9 at gap 2, is moved", &h0, reader_first(&[(5, 0), (9, 2)]), h0_marking(), &[9]),
        straightened("H0, both at gap 2, are moved", &h0, reader_first(&[(5, 2), (9, 2)]), h0_marking(), &[5, 9]),
        unjustified("H0, T0 then T1: event 5 does not read 7", &h0, writer_first(&[(5, 0), (9, 0)]), 'E', 5, 1),
        unjustified("H7, T0 then T1, both gaps 1, stays broken", &h7, writer_first(&[(5, 1), (9, 1)]), 'E', 5, 1),
        unjustified("H7, event 5 at gap 0, is moved in vain", &h7, writer_first(&[(5, 0), (9, 1)]), 'E', 5, 1),
        unjustified("H7, T1 then T0: event 9 reads 7 too early", &h7, reader_first(&[(5, 0), (9, 2)]), 'E', 9, 1),
        // Event 7 reads T0's 1 at gap 1 or 2, before T2 writes 2; event 9, of a register that nobody writes, reads 0 anywhere;
        // event 19 reads T2's 2 at gap 3 or 4.
        straightened(
            "a point too far ahead and one too far back",
            &chain,
            chain_points(&[(7, 5), (9, 5), (19, 0)]),
            chain_points(&[(7, 1), (9, 5), (19, 3)]),
            &[7, 19],
        ),
        straightened(
            "points that stand well are kept",
            &chain,
            chain_points(&[(7, 2), (9, 0), (19, 4)]),
            chain_points(&[(7, 2), (9, 0), (19, 4)]),
            &[],
        ),
        straightened("the reader's own write moves no point", &own_write, own_write_point.clone(), own_write_point, &[]),
        straightened("the last write of a writer counts", &twice, writer_first(&[(9, 0)]), writer_first(&[(9, 1)]), &[9]),
        unjustified("an order against real time is not mended", &stale, reader_first(&[(7, 0)]), 'B', 5, 1),
        unjustified("a wrong own read is not mended", &own, marking(&[(0, Aborted)], &[(2, 1)]), 'C', 6, 0),
        unjustified("an outcome is not mended", &lost, writer_first(&[(6, 0)]), 'A', 3, 0),
        worked("a marking without points", Call::Straighten(h0.clone(), reader_first(&[])), 29, 22),
    ]
}

/// Transactions that committed, were aborted, are pending and are live.
fn tallies() -> Vec<Worked> {
    let cross = Log::new().begin(0).begin(1).read(0, 0, 0).read(1, 1, 0).write(0, 1, 1).write(1, 0, 1).commit(1).commit(0);
    let pending = Log::new().begin(0).write(0, 0, 5).commit_called(0).begin(1).read(1, 0, 5);
    // Withdrawn at once and between calls, cut short in a read, in a write and in a commit.
    let aborts = Log::new().begin(0).aborted(0).begin(0).read(1, 0, 0).aborted(1).begin(0).read_called(2, 0).aborted(2);
    let aborts = aborts.begin(0).write_called(3, 0, 1).aborted(3).begin(0).commit_called(4).aborted(4);
    // Just begun, in a read, after one, in a write, after one.
    let begun = (0..5).fold(Log::new(), |log, thread| log.begin(thread));
    let live = begun.read_called(1, 0).read(2, 0, 0).write_called(3, 0, 1).write(4, 0, 1);
    let repeat = |n: u16, with: fn(Log, u16) -> Log| (0..n).fold(Log::new(), |log, t| with(log.begin(t % 16), t));
    let full = repeat(48, Log::commit);
    let full = (48..64).fold(full, |log, t| log.begin(t % 16).commit_called(t));
    vec![
        tallied("head alone has no transaction", &Log::new(), [0, 0, 0, 0]),
        tallied("H0's tally", &Log::h0(), [1, 0, 0, 1]),
        tallied("both that cross committed", &cross, [2, 0, 0, 0]),
        tallied("a pending commit and its reader", &pending, [0, 0, 1, 1]),
        tallied("a commit called and aborted", &pending.clone().aborted(0), [0, 1, 0, 1]),
        tallied("a commit called and answered", &pending.clone().committed(0), [1, 0, 0, 1]),
        tallied("the reader is aborted, the commit pending", &pending.aborted(1), [0, 1, 1, 0]),
        tallied("every way to be aborted", &aborts, [0, 5, 0, 0]),
        tallied("every way to be live", &live, [0, 0, 0, 5]),
        tallied("64 committed", &repeat(64, Log::commit), [64, 0, 0, 0]),
        tallied("64 aborted", &repeat(64, Log::aborted), [0, 64, 0, 0]),
        tallied("64 aborted after a commit call", &repeat(64, |log, t| log.commit_called(t).aborted(t)), [0, 64, 0, 0]),
        tallied("16 pending", &repeat(16, Log::commit_called), [0, 0, 16, 0]),
        tallied("16 live", &repeat(16, |log, _| log), [0, 0, 0, 16]),
        tallied("48 committed and 16 pending", &full, [48, 0, 16, 0]),
        worked("a 65th is not tallied", tally(&repeat(65, Log::aborted)), 7, 128),
        worked("an event after the end is not tallied", tally(&cross.aborted(1)), 11, 14),
    ]
}

/// The limits that the paper lists, and the heads of both files.
fn limits() -> Vec<Worked> {
    let register = |r| Log::new().begin(0).read(0, r, 0);
    let serial = |n| (0..n).fold(Log::new(), |log, t| log.begin(0).aborted(t));
    let concurrent = |n| (0..n).fold(Log::new(), |log, thread| log.begin(thread));
    let reads = |n| (0..n).fold(Log::new().begin(0), |log, _| log.read(0, 0, 0));
    let full = reads(1_023).read_called(0, 0);
    let full_length = file(&full).len() as u32;
    let (h0, head) = (Log::h0(), file(&Log::new()));
    let taken = |name, log: &Log, count| is_read(name, file(log), Store::ZERO, count);
    vec![
        taken("register 31", &register(31), 3),
        worked("register 32", read(&register(32)), 12, 14),
        taken("64 begins", &serial(64), 128),
        worked("65 begins", read(&serial(65)), 7, 6 + 64 * 14),
        taken("2,048 events", &full, 2_048),
        worked("2,049 events", read(&full.read_returned(0, 0)), 6, full_length),
        worked("10 transactions", scan(&concurrent(10)), 0, 0),
        worked("11 transactions", scan(&concurrent(11)), 31, 11),
        worked("a length of 1", Call::Read([&head[..], &[1, 0, 16]].concat()), 2, 6),
        worked("a body of another size", Call::Read([&head[..], &[4, 0, 16, 0, 0, 0]].concat()), 5, 6),
        worked("an empty history", Call::Read(vec![]), 3, 0),
        worked("another edition", Call::Read(vec![4, 0, 1, 0, 3, 0]), 3, 0),
        worked("an empty marking", Call::Check(h0.clone(), vec![]), 21, 0),
        worked("a marking of another edition", Call::Check(h0.clone(), vec![4, 0, 2, 0, 2, 0]), 21, 0),
        worked("a marking without places", Call::Check(h0.clone(), vec![4, 0, 2, 0, 1, 0]), 28, 6),
        worked("a marking without points", Call::Check(h0, marking(&[(1, Aborted), (0, Committed)], &[])), 29, 22),
    ]
}

/// The histories that the sources print, in their short form, with the judgement on every prefix. Where the source judges the whole
/// history only, as in the second, the two differ: the read comes before the commit is called.
fn sources() -> Vec<Worked> {
    let rows = [
        ("figure 2.19, h2", "B11 W11x=2 C11 B12 B21 W21x=1 R12x=1", 101, 10),
        ("figure 2.19, h1", "B11 W11x=2 C11 B12 B21 W21x=1 R12x=1 C21?", 101, 10),
        ("figure 2.19, h3", "B11 W11x=2 C11 B12 W12x=1 C12 B21 R21x=2 C21", 101, 12),
        ("figure 4.13, h1", "B11 B21 W11x=1 C11? R21x=1", 0, 0),
        ("figure 3.12", "B11 W11x=1 B21 W21x=1 C21 C11 B12 R12x=1 A12", 0, 0),
        ("section 3.3, first", "B11 B31 B21 W31x=1 C31 R21x=1 W11x=2 C11 W21x=3 C21", 0, 0),
        ("section 3.3, second", "B11 B31 B21 R31x=0 W31x=1 C31 R21x=1 R11x=1 W11x=2 C11 W21x=3 C21", 102, 20),
        ("section 3.3, third", "B11 B31 B21 W31x=1 W11x=2 C11 C31 R21x=1 C21", 0, 0),
    ];
    rows.iter().map(|&(name, short, code, place)| worked(name, scan(&Log::from_short(short)), code, place)).collect()
}
