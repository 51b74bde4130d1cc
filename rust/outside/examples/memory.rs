//! Every call on buffers that are allocated for it alone, each exactly as long as it says, with nothing in those that are written.
//! Run under valgrind (`valgrind.sh`) it shows that no call reaches beyond a buffer, or lets what an output held before decide
//! anything. The argument is the number of rounds.

use outside::lent::lent_count;
use outside::limits;
use outside::marks::marked_history;
use outside::notes::scattered;
use outside::random::Random;
use outside::shapes::{is_judged_quickly, marking_size};
use outside::stores::damaged_store;
use outside::{coverage, damage};
use reference::entries::{self, Answer};
use reference::event::{Columns, Event};
use reference::justification::Outcome::{Aborted, Committed};
use reference::log::Log;
use reference::reads::store_reads;
use reference::store::{Store, REGISTERS};
use reference::{history_file, worked};
use sendoshi::{calls, ffi};
use std::mem::MaybeUninit;

fn main() {
    let rounds: u64 = std::env::args().nth(1).and_then(|text| text.parse().ok()).unwrap_or(500);
    for seed in 0..rounds {
        round(&mut Random::new(seed));
    }
    for events in limits::histories() {
        for store in [Store::ZERO, Store { edition: 2, starts: [9; REGISTERS] }] {
            let log = Log { store, events: events.clone() };
            all_calls(&log, &file(&log), &[4, 0, 2, 0, 1, 0]);
        }
    }
    let h0 = Log::h0();
    all_calls(&h0, &file(&h0), &worked::h0_marking());
    let careless = worked::marking(&[(1, Aborted), (0, Committed)], &[(5, 2), (9, 2)]);
    all_calls(&h0, &file(&h0), &careless);
    println!("{} entries, {rounds} rounds and every limit", coverage::ENTRIES.len());
}

fn round(random: &mut Random) {
    let (log, marking) = marked_history(random);
    let marking = marking.to_bytes();
    let noted = scattered(random, &file(&log)).file;
    all_calls(&log, &noted, &marking);
    let sound = if random.chance(50) { noted } else { file(&log) };
    let file = damage::file(random, sound);
    let marking = damage::file(random, marking);
    let log = Log { store: damaged_store(random, log.store), events: damage::events(random, log.events) };
    all_calls(&log, &file, &marking);
}

fn file(log: &Log) -> Vec<u8> {
    history_file::write(&log.store, &log.events)
}

fn all_calls(log: &Log, history: &[u8], marking: &[u8]) {
    let Log { store, events } = log;
    let columns = Columns::of(events);
    let count = events.len();
    read(history, count);
    notes(history);
    output_call(ffi_write, |output| entries::write(store, &columns, count, output), store, &columns, count, file(log).len());
    let exact = Exact::new(store, &columns);
    let marking: Box<[u8]> = marking.into();
    let lent = lent_count(count);
    let checked = calls::check(exact.store(), exact.view(), lent, &marking);
    assert_eq!(plain(checked), entries::check(store, &columns, count, &marking));
    assert_eq!(plain(calls::transactions(exact.store(), exact.view(), lent)), entries::transactions(store, &columns, count));
    assert_eq!(plain(calls::store_reads(exact.store(), exact.view(), lent)), entries::store_reads(store, &columns, count));
    assert_eq!(plain(calls::tally(exact.store(), exact.view(), lent)), entries::tally(store, &columns, count));
    straighten(store, &columns, count, &marking, store_reads(events).count());
    if is_judged_quickly(events) {
        assert_eq!(plain(calls::scan(exact.store(), exact.view(), lent)), entries::scan(store, &columns, count));
        let expected = |output: &mut [u8]| entries::find(store, &columns, count, count, output);
        output_call(ffi_find, expected, store, &columns, count, marking_size(events));
    }
}

/// Start values and columns in boxes of their own.
struct Exact {
    edition: u16,
    starts: Box<[u32; REGISTERS]>,
    kinds: Box<[u16]>,
    transactions: Box<[u16]>,
    registers: Box<[u16]>,
    values: Box<[u32]>,
    threads: Box<[u16]>,
}

impl Exact {
    fn new(store: &Store, columns: &Columns) -> Exact {
        Exact {
            edition: store.edition,
            starts: Box::new(store.starts),
            kinds: columns.kinds.as_slice().into(),
            transactions: columns.transactions.as_slice().into(),
            registers: columns.registers.as_slice().into(),
            values: columns.values.as_slice().into(),
            threads: columns.threads.as_slice().into(),
        }
    }

    fn store(&self) -> sendoshi::Store<'_> {
        sendoshi::Store { edition: self.edition, starts: &self.starts }
    }

    fn view(&self) -> sendoshi::Columns<'_> {
        sendoshi::Columns {
            kinds: &self.kinds,
            transactions: &self.transactions,
            registers: &self.registers,
            values: &self.values,
            threads: &self.threads,
        }
    }
}

fn plain(answer: sendoshi::Answer) -> Answer {
    Answer { code: answer.code, place: answer.place }
}

/// The entries that a call has set.
fn set<T: Copy>(buffer: &[MaybeUninit<T>], length: usize) -> Vec<T> {
    // SAFETY: the call said that it set so many entries; valgrind finds those that it did not.
    buffer[..length].iter().map(|entry| unsafe { entry.assume_init() }).collect()
}

/// Columns for so many events, of which nothing is set.
struct Unset {
    kinds: Box<[MaybeUninit<u16>]>,
    transactions: Box<[MaybeUninit<u16>]>,
    registers: Box<[MaybeUninit<u16>]>,
    values: Box<[MaybeUninit<u32>]>,
    threads: Box<[MaybeUninit<u16>]>,
}

impl Unset {
    fn new(count: usize) -> Unset {
        Unset {
            kinds: Box::new_uninit_slice(count),
            transactions: Box::new_uninit_slice(count),
            registers: Box::new_uninit_slice(count),
            values: Box::new_uninit_slice(count),
            threads: Box::new_uninit_slice(count),
        }
    }

    /// The first so many entries, which a call has set.
    fn set(&self, length: usize) -> Columns {
        Columns {
            kinds: set(&self.kinds, length),
            transactions: set(&self.transactions, length),
            registers: set(&self.registers, length),
            values: set(&self.values, length),
            threads: set(&self.threads, length),
        }
    }
}

fn read(file: &[u8], count: usize) {
    let file: Box<[u8]> = file.into();
    let (mut starts, mut columns) = (Box::<[u32; REGISTERS]>::new_uninit(), Unset::new(count));
    let got = sendoshi::Answer::of(ffi_read(&file, &mut starts, &mut columns));
    let nothing = Event { kind: 0, transaction: 0, register: 0, value: 0, thread: 0 };
    let (mut expected_starts, mut expected_columns) = ([0; REGISTERS], Columns::of(&vec![nothing; count]));
    let expected = entries::read(&file, &mut expected_starts, &mut expected_columns);
    assert_eq!(plain(got), expected);
    if expected.code == 0 {
        // SAFETY: the call said that it set all of them; valgrind finds those that it did not.
        assert_eq!(unsafe { *starts.assume_init() }, expected_starts);
        let (_, length) = got.halves();
        let read: Vec<Event> = (0..length).map(|at| expected_columns.event(at)).collect();
        assert_eq!(columns.set(length), Columns::of(&read));
    }
}

/// Every note, each found from behind the one before it on, in three numbers of which nothing is set.
fn notes(file: &[u8]) {
    let file: Box<[u8]> = file.into();
    let mut from = 0;
    loop {
        let mut note = Box::<[u32; 3]>::new_uninit();
        // SAFETY: pointers and length are those of the boxes.
        let got = unsafe { ffi::sendoshi_next_note(file.as_ptr(), file.len(), from, note.as_mut_ptr()) };
        let mut expected = [0; 3];
        assert_eq!(plain(sendoshi::Answer::of(got)), entries::next_note(&file, from, &mut expected));
        if got != 0 {
            return;
        }
        // SAFETY: the call said that it set all three; valgrind finds those that it did not.
        assert_eq!(unsafe { *note.assume_init() }, expected);
        from = expected[1] + expected[2];
    }
}

/// A call that fills an output: once with an output that is just long enough, and once with one that is a byte too short.
fn output_call(
    call: fn(&Exact, u32, &mut [MaybeUninit<u8>]) -> u64,
    reference: impl Fn(&mut [u8]) -> Answer,
    store: &Store,
    columns: &Columns,
    count: usize,
    needed: usize,
) {
    for length in [needed, needed - 1] {
        let exact = Exact::new(store, columns);
        let mut output = Box::<[u8]>::new_uninit_slice(length);
        let got = plain(sendoshi::Answer::of(call(&exact, lent_count(count), &mut output)));
        let mut expected = vec![0; length];
        assert_eq!(got, reference(&mut expected));
        if got.code == 0 {
            assert_eq!(set(&output, got.place as usize), expected[..got.place as usize]);
        }
    }
}

/// The straightener: with an output and a list that are just long enough, and with either of them one too short.
fn straighten(store: &Store, columns: &Columns, count: usize, file: &[u8], points: usize) {
    let one_less = (file.len().saturating_sub(1), points.saturating_sub(1));
    for (length, entries) in [(file.len(), points), (one_less.0, points), (file.len(), one_less.1)] {
        let exact = Exact::new(store, columns);
        let mut output = Box::<[u8]>::new_uninit_slice(length);
        let mut list = Box::<[u32]>::new_uninit_slice(entries);
        let got = sendoshi::Answer::of(ffi_straighten(&exact, lent_count(count), file, &mut output, &mut list));
        let (mut expected, mut expected_list) = (vec![0; length], vec![0; entries]);
        assert_eq!(plain(got), entries::straighten(store, columns, count, file, &mut expected, &mut expected_list));
        if got.code == 0 {
            let (moved, length) = got.halves();
            assert_eq!(set(&output, length), expected[..length]);
            assert_eq!(set(&list, moved), expected_list[..moved]);
        }
    }
}

fn ffi_read(file: &[u8], starts: &mut MaybeUninit<[u32; REGISTERS]>, c: &mut Unset) -> u64 {
    // SAFETY: pointers and lengths are those of the boxes and slices.
    unsafe {
        ffi::sendoshi_read(
            file.as_ptr(),
            file.len(),
            starts.as_mut_ptr(),
            c.kinds.as_mut_ptr().cast(),
            c.kinds.len(),
            c.transactions.as_mut_ptr().cast(),
            c.transactions.len(),
            c.registers.as_mut_ptr().cast(),
            c.registers.len(),
            c.values.as_mut_ptr().cast(),
            c.values.len(),
            c.threads.as_mut_ptr().cast(),
            c.threads.len(),
        )
    }
}

fn ffi_write(c: &Exact, count: u32, output: &mut [MaybeUninit<u8>]) -> u64 {
    // SAFETY: pointers and lengths are those of the boxes and slices.
    unsafe {
        ffi::sendoshi_write(
            c.edition,
            &*c.starts,
            c.kinds.as_ptr(),
            c.kinds.len(),
            c.transactions.as_ptr(),
            c.transactions.len(),
            c.registers.as_ptr(),
            c.registers.len(),
            c.values.as_ptr(),
            c.values.len(),
            c.threads.as_ptr(),
            c.threads.len(),
            count,
            output.as_mut_ptr().cast(),
            output.len(),
        )
    }
}

fn ffi_find(c: &Exact, count: u32, output: &mut [MaybeUninit<u8>]) -> u64 {
    // SAFETY: pointers and lengths are those of the boxes and slices.
    unsafe {
        ffi::sendoshi_find(
            c.edition,
            &*c.starts,
            c.kinds.as_ptr(),
            c.kinds.len(),
            c.transactions.as_ptr(),
            c.transactions.len(),
            c.registers.as_ptr(),
            c.registers.len(),
            c.values.as_ptr(),
            c.values.len(),
            c.threads.as_ptr(),
            c.threads.len(),
            count,
            count,
            output.as_mut_ptr().cast(),
            output.len(),
        )
    }
}

fn ffi_straighten(c: &Exact, count: u32, file: &[u8], output: &mut [MaybeUninit<u8>], list: &mut [MaybeUninit<u32>]) -> u64 {
    // SAFETY: pointers and lengths are those of the boxes and slices.
    unsafe {
        ffi::sendoshi_straighten(
            c.edition,
            &*c.starts,
            c.kinds.as_ptr(),
            c.kinds.len(),
            c.transactions.as_ptr(),
            c.transactions.len(),
            c.registers.as_ptr(),
            c.registers.len(),
            c.values.as_ptr(),
            c.values.len(),
            c.threads.as_ptr(),
            c.threads.len(),
            count,
            file.as_ptr(),
            file.len(),
            output.as_mut_ptr().cast(),
            output.len(),
            list.as_mut_ptr().cast(),
            list.len(),
        )
    }
}
