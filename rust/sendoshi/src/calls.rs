//! The library's calls on lent slices, as they are: every refusal comes back as a number, and every buffer is the caller's.
//!
//! Nothing is tested before a call. The library has no condition on numbers or contents, and what it cannot test is given by the
//! types: a slice is good for its length, an array has its entries, and what is borrowed by `&mut` overlaps nothing else.

use crate::answer::Answer;
use crate::ffi;

/// The five columns of a history, one entry an event. They may be longer than the count that is given beside them.
#[derive(Clone, Copy, Debug, PartialEq, Eq)]
pub struct Columns<'a> {
    pub kinds: &'a [u16],
    pub transactions: &'a [u16],
    pub registers: &'a [u16],
    pub values: &'a [u32],
    pub threads: &'a [u16],
}

/// The five columns that the reader fills.
#[derive(Debug, PartialEq, Eq)]
pub struct ColumnsMut<'a> {
    pub kinds: &'a mut [u16],
    pub transactions: &'a mut [u16],
    pub registers: &'a mut [u16],
    pub values: &'a mut [u32],
    pub threads: &'a mut [u16],
}

/// The store that a history finds: its edition, and what stands in each register before any writer. Any numbers may stand here; every
/// call refuses what is neither edition 1 with zeros nor edition 2.
#[derive(Clone, Copy, Debug, PartialEq, Eq)]
pub struct Store<'a> {
    pub edition: u16,
    pub starts: &'a [u32; 32],
}

impl Store<'static> {
    /// Edition 1, in which every register starts at 0.
    pub const ZERO: Store<'static> = Store { edition: 1, starts: &[0; 32] };
}

/// Calls a function whose first parameters are the edition, the start values and the five columns.
macro_rules! with_store {
    ($function:ident, $store:expr, $columns:expr, $($rest:expr),+) => {{
        let (store, c) = ($store, $columns);
        // SAFETY: pointers and lengths are those of slices that live through the call; the borrows keep written ones apart.
        let answer = unsafe {
            ffi::$function(
                store.edition,
                store.starts,
                c.kinds.as_ptr(),
                c.kinds.len(),
                c.transactions.as_ptr(),
                c.transactions.len(),
                c.registers.as_ptr(),
                c.registers.len(),
                c.values.as_ptr(),
                c.values.len(),
                c.threads.as_ptr(),
                c.threads.len(),
                $($rest),+
            )
        };
        Answer::of(answer)
    }};
}

/// Reads a history file into the start values and the columns, and passes its notes over. Code 0: the edition and the event count
/// ([`Answer::halves`]).
pub fn read(file: &[u8], starts: &mut [u32; 32], columns: ColumnsMut) -> Answer {
    // SAFETY: as in `with_store`.
    let answer = unsafe {
        ffi::sendoshi_read(
            file.as_ptr(),
            file.len(),
            starts,
            columns.kinds.as_mut_ptr(),
            columns.kinds.len(),
            columns.transactions.as_mut_ptr(),
            columns.transactions.len(),
            columns.registers.as_mut_ptr(),
            columns.registers.len(),
            columns.values.as_mut_ptr(),
            columns.values.len(),
            columns.threads.as_mut_ptr(),
            columns.threads.len(),
        )
    };
    Answer::of(answer)
}

/// Finds the first note of a history file whose record begins at byte `from` or later. Code 0: how many events stand before it, the
/// byte at which its own bytes begin, and how many it has are put into `note`; code 100: there is none, and `note` stays as it is. The
/// next one is found from the sum of the last two numbers on. The file is not judged otherwise; of one that [`read`] takes, these are
/// all notes. [`notes`](crate::notes()) goes through them.
pub fn next_note(file: &[u8], from: u32, note: &mut [u32; 3]) -> Answer {
    // SAFETY: as in `with_store`.
    Answer::of(unsafe { ffi::sendoshi_next_note(file.as_ptr(), file.len(), from, note) })
}

/// Writes the first `count` events as a history file. Code 0: its length.
pub fn write(store: Store, columns: Columns, count: u32, output: &mut [u8]) -> Answer {
    with_store!(sendoshi_write, store, columns, count, output.as_mut_ptr(), output.len())
}

/// Writes the lowest marking of the first `prefix` of `count` events. Code 0: its length; code 100: there is none.
pub fn find(store: Store, columns: Columns, count: u32, prefix: u32, output: &mut [u8]) -> Answer {
    with_store!(sendoshi_find, store, columns, count, prefix, output.as_mut_ptr(), output.len())
}

/// Judges every prefix of the first `count` events. Code 0: opaque; codes 101 to 104: the first fault.
pub fn scan(store: Store, columns: Columns, count: u32) -> Answer {
    with_store!(sendoshi_scan, store, columns, count)
}

/// Checks a marking file of the first `count` events. Code 0: accepted; codes 201 to 205: the broken rule.
pub fn check(store: Store, columns: Columns, count: u32, file: &[u8]) -> Answer {
    with_store!(sendoshi_check, store, columns, count, file.as_ptr(), file.len())
}

/// Writes a marking file of the first `count` events with its careless read points moved to their readers, and lists the events of
/// those moved. Code 0: the number moved and the length ([`Answer::halves`]); codes 201 to 203 and 205: the rule broken all the same.
pub fn straighten(store: Store, columns: Columns, count: u32, file: &[u8], output: &mut [u8], moved: &mut [u32]) -> Answer {
    with_store!(
        sendoshi_straighten,
        store,
        columns,
        count,
        file.as_ptr(),
        file.len(),
        output.as_mut_ptr(),
        output.len(),
        moved.as_mut_ptr(),
        moved.len()
    )
}

/// Counts the transactions begun in the first `count` events, lone accesses among them.
pub fn transactions(store: Store, columns: Columns, count: u32) -> Answer {
    with_store!(sendoshi_transactions, store, columns, count)
}

/// Counts the store reads in the first `count` events, lone reads among them.
pub fn store_reads(store: Store, columns: Columns, count: u32) -> Answer {
    with_store!(sendoshi_store_reads, store, columns, count)
}

/// Tallies the transactions begun in the first `count` events. Code 0: how many committed, were aborted, are pending and are live
/// ([`Answer::quarters`]).
pub fn tally(store: Store, columns: Columns, count: u32) -> Answer {
    with_store!(sendoshi_tally, store, columns, count)
}
