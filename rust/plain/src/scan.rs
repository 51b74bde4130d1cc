//! The scan.

use crate::columns::*;
use crate::search::{lowest, lowest_by_trying_so_often, Place};
use crate::store::Store;
use crate::tables::{Tables, MOST};

#[derive(Clone, Copy, Debug, PartialEq, Eq)]
pub enum Scanned {
    Opaque,
    /// The last event of the first prefix without a justification, and the cause.
    Faulted(usize, u8),
}

/// Judges the prefixes of the first `count` events by rising length. An order that justifies one is kept for the next while it
/// justifies that too.
pub fn scan(store: Store, columns: Columns, count: usize) -> Result<Scanned, Refusal> {
    Ok(scan_counting(store, columns, count)?.scanned)
}

/// What a scan says, and what it took: searches, and transactions placed in them.
pub struct Counted {
    pub scanned: Scanned,
    pub searches: u64,
    pub placements: u64,
}

/// The same, counted.
pub fn scan_counting(store: Store, columns: Columns, count: usize) -> Result<Counted, Refusal> {
    admit(store, columns, count)?;
    let mut tables = Tables::new();
    let mut witness: Vec<Place> = Vec::with_capacity(MOST);
    let (mut searches, mut placements) = (0, 0);
    for (at, event) in columns.threadless(count).enumerate() {
        let kept = carry(store, &tables, &mut witness, event);
        tables.add(at, event);
        if kept {
            continue;
        }
        let found = lowest(store.starts, &tables);
        (searches, placements) = (searches + 1, placements + found.placements);
        let Some(order) = found.order else {
            return Ok(Counted { scanned: faulted(at, event), searches, placements });
        };
        witness = order;
    }
    Ok(Counted { scanned: Scanned::Opaque, searches, placements })
}

/// The same with a search for every prefix, by trying alone.
pub fn scan_by_trying(store: Store, columns: Columns, count: usize) -> Result<Scanned, Refusal> {
    Ok(scan_by_trying_counting(store, columns, count, u64::MAX)?.expect("so many are never placed").scanned)
}

/// The same, counted, or nothing where `most` are placed.
pub fn scan_by_trying_counting(store: Store, columns: Columns, count: usize, most: u64) -> Result<Option<Counted>, Refusal> {
    admit(store, columns, count)?;
    let mut tables = Tables::new();
    let (mut searches, mut placements) = (0, 0);
    for (at, event) in columns.threadless(count).enumerate() {
        tables.add(at, event);
        let found = lowest_by_trying_so_often(store.starts, &tables, most - placements);
        (searches, placements) = (searches + 1, placements + found.placements);
        if placements == most {
            return Ok(None);
        }
        if found.order.is_none() {
            return Ok(Some(Counted { scanned: faulted(at, event), searches, placements }));
        }
    }
    Ok(Some(Counted { scanned: Scanned::Opaque, searches, placements }))
}

fn admit(store: Store, columns: Columns, count: usize) -> Result<(), Refusal> {
    columns.validate(store, count)?;
    if columns.begun(count) > MOST {
        return refuse(31, count);
    }
    Ok(())
}

fn faulted(at: usize, event: Event) -> Scanned {
    let cause = match event.kind {
        READ_RETURNED | LONE_READ => 1,
        COMMITTED => 2,
        ABORTED => 3,
        _ => 4,
    };
    Scanned::Faulted(at, cause)
}

/// Carries an order that justifies the events in the tables on to this one. Does it justify it too?
fn carry(store: Store, tables: &Tables, witness: &mut Vec<Place>, event: Event) -> bool {
    let t = usize::from(event.transaction);
    // One that has no place yet begins here. Its number tells that before the kinds are told apart, of which few begin.
    if t == witness.len() {
        return put_last(store, tables, witness, event);
    }
    match event.kind {
        READ_RETURNED => seen(store, tables, witness, t, usize::from(event.register)) == event.value,
        COMMITTED => witness.contains(&(t, true)),
        ABORTED => witness.contains(&(t, false)),
        _ => true,
    }
}

/// One that begins comes last, aborted, and a lone access committed: a lone read must return what all the others leave.
#[inline(never)] // it is asked once a transaction, and would crowd what is asked of every event
fn put_last(store: Store, tables: &Tables, witness: &mut Vec<Place>, event: Event) -> bool {
    let register = usize::from(event.register);
    let fits = event.kind != LONE_READ || left(store, tables, witness.iter().rev(), register) == event.value;
    witness.push((usize::from(event.transaction), event.kind != BEGIN));
    fits
}

/// What a transaction reads there: its own write, or what those before it leave.
fn seen(store: Store, tables: &Tables, witness: &[Place], t: usize, register: usize) -> u32 {
    let before = witness.iter().rev().skip_while(|&&(other, _)| other != t).skip(1);
    written(tables, t, register).unwrap_or_else(|| left(store, tables, before, register))
}

/// What these places, from the last to the first, leave there: the write of the last committed one, or the start value.
fn left<'a>(store: Store, tables: &Tables, places: impl Iterator<Item = &'a Place>, register: usize) -> u32 {
    let committed = places.filter(|&&(_, committed)| committed);
    let mut writers = committed.filter_map(|&(t, _)| written(tables, t, register));
    writers.next().unwrap_or(store.starts[register])
}

fn written(tables: &Tables, t: usize, register: usize) -> Option<u32> {
    let transaction = &tables.transactions[t];
    (transaction.has_written >> register & 1 == 1).then_some(transaction.written[register])
}
