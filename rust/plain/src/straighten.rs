//! Straightened read points.

use crate::accesses::Accesses;
use crate::check::{broken_order, overwritten, wrong_value};
use crate::columns::*;
use crate::marking_file::{read_marking, Marking};
use crate::store::Store;

#[derive(Clone, Copy, Debug, PartialEq, Eq)]
pub enum Straightened {
    /// The marking's length, and the number of points that were moved.
    Done { length: usize, moved: usize },
    /// The rule, `A`, `B`, `C` or `E`, the event and its transaction.
    Broken(char, usize, usize),
}

/// Writes a marking of the first `count` events with its careless points moved to their readers, and lists the events of those.
pub fn straighten(
    store: Store,
    columns: Columns,
    count: usize,
    file: &[u8],
    output: &mut [u8],
    list: &mut [u32],
) -> Result<Straightened, Refusal> {
    columns.validate(store, count)?;
    let accesses = Accesses::of(columns, count);
    let marking = read_marking(file, &accesses)?;
    if output.len() < file.len() || list.len() < accesses.store_reads.len() {
        return refuse(15, count);
    }
    let moves = match moves(store, columns, &accesses, &marking) {
        Ok(moves) => moves,
        Err((rule, event, transaction)) => return Ok(Straightened::Broken(rule, event, transaction)),
    };
    output[..file.len()].copy_from_slice(file);
    let gaps = file.len() - 10 * accesses.store_reads.len() + 8; // where the gap of the first point stands
    for (entry, &(point, reader)) in list.iter_mut().zip(&moves) {
        *entry = accesses.store_reads[point].event as u32;
        output[gaps + 10 * point..][..2].copy_from_slice(&(reader as u16).to_le_bytes());
    }
    Ok(Straightened::Done { length: file.len(), moved: moves.len() })
}

/// The points that are moved, each with its reader's place, or what is broken all the same.
fn moves(
    store: Store,
    columns: Columns,
    accesses: &Accesses,
    marking: &Marking,
) -> Result<Vec<(usize, usize)>, (char, usize, usize)> {
    if let Some(broken) = broken_order(columns, accesses, marking) {
        return Err(broken);
    }
    let mut moves = Vec::with_capacity(accesses.store_reads.len());
    for (point, (read, &gap)) in accesses.store_reads.iter().zip(&marking.gaps).enumerate() {
        if overwritten(accesses, marking, read, gap) || wrong_value(store, accesses, marking, read, gap) {
            let reader = marking.place[usize::from(read.transaction)];
            if wrong_value(store, accesses, marking, read, reader) {
                return Err(('E', read.event, usize::from(read.transaction)));
            }
            moves.push((point, reader));
        }
    }
    Ok(moves)
}
