//! The finder.

use crate::columns::*;
use crate::history_file::Writer;
use crate::search::{lowest, lowest_by_trying, lowest_by_trying_so_often, Found, Place};
use crate::store::Store;
use crate::tables::{Tables, MOST};

/// Writes the lowest marking of a prefix and returns its length, or `None` where no order justifies the prefix.
pub fn find(store: Store, columns: Columns, count: usize, prefix: usize, output: &mut [u8]) -> Result<Option<usize>, Refusal> {
    find_by(lowest, store, columns, count, prefix, output)
}

/// The same by trying alone.
pub fn find_by_trying(
    store: Store,
    columns: Columns,
    count: usize,
    prefix: usize,
    output: &mut [u8],
) -> Result<Option<usize>, Refusal> {
    find_by(lowest_by_trying, store, columns, count, prefix, output)
}

/// How many transactions the finder places on the way to its answer on all of a readable history.
pub fn find_placements(store: Store, columns: Columns, count: usize) -> u64 {
    lowest(store.starts, &tables_of(columns, count)).placements
}

/// How many it places by trying alone, if those are fewer than `most`.
pub fn find_placements_by_trying(store: Store, columns: Columns, count: usize, most: u64) -> Option<u64> {
    let placements = lowest_by_trying_so_often(store.starts, &tables_of(columns, count), most).placements;
    (placements < most).then_some(placements)
}

fn tables_of(columns: Columns, prefix: usize) -> Tables {
    let mut tables = Tables::new();
    for (at, event) in columns.threadless(prefix).enumerate() {
        tables.add(at, event);
    }
    tables
}

fn find_by(
    lowest: impl Fn(&[u32; REGISTERS], &Tables) -> Found,
    store: Store,
    columns: Columns,
    count: usize,
    prefix: usize,
    output: &mut [u8],
) -> Result<Option<usize>, Refusal> {
    columns.hold(count)?;
    store.admit(count)?;
    if prefix > count {
        return refuse(18, count);
    }
    columns.validate_events(store, count)?;
    let begun = columns.begun(prefix);
    if begun > MOST {
        return refuse(31, count);
    }
    let tables = tables_of(columns, prefix);
    let length = 6 + 8 * begun + 10 * tables.points.len();
    if output.len() < length {
        return refuse(32, count);
    }
    let Some(order) = lowest(store.starts, &tables).order else {
        return Ok(None);
    };
    write_marking(&order, &tables.points, output);
    Ok(Some(length))
}

/// Writes an order, and each read point at its reader's place.
fn write_marking(order: &[Place], points: &[(usize, u16)], output: &mut [u8]) {
    let mut place = [0u16; MOST];
    let mut writer = Writer { output, at: 0 };
    writer.put(&[4, 0, 2, 0, 1, 0]);
    for (at, &(transaction, committed)) in order.iter().enumerate() {
        place[transaction] = at as u16;
        writer.put(&[6, 0, 32, 0, transaction as u8, 0, u8::from(committed), 0]);
    }
    for &(event, transaction) in points {
        writer.put(&[8, 0, 33, 0]);
        writer.put(&(event as u32).to_le_bytes());
        writer.put(&place[usize::from(transaction)].to_le_bytes());
    }
}
