//! The library's job in plain safe Rust, as one would write it without proofs: one pass with small tables for the files, the
//! tally, the checker and the straightening; for the finder and the scan the library's way of searching, a witness that is
//! carried and a question before each walk, and beside it the plainest depth-first search (`.._by_trying`). The benchmarks
//! compare the library with both, and the tests use the second where histories are too large for the brute force of `reference`.
//!
//! Answers, refusals and what happens to lent buffers are the library's.

mod accesses;
mod check;
mod columns;
mod find;
mod history_file;
mod marking_file;
mod notes;
mod progress;
mod scan;
mod search;
mod store;
mod straighten;
mod tables;
mod tally;

pub use check::{check, Verdict};
pub use columns::{Columns, Refusal};
pub use find::{find, find_by_trying, find_placements, find_placements_by_trying};
pub use history_file::{read, write};
pub use notes::{next_note, Note};
pub use scan::{scan, scan_by_trying, scan_by_trying_counting, scan_counting, Counted, Scanned};
pub use store::Store;
pub use straighten::{straighten, Straightened};
pub use tally::{tally, Tally};

use accesses::Accesses;

/// The transactions begun in the first `count` events.
pub fn transactions(store: Store, columns: Columns, count: usize) -> Result<usize, Refusal> {
    columns.validate(store, count)?;
    Ok(columns.begun(count))
}

/// The store reads in the first `count` events.
pub fn store_reads(store: Store, columns: Columns, count: usize) -> Result<usize, Refusal> {
    columns.validate(store, count)?;
    Ok(Accesses::of(columns, count).store_reads.len())
}
