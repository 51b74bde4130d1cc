//! The tally.

use crate::columns::*;
use crate::store::Store;

/// How many of the transactions begun have committed, were aborted, have called commit and got no answer, and have not ended either.
#[derive(Clone, Copy, Debug, Default, PartialEq, Eq)]
pub struct Tally {
    pub committed: usize,
    pub aborted: usize,
    pub pending: usize,
    pub live: usize,
}

/// Tallies the transactions begun in the first `count` events. The latest event of each tells what has become of it.
pub fn tally(store: Store, columns: Columns, count: usize) -> Result<Tally, Refusal> {
    columns.validate(store, count)?;
    let mut latest = [None; TRANSACTIONS];
    for (&kind, &transaction) in columns.kinds[..count].iter().zip(&columns.transactions[..count]) {
        latest[usize::from(transaction)] = Some(kind);
    }
    let mut tally = Tally::default();
    for kind in latest.into_iter().flatten() {
        match kind {
            COMMITTED | LONE_READ | LONE_WRITE => tally.committed += 1,
            ABORTED => tally.aborted += 1,
            COMMIT_CALLED => tally.pending += 1,
            _ => tally.live += 1,
        }
    }
    Ok(tally)
}
