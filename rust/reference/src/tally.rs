//! The tally: what has become of each transaction, said by its own events.

use crate::event::*;
use crate::questions::ended;

/// How many of the transactions begun are of each kind.
#[derive(Clone, Copy, Debug, PartialEq, Eq)]
pub struct Tally {
    pub committed: usize,
    pub aborted: usize,
    pub pending: usize,
    pub live: usize,
}

/// Counts the transactions of each kind.
pub fn tally(history: &[Event]) -> Tally {
    let count = |is: fn(&[Event], u16) -> bool| {
        let begun = history.iter().filter(|e| e.is_begin());
        begun.filter(|e| is(history, e.transaction)).count()
    };
    Tally { committed: count(is_committed), aborted: count(is_aborted), pending: count(is_pending), live: count(is_live) }
}

/// Has this transaction an event of this kind?
fn has(history: &[Event], transaction: u16, kind: u16) -> bool {
    history.iter().any(|e| e.kind == kind && e.transaction == transaction)
}

/// Was its commit answered, or is it a lone access?
fn is_committed(history: &[Event], transaction: u16) -> bool {
    history.iter().any(|e| e.is_commit() && e.transaction == transaction)
}

fn is_aborted(history: &[Event], transaction: u16) -> bool {
    has(history, transaction, ABORTED)
}

/// Was commit called, and is the call unanswered? Committed or aborted would be its answer.
fn is_pending(history: &[Event], transaction: u16) -> bool {
    has(history, transaction, COMMIT_CALLED) && !ended(history, transaction)
}

/// Is it another one that has not ended?
fn is_live(history: &[Event], transaction: u16) -> bool {
    !ended(history, transaction) && !is_pending(history, transaction)
}
