//! What holds of a tally, said of the library alone; and what the tallied histories had.

use crate::coverage::{Coverage, Tallied};
use reference::event::*;
use sendoshi::{answer, Answer};

/// Fails unless a tally and a count of the same transactions agree: refused alike, or four numbers that add up to the count.
pub fn adds_up(tally: Answer, transactions: Answer) {
    if tally.code != answer::DONE || transactions.code != answer::DONE {
        assert_eq!(tally, transactions, "a tally and a count are refused alike");
        return;
    }
    let sum: usize = tally.quarters().iter().sum();
    assert_eq!(sum, transactions.place as usize, "the tally {:?} adds up to the transactions", tally.quarters());
}

/// Notes which of the four numbers are not 0, and how transactions of the history were aborted.
pub fn note(history: &[Event], tally: Answer, coverage: &mut Coverage) {
    let numbers = [Tallied::Committed, Tallied::Aborted, Tallied::Pending, Tallied::Live].into_iter().zip(tally.quarters());
    numbers.filter(|&(_, number)| number > 0).for_each(|(what, _)| coverage.note_tallied(what));
    for at in (0..history.len()).filter(|&at| history[at].kind == ABORTED) {
        coverage.note_tallied(aborted(&history[..at], history[at].transaction));
    }
}

/// How a transaction is aborted after these events: by the latest of its own.
fn aborted(before: &[Event], transaction: u16) -> Tallied {
    let latest = before.iter().rev().find(|e| e.transaction == transaction);
    match latest.map(|e| e.kind) {
        Some(READ_CALLED) => Tallied::AbortedFromRead,
        Some(WRITE_CALLED) => Tallied::AbortedFromWrite,
        Some(COMMIT_CALLED) => Tallied::AbortedAfterCommitCall,
        _ => Tallied::AbortedWithNoCall,
    }
}
