//! Justifications: an outcome and a place for every transaction.

use crate::event::*;
use crate::reads::*;
use crate::store::Store;

/// Aborted comes before committed.
#[derive(Clone, Copy, Debug, PartialEq, Eq, PartialOrd, Ord)]
pub enum Outcome {
    Aborted,
    Committed,
}

/// The transaction at a place, and its outcome. The derived order is that of the paper: the lower transaction first, then the outcome.
#[derive(Clone, Copy, Debug, PartialEq, Eq, PartialOrd, Ord)]
pub struct Place {
    pub transaction: u16,
    pub outcome: Outcome,
}

/// Did the first transaction end before the second began? A lone access does both at its event.
pub fn precedes(history: &[Event], first: u16, second: u16) -> bool {
    let end = history.iter().position(|e| e.is_end() && e.transaction == first);
    let begin = history.iter().position(|e| e.is_begin() && e.transaction == second);
    matches!((end, begin), (Some(end), Some(begin)) if end < begin)
}

/// The recorded outcome, which is committed for a lone access; free after a commit called and unanswered, aborted for others not ended.
pub fn is_allowed(history: &[Event], place: Place) -> bool {
    let latest = history.iter().rev().find(|e| e.transaction == place.transaction);
    match latest.map(|e| e.kind) {
        Some(COMMITTED | LONE_READ | LONE_WRITE) => place.outcome == Outcome::Committed,
        Some(COMMIT_CALLED) => true,
        _ => place.outcome == Outcome::Aborted,
    }
}

/// What a committed transaction leaves in a register that it writes.
pub fn written(history: &[Event], place: Place, register: u16) -> Option<u32> {
    match place.outcome {
        Outcome::Committed => last_write(history, place.transaction, register),
        Outcome::Aborted => None,
    }
}

/// The place of a transaction.
pub fn place_of(order: &[Place], transaction: u16) -> usize {
    order.iter().position(|p| p.transaction == transaction).expect("every transaction has a place")
}

/// Does every transaction have one place?
pub fn is_order(history: &[Event], order: &[Place]) -> bool {
    let all = transactions(history);
    order.len() == all && (0..all).all(|t| order.iter().filter(|p| usize::from(p.transaction) == t).count() == 1)
}

/// No transaction is placed before one that precedes it.
pub fn keeps_real_time(history: &[Event], order: &[Place]) -> bool {
    (0..order.len()).all(|later| {
        let second = order[later].transaction;
        order[later..].iter().all(|p| !precedes(history, p.transaction, second))
    })
}

/// The value of the last writer placed before the reader, or the register's start value.
pub fn is_legal(store: &Store, history: &[Event], order: &[Place], read: usize) -> bool {
    let Event { transaction, register, value, .. } = history[read];
    let before = &order[..place_of(order, transaction)];
    let last = before.iter().rev().find_map(|&place| written(history, place, register));
    value == last.unwrap_or(store.start(register))
}

/// The definition, part by part.
pub fn is_justification(store: &Store, history: &[Event], order: &[Place]) -> bool {
    is_order(history, order)
        && order.iter().all(|&place| is_allowed(history, place))
        && keeps_real_time(history, order)
        && own_reads(history).all(|read| own_read_is_right(history, read))
        && store_reads(history).all(|read| is_legal(store, history, order, read))
}
