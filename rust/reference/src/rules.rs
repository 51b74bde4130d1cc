//! The rules A to E, and the verdict on a readable marking.

use crate::event::*;
use crate::justification::*;
use crate::marking_file::{Marking, Point};
use crate::reads::*;
use crate::store::Store;

#[derive(Clone, Copy, Debug, PartialEq, Eq)]
pub enum Rule {
    A,
    B,
    C,
    D,
    E,
}

#[derive(Clone, Copy, Debug, PartialEq, Eq)]
pub enum Verdict {
    Accepted,
    Broken { rule: Rule, event: usize, transaction: u16 },
}

/// The first rule that is broken, at its lowest transaction or event.
pub fn verdict(store: &Store, history: &[Event], marking: &Marking) -> Verdict {
    let all = 0..transactions(history) as u16;
    let order = &marking.places;
    if let Some(t) = all.clone().find(|&t| !is_allowed(history, order[place_of(order, t)])) {
        let last = history.iter().rposition(|e| e.transaction == t).expect("a transaction has events");
        return Verdict::Broken { rule: Rule::A, event: last, transaction: t };
    }
    if let Some(t) = all.clone().find(|&t| all.clone().any(|u| is_placed_too_early(history, order, t, u))) {
        let begin = history.iter().position(|e| e.is_begin() && e.transaction == t).expect("a transaction begins");
        return Verdict::Broken { rule: Rule::B, event: begin, transaction: t };
    }
    let wrong_own = own_reads(history).find(|&read| !own_read_is_right(history, read));
    if let Some(read) = wrong_own {
        return at_read(history, Rule::C, read);
    }
    if let Some(p) = marking.points.iter().find(|p| is_overwritten(history, order, p)) {
        return at_read(history, Rule::D, p.event as usize);
    }
    if let Some(p) = marking.points.iter().find(|p| is_misread(store, history, order, p)) {
        return at_read(history, Rule::E, p.event as usize);
    }
    Verdict::Accepted
}

fn at_read(history: &[Event], rule: Rule, event: usize) -> Verdict {
    Verdict::Broken { rule, event, transaction: history[event].transaction }
}

/// Did this transaction begin after the other's end, and is it placed before it?
fn is_placed_too_early(history: &[Event], order: &[Place], transaction: u16, other: u16) -> bool {
    precedes(history, other, transaction) && place_of(order, transaction) < place_of(order, other)
}

/// Rule D: is a writer of the register, other than the reader, placed between the point and the reader? Gap g lies after the
/// first g places, so place q is behind it if g ≤ q.
pub fn is_overwritten(history: &[Event], order: &[Place], point: &Point) -> bool {
    let Event { transaction, register, .. } = history[point.event as usize];
    let (gap, reader) = (usize::from(point.gap), place_of(order, transaction));
    (0..order.len()).any(|q| {
        let between = (gap <= q && q < reader) || (reader < q && q < gap);
        between && order[q].transaction != transaction && written(history, order[q], register).is_some()
    })
}

/// Rule E: is the value another one than that at the point?
pub fn is_misread(store: &Store, history: &[Event], order: &[Place], point: &Point) -> bool {
    history[point.event as usize].value != value_at(store, history, order, point)
}

/// The value of the last writer before the gap other than the reader, or the register's start value.
fn value_at(store: &Store, history: &[Event], order: &[Place], point: &Point) -> u32 {
    let Event { transaction, register, .. } = history[point.event as usize];
    let before = order[..usize::from(point.gap)].iter().rev().filter(|p| p.transaction != transaction);
    before.filter_map(|&place| written(history, place, register)).next().unwrap_or(store.start(register))
}
