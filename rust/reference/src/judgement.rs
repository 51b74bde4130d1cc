//! The lowest justification of a history, and the first prefix without one.

use crate::event::*;
use crate::justification::*;
use crate::orders::{all_orders, all_outcomes};
use crate::reads::transactions;
use crate::store::Store;

/// Is there a justification?
pub fn is_justified(store: &Store, history: &[Event]) -> bool {
    justifications(store, history).next().is_some()
}

/// The lowest of all justifications. Orders are compared place by place, which is what comparing the vectors does.
pub fn lowest(store: &Store, history: &[Event]) -> Option<Vec<Place>> {
    justifications(store, history).min()
}

/// The scan's answer: opaque, or where and why the first prefix without a justification ends.
#[derive(Clone, Copy, Debug, PartialEq, Eq)]
pub enum Scanned {
    Opaque,
    Faulted { event: usize, cause: u8 },
}

/// Judges the prefixes by rising length. Each begins with the history's own store.
pub fn scan(store: &Store, history: &[Event]) -> Scanned {
    match (0..=history.len()).find(|&n| !is_justified(store, &history[..n])) {
        None => Scanned::Opaque,
        Some(length) => {
            let event = length - 1; // the empty prefix has the empty justification
            Scanned::Faulted { event, cause: cause(history[event].kind) }
        }
    }
}

fn cause(kind: u16) -> u8 {
    match kind {
        READ_RETURNED | LONE_READ => 1,
        COMMITTED => 2,
        ABORTED => 3,
        _ => 4,
    }
}

/// All of them: every order is tried with every outcome that the history allows.
fn justifications<'a>(store: &'a Store, history: &'a [Event]) -> impl Iterator<Item = Vec<Place>> + 'a {
    let allowed = |outcomes: &Vec<Outcome>| {
        let mut places = (0..).zip(outcomes).map(|(transaction, &outcome)| Place { transaction, outcome });
        places.all(|place| is_allowed(history, place))
    };
    let orders = all_outcomes(transactions(history)).filter(allowed).flat_map(all_orders);
    orders.filter(|order| is_justification(store, history, order))
}
