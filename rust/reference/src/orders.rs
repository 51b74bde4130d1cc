//! Every order of the transactions, and every outcome of each.

use crate::justification::{Outcome, Place};

/// Every outcome of so many transactions: 2^n lists, the outcome of transaction t at t.
pub fn all_outcomes(transactions: usize) -> impl Iterator<Item = Vec<Outcome>> {
    (0..1u64 << transactions).map(move |bits| {
        let outcome = |t: usize| if bits >> t & 1 == 0 { Outcome::Aborted } else { Outcome::Committed };
        (0..transactions).map(outcome).collect()
    })
}

/// Every order of transactions that have these outcomes: n! lists of places.
pub fn all_orders(outcomes: Vec<Outcome>) -> impl Iterator<Item = Vec<Place>> {
    let first: Vec<u16> = (0..outcomes.len() as u16).collect();
    std::iter::successors(Some(first), |order| next_permutation(order)).map(move |order| {
        let place = |&t: &u16| Place { transaction: t, outcome: outcomes[usize::from(t)] };
        order.iter().map(place).collect()
    })
}

/// The next permutation in the order of a dictionary.
fn next_permutation(order: &[u16]) -> Option<Vec<u16>> {
    let rise = (1..order.len()).rev().find(|&i| order[i - 1] < order[i])?;
    let swap = (rise..order.len()).rev().find(|&i| order[rise - 1] < order[i])?;
    let mut next = order.to_vec();
    next.swap(rise - 1, swap);
    next[rise..].reverse();
    Some(next)
}

#[cfg(test)]
mod tests {
    use super::*;
    use std::collections::HashSet;

    #[test]
    fn all_orders_with_all_outcomes_come_once() {
        let mut factorial = 1;
        for n in 0..=5 {
            factorial *= n.max(1);
            let listed: Vec<Vec<Place>> = all_outcomes(n).flat_map(all_orders).collect();
            let distinct: HashSet<Vec<(u16, bool)>> = listed
                .iter()
                .map(|order| order.iter().map(|p| (p.transaction, p.outcome == Outcome::Committed)).collect())
                .collect();
            assert_eq!(listed.len(), factorial << n);
            assert_eq!(distinct.len(), listed.len());
        }
    }
}
