//! The lowest order by force, from tables of what each transaction read and wrote: every permutation is run, one transaction
//! after the other, on an array of registers, with every outcome that is allowed, and the least of those that go through is kept.
//! It knows less than `reference`, which looks every question up in the events, and is quick enough for hundreds of thousands of
//! histories of five and six transactions.

use reference::event::*;
use reference::justification::{Outcome, Place};
use reference::store::{Store, REGISTERS};
use std::sync::OnceLock;

/// What the events say of one transaction.
struct Row {
    began: usize,
    ended: Option<usize>,
    outcomes: &'static [Outcome],
    reads: Vec<(usize, u32)>,
    writes: Vec<(usize, u32)>,
}

/// The rows of a history, and whether every transaction that read what it had written itself got it.
pub struct Tables {
    starts: [u32; REGISTERS],
    rows: Vec<Row>,
    own_reads_are_right: bool,
}

impl Tables {
    pub fn of(store: &Store, history: &[Event]) -> Tables {
        let mut tables = Tables { starts: store.starts, rows: Vec::new(), own_reads_are_right: true };
        for (at, event) in history.iter().enumerate() {
            tables.add(at, event);
        }
        tables
    }

    fn add(&mut self, at: usize, event: &Event) {
        if event.is_begin() {
            let (reads, writes) = (Vec::new(), Vec::new());
            self.rows.push(Row { began: at, ended: None, outcomes: &[Outcome::Aborted], reads, writes });
        }
        let row = &mut self.rows[usize::from(event.transaction)];
        if event.is_lone() {
            (row.outcomes, row.ended) = (&[Outcome::Committed], Some(at));
        }
        let access = (usize::from(event.register), event.value);
        match event.kind {
            WRITE_CALLED | LONE_WRITE => row.writes.push(access),
            READ_RETURNED | LONE_READ => match row.writes.iter().rev().find(|write| write.0 == access.0) {
                Some(own) => self.own_reads_are_right &= *own == access,
                None => row.reads.push(access),
            },
            COMMIT_CALLED => row.outcomes = &[Outcome::Aborted, Outcome::Committed],
            COMMITTED => (row.outcomes, row.ended) = (&[Outcome::Committed], Some(at)),
            ABORTED => (row.outcomes, row.ended) = (&[Outcome::Aborted], Some(at)),
            _ => (),
        }
    }

    /// The least of all orders that go through.
    pub fn lowest(&self) -> Option<Vec<Place>> {
        if !self.own_reads_are_right {
            return None;
        }
        let outcomes = self.all_outcomes();
        let orders = permutations(self.rows.len()).iter().filter(|order| self.keeps_real_time(order));
        let marked = orders.flat_map(|order| outcomes.iter().map(move |outcomes| (order, outcomes)));
        let fitting = marked.filter(|(order, outcomes)| self.goes_through(order, outcomes));
        let least = fitting.min_by(|one, other| places(one.0, one.1).cmp(places(other.0, other.1)))?;
        Some(places(least.0, least.1).collect())
    }

    /// Every way in which the transactions may have ended.
    fn all_outcomes(&self) -> Vec<Vec<Outcome>> {
        self.rows.iter().fold(vec![Vec::new()], |lists, row| {
            let longer =
                |list: &Vec<Outcome>| row.outcomes.iter().map(|&outcome| [&list[..], &[outcome]].concat()).collect::<Vec<_>>();
            lists.iter().flat_map(longer).collect()
        })
    }

    /// Of any two, does the one that ended before the other began come first?
    fn keeps_real_time(&self, order: &[usize]) -> bool {
        let precedes = |first: usize, second: usize| self.rows[first].ended.is_some_and(|end| end < self.rows[second].began);
        (0..order.len()).all(|at| order[at + 1..].iter().all(|&later| !precedes(later, order[at])))
    }

    /// Runs the transactions in this order and with these outcomes: does each find what it read?
    fn goes_through(&self, order: &[usize], outcomes: &[Outcome]) -> bool {
        let mut registers = self.starts;
        for &t in order {
            let row = &self.rows[t];
            if row.reads.iter().any(|&(register, value)| registers[register] != value) {
                return false;
            }
            if outcomes[t] == Outcome::Committed {
                row.writes.iter().for_each(|&(register, value)| registers[register] = value);
            }
        }
        true
    }
}

/// The places of transactions in this order and with these outcomes.
fn places<'a>(order: &'a [usize], outcomes: &'a [Outcome]) -> impl Iterator<Item = Place> + 'a {
    order.iter().map(|&t| Place { transaction: t as u16, outcome: outcomes[t] })
}

/// The most transactions that are run in every order.
pub const MOST: usize = 7;

/// All permutations of so many, made once: each is one of one less with the last put somewhere.
fn permutations(transactions: usize) -> &'static [Vec<usize>] {
    static ALL: [OnceLock<Vec<Vec<usize>>>; MOST + 1] = [const { OnceLock::new() }; MOST + 1];
    ALL[transactions].get_or_init(|| {
        let Some(last) = transactions.checked_sub(1) else {
            return vec![Vec::new()];
        };
        let put = |order: &Vec<usize>, at: usize| [&order[..at], &[last], &order[at..]].concat();
        permutations(last).iter().flat_map(|order| (0..=last).map(move |at| put(order, at))).collect()
    })
}

#[cfg(test)]
mod tests {
    use super::*;
    use crate::random::Random;
    use crate::walk::{walk, Shape};
    use reference::judgement;
    use std::collections::HashSet;

    #[test]
    fn every_permutation_comes_once() {
        let mut factorial = 1;
        for transactions in 0..=MOST {
            factorial *= transactions.max(1);
            let distinct: HashSet<&Vec<usize>> = permutations(transactions).iter().collect();
            assert_eq!((distinct.len(), permutations(transactions).len()), (factorial, factorial));
            let is_whole = |order: &&Vec<usize>| (0..transactions).all(|t| order.contains(&t)) && order.len() == transactions;
            assert!(distinct.iter().all(is_whole));
        }
    }

    #[test]
    fn the_least_that_goes_through_is_the_lowest_by_definition() {
        let (mut justified, mut unjustified) = (0, 0);
        for seed in 0..4_000 {
            let mut random = Random::new(seed);
            let shape = Shape::small(&mut random);
            let log = walk(&mut random, shape);
            let lowest = Tables::of(&log.store, &log.events).lowest();
            assert_eq!(lowest, judgement::lowest(&log.store, &log.events), "{log:?}");
            *(if lowest.is_some() { &mut justified } else { &mut unjustified }) += 1;
        }
        assert!(justified > 100 && unjustified > 100, "{justified} justified, {unjustified} not");
    }
}
