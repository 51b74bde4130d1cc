//! Digests built so that a search for an order is long, and what a search for one costs.

use crate::digest::{Digest, Standing, Transaction};
use crate::random::Random;
use crate::random_digest::{climb, serial, Shape};
use crate::schedule::in_turn;
use crate::views::Views;
use reference::log::Log;
use reference::store::{Store, REGISTERS};

/// So many pending writers and a live one that reads 1 from a register of each. Each writer leaves 1 in its own register and 2 in
/// that of the one before it, so that all must commit, each before those of lower numbers: the last order that a search comes to
/// which tries the lower first and aborted before committed. All also read 0 from so many registers that nobody writes, which
/// makes every question about reads longer.
pub fn pending_chain(writers: u16, padding: u16) -> Digest {
    let own = |writer: u16| padding + writer;
    let padded = |mut reads: Vec<(u16, u32)>| {
        reads.extend((0..padding).map(|register| (register, 0)));
        reads
    };
    let writer = |writer: u16| {
        let neighbour = writer.checked_sub(1).map(|before| (own(before), 2));
        let writes = [(own(writer), 1)].into_iter().chain(neighbour).collect();
        Transaction::new(Standing::Pending, padded(Vec::new()), writes)
    };
    let reader = Transaction::new(Standing::Live, padded((0..writers).map(|writer| (own(writer), 1)).collect()), Vec::new());
    Digest((0..writers).map(writer).chain([reader]).collect())
}

/// The chain closed: the first writer leaves 2 in the register of the last, and nothing justifies.
pub fn pending_ring(writers: u16, padding: u16) -> Digest {
    let mut chain = pending_chain(writers, padding);
    chain.0[0].writes.push((padding + writers - 1, 2));
    chain
}

/// So many pending writers and a live one that reads 1 from a register of each. The first two spoil each other's register, so
/// that nothing justifies, and the others may commit in any order before that shows.
pub fn two_destructive(writers: u16) -> Digest {
    let writes = |writer: u16| match writer {
        0 => vec![(0, 1), (1, 2)],
        1 => vec![(0, 2), (1, 1)],
        _ => vec![(writer, 1)],
    };
    let pending = (0..writers).map(|writer| Transaction::new(Standing::Pending, Vec::new(), writes(writer)));
    let reader = Transaction::new(Standing::Live, (0..writers).map(|writer| (writer, 1)).collect(), Vec::new());
    Digest(pending.chain([reader]).collect())
}

/// A live one and so many pending writers, of which each two that stand close enough share a register: the lower leaves 1 in it,
/// the higher 2, and the live one reads 1. So all but the highest must commit, the higher before the lower, and of that each read
/// tells something that reads of pairs which stand as far apart or farther do not: in that order, each breaks the lowest order of
/// what was read before.
pub fn pending_pairs(writers: u16) -> Digest {
    let all = (1..writers).flat_map(|distance| (0..writers - distance).map(move |lower| (lower, lower + distance)));
    let pairs: Vec<(u16, u16)> = all.take(REGISTERS).collect();
    let register = |pair: usize| (pairs.len() - 1 - pair) as u16; // those that stand farthest apart have the lowest
    let writer = |writer: u16| {
        let shared = (0..pairs.len()).filter_map(|pair| match pairs[pair] {
            (lower, _) if lower == writer => Some((register(pair), 1)),
            (_, higher) if higher == writer => Some((register(pair), 2)),
            _ => None,
        });
        Transaction::new(Standing::Pending, Vec::new(), shared.collect())
    };
    let reader = Transaction::new(Standing::Live, (0..pairs.len() as u16).map(|register| (register, 1)).collect(), Vec::new());
    Digest([reader].into_iter().chain((0..writers).map(writer)).collect())
}

/// What plain Rust, searching as the library does, places on the way to its answer.
pub fn placements(log: &Log) -> u64 {
    let views = Views::of(log);
    plain::find_placements(views.plain_store(), views.plain(), views.count())
}

/// A digest of this shape that is harder than most: climbed to in so many steps, by counting placements, from one that is
/// justified. From one that is not, whose search mostly ends at its first question, there is no slope to climb.
pub fn climbed(random: &mut Random, shape: Shape, store: Store, steps: usize) -> Digest {
    let start = serial(random, shape, &store);
    climb(random, start, shape, steps, |digest| placements(&in_turn(digest, store)))
}

#[cfg(test)]
mod tests {
    use super::*;
    use crate::schedule::witness_breaking;
    use crate::views::lowest_order;
    use reference::justification::{Outcome, Place};

    fn lowest(digest: &Digest) -> Option<Vec<Place>> {
        lowest_order(&in_turn(digest, Store::ZERO))
    }

    #[test]
    fn a_chain_is_justified_by_its_last_order_and_a_ring_by_none() {
        for (writers, padding) in [(3, 0), (5, 0), (7, 4), (9, 23)] {
            let committed = (0..writers).rev().map(|transaction| Place { transaction, outcome: Outcome::Committed });
            let reader = Place { transaction: writers, outcome: Outcome::Aborted };
            assert_eq!(lowest(&pending_chain(writers, padding)), Some(committed.chain([reader]).collect()));
            assert_eq!(lowest(&pending_ring(writers, padding)), None);
        }
    }

    #[test]
    fn two_that_spoil_each_other_are_justified_by_nothing() {
        assert!((2..10).all(|writers| lowest(&two_destructive(writers)).is_none()));
        let mut mended = two_destructive(5);
        mended.0[1].writes.remove(0);
        assert!(lowest(&mended).is_some());
    }

    #[test]
    fn each_read_of_a_pair_breaks_the_order_before_it() {
        for writers in 2..=9 {
            let digest = pending_pairs(writers);
            let aborted = [0, writers].map(|transaction| Place { transaction, outcome: Outcome::Aborted });
            let committed = (1..writers).rev().map(|transaction| Place { transaction, outcome: Outcome::Committed });
            let order: Vec<Place> = committed.chain(aborted).collect();
            assert_eq!(lowest(&digest), Some(order.clone()));
            let log = witness_breaking(&digest, Store::ZERO, &order, &mut Random::new(1));
            let views = Views::of(&log);
            let counted = plain::scan_counting(views.plain_store(), views.plain(), views.count()).unwrap();
            assert_eq!(counted.searches, digest.0[0].reads.len() as u64);
        }
    }

    #[test]
    fn climbing_makes_a_search_longer() {
        for seed in 0..20 {
            let mut random = Random::new(seed);
            let shape = Shape { pending: 60, ..Shape::small(&mut random, 7) };
            let cost = |digest: &Digest| placements(&in_turn(digest, Store::ZERO));
            let start = serial(&mut random, shape, &Store::ZERO);
            let climbed = climb(&mut random, start.clone(), shape, 200, cost);
            assert!(cost(&climbed) > cost(&start), "{start} to {climbed}");
        }
    }
}
