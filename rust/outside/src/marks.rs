//! Random markings, and markings that are not quite what they were.

use crate::random::Random;
use crate::simulate::{simulate, Plan};
use crate::stores::random_store;
use crate::walk::{walk, Shape};
use reference::event::*;
use reference::justification::{is_allowed, place_of, Outcome, Place};
use reference::log::Log;
use reference::marking_file::{Marking, Point};
use reference::reads::{store_reads, transactions};

/// A readable marking of a history: outcomes mostly allowed, points mostly at their readers.
pub fn random_marking(random: &mut Random, history: &[Event]) -> Marking {
    let all = transactions(history);
    let order = if random.chance(50) { (0..all).collect() } else { random.order(all) };
    let places: Vec<Place> = order.into_iter().map(|t| random_place(random, history, t as u16)).collect();
    let points = store_reads(history)
        .map(|read| {
            let at_reader = place_of(&places, history[read].transaction);
            let gap = if random.chance(70) { at_reader } else { random.below(all + 1) };
            Point { event: read as u32, gap: gap as u16 }
        })
        .collect();
    Marking { places, points }
}

fn random_place(random: &mut Random, history: &[Event], transaction: u16) -> Place {
    let outcome = random.pick(&[Outcome::Aborted, Outcome::Committed]);
    let place = Place { transaction, outcome };
    if is_allowed(history, place) || random.chance(5) {
        return place;
    }
    match outcome {
        Outcome::Aborted => Place { transaction, outcome: Outcome::Committed },
        Outcome::Committed => Place { transaction, outcome: Outcome::Aborted },
    }
}

/// The same outcomes and order with careless read points: most of them at a random gap.
pub fn careless(random: &mut Random, mut marking: Marking) -> Marking {
    let gaps = marking.places.len() + 1;
    for point in &mut marking.points {
        if random.chance(80) {
            point.gap = random.below(gaps) as u16;
        }
    }
    marking
}

/// A small history and a marking of it: a walk with a random marking, or what a transactional memory does, in the right order with
/// careless read points.
pub fn marked_history(random: &mut Random) -> (Log, Marking) {
    if random.chance(50) {
        let shape = Shape::small(random);
        let log = walk(random, shape);
        let marking = random_marking(random, &log.events);
        return (log, marking);
    }
    let plan = Plan::small(random);
    let store = random_store(random, plan.registers, 9);
    let log = simulate(random, store, plan);
    let order = in_effect(random, &log.events);
    let marking = careless(random, order);
    (log, marking)
}

/// The marking of a log of [`simulate`](crate::simulate) in the order in which its transactions took effect. It is a justification if
/// nothing went wrong, and each unanswered commit is taken as what it was.
pub fn in_effect(random: &mut Random, history: &[Event]) -> Marking {
    let all = 0..transactions(history) as u16;
    let mut effects: Vec<(usize, Place)> = all.map(|transaction| effect(random, history, transaction)).collect();
    effects.sort_by_key(|&(event, _)| event);
    let places: Vec<Place> = effects.into_iter().map(|(_, place)| place).collect();
    Marking::of(history, &places)
}

/// A transaction with an allowed outcome, and the event at which it took effect: a committed one's call of commit, which is when its
/// writes come into the store, a lone access's only one, and another's begin, when it found what it reads.
fn effect(random: &mut Random, history: &[Event], transaction: u16) -> (usize, Place) {
    let outcomes = [Outcome::Aborted, Outcome::Committed].map(|outcome| Place { transaction, outcome });
    let allowed: Vec<Place> = outcomes.into_iter().filter(|&place| is_allowed(history, place)).collect();
    let place = random.pick(&allowed);
    let kind = match place.outcome {
        Outcome::Aborted => BEGIN,
        Outcome::Committed => COMMIT_CALLED,
    };
    let event = history.iter().position(|e| e.transaction == transaction && (e.kind == kind || e.is_lone()));
    (event.expect("a transaction begins, and calls commit before it has committed"), place)
}

/// A readable marking changed in one place, still readable.
pub fn changed(random: &mut Random, mut marking: Marking) -> Marking {
    let places = marking.places.len();
    match random.below(4) {
        0 if places > 1 => {
            let at = random.below(places - 1);
            marking.places.swap(at, at + 1);
        }
        1 if places > 0 => {
            let place = &mut marking.places[random.below(places)];
            place.outcome = match place.outcome {
                Outcome::Aborted => Outcome::Committed,
                Outcome::Committed => Outcome::Aborted,
            };
        }
        _ if !marking.points.is_empty() => {
            let at = random.below(marking.points.len());
            marking.points[at].gap = random.below(places + 1) as u16;
        }
        _ => (),
    }
    marking
}
