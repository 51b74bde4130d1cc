//! Digests of five transactions and more, for which the search asks whether an order is still possible before it walks on: the
//! finder and the scan against every permutation run by force, against trying alone, and, where that would take too long, against
//! plain Rust that searches in the library's way.

use outside::compare;
use outside::coverage::{judgements, Coverage, Entry, Lone, Searched};
use outside::digest::Digest;
use outside::hard::{climbed, pending_chain, pending_pairs, pending_ring, two_destructive};
use outside::lone::{self, collapsed};
use outside::random::Random;
use outside::random_digest::{changed, serial, wild, Shape};
use outside::rounds;
use outside::schedule::{at_random, commits_first, in_turn, witness_breaking};
use outside::shapes::marking_size;
use outside::stores::random_store;
use outside::tables_by_force::Tables;
use outside::views::{lowest_order, Views};
use reference::entries;
use reference::event::*;
use reference::justification::Place;
use reference::log::Log;
use reference::marking_file::Marking;
use reference::store::Store;
use sendoshi::Answer;

#[test]
fn digests_are_judged_as_by_force() {
    let met = rounds::run(rounds::rounds(), |random, coverage| {
        let transactions = match random.below(250) {
            0..=4 => 2 + random.below(3),
            5..=207 => 5,
            208..=248 => 6,
            _ => 7,
        };
        // Every pending commit doubles what there is to run, and every transaction more makes it six or seven times as much.
        let pending = if transactions <= 5 { random.pick(&[20, 40, 40, 60, 80]) } else { random.pick(&[20, 40]) };
        let shape = Shape { pending, ..Shape::small(random, transactions) };
        let store = random_store(random, shape.registers, shape.values as u32);
        let digest = some_digest(random, shape, store);
        let log = some_history(random, &digest, store);
        judged_as_by_force(&digest, &log, coverage);
        judged_in_every_way(&digest, &log);
        if transactions <= 5 && random.one_in(100) {
            judged_by_definition(&log, coverage);
        }
    });
    println!("{met}");
    met.allow();
    if rounds::rounds() >= 20_000 {
        met.require(Entry::Find, judgements(Entry::Find));
        met.require(Entry::Scan, judgements(Entry::Scan));
        met.require_every_searched();
        met.require_lone(&[
            Lone::Read,
            Lone::ReadOfPending,
            Lone::ReadInVain,
            Lone::Write,
            Lone::WriteSeen,
            Lone::WriteSeenAlone,
        ]);
    }
}

#[test]
fn larger_digests_are_judged_as_by_trying() {
    let met = rounds::run((rounds::rounds() / 10).max(1), |random, coverage| {
        let transactions = 8 + random.below(3);
        let shape = Shape { pending: random.pick(&[15, 30]), ..Shape::small(random, transactions) };
        let store = random_store(random, shape.registers, shape.values as u32);
        let digest = some_digest(random, shape, store);
        let mut log = some_history(random, &digest, store);
        if random.chance(50) {
            log.events.truncate(random.below(log.events.len()));
        }
        if is_tried_quickly(&log) {
            judged_in_every_way(&digest, &log);
            note(lowest_order(&log).as_deref(), coverage);
            coverage.note(Entry::Scan, Views::of(&log).scan().code);
        } else {
            judged_as_in_plain_rust(&digest, &log);
        }
    });
    println!("{met}");
    if rounds::rounds() >= 20_000 {
        met.require(Entry::Scan, &[0, 101, 102]);
        met.require_every_searched();
    }
}

/// Does trying alone come to an end soon? One that does not is judged in the library's way only.
fn is_tried_quickly(log: &Log) -> bool {
    let (views, most) = (Views::of(log), 200_000);
    let scanned = plain::scan_by_trying_counting(views.plain_store(), views.plain(), views.count(), most);
    let found = plain::find_placements_by_trying(views.plain_store(), views.plain(), views.count(), most);
    scanned.expect("a log that is judged").is_some() && found.is_some()
}

/// Hard ones, for which trying alone may take hours, in histories of up to 2,048 events.
#[test]
fn hard_digests_are_judged_as_in_plain_rust() {
    let met = rounds::run((rounds::rounds() / 200).max(1), |random, coverage| {
        let transactions = 8 + random.below(3);
        let (registers, values) = (random.pick(&[4, 8, 16, 32]), random.pick(&[1, 2, 3]));
        let (reads, writes) = (random.pick(&[5, 15, 30]), random.pick(&[10, 30, 50]));
        let shape =
            Shape { transactions, registers, values, reads, writes, pending: 60, precede: 0, single: random.pick(&[0, 20]) };
        let store = random_store(random, registers, values as u32);
        let digest = climbed(random, shape, store, 60);
        let order = lowest_order(&in_turn(&digest, store)).unwrap_or_default();
        let filled = digest.filled(random.pick(&[0, 500, 2_048]));
        let logs = [commits_first(&filled, store, &order, random), witness_breaking(&filled, store, &order, random)];
        let collapsed = logs.each_ref().map(|log| collapsed(random, log, 100));
        for log in logs.into_iter().chain(collapsed) {
            judged_as_in_plain_rust(&digest, &log);
            note(lowest_order(&log).as_deref(), coverage);
            coverage.note(Entry::Scan, Views::of(&log).scan().code);
        }
    });
    println!("{met}");
    if rounds::rounds() >= 20_000 {
        met.require(Entry::Scan, &[0, 101]);
    }
}

#[test]
fn families_and_the_digests_of_the_benchmarks_are_judged_as_in_plain_rust() {
    let families = |n| [pending_chain(n, 0), pending_chain(n, 8), pending_ring(n, 0), two_destructive(n), pending_pairs(n)];
    for digest in (2..=9).flat_map(families) {
        judged_as_in_plain_rust(&digest, &in_turn(&digest, Store::ZERO));
        let filled = digest.filled(2_048);
        judged_as_in_plain_rust(&digest, &witness_breaking(&filled, Store::ZERO, &[], &mut Random::new(1)));
    }
    let climbed = include_str!("../benches/library/hard.txt").lines().filter(|line| !line.starts_with('#'));
    for digest in climbed.map(|line| line.parse::<Digest>().expect("a digest")) {
        judged_as_in_plain_rust(&digest, &in_turn(&digest, Store::ZERO));
    }
}

/// A wild one, one that is surely justified, one that nearly is, or a hard one.
fn some_digest(random: &mut Random, shape: Shape, store: Store) -> Digest {
    match random.below(20) {
        0..=4 => wild(random, shape),
        5..=12 => serial(random, shape, &store),
        13..=17 => {
            let justified = serial(random, shape, &store);
            changed(random, &justified, shape)
        }
        _ => climbed(random, shape, store, 20),
    }
}

/// In some, those that committed after a single access are lone accesses.
fn some_history(random: &mut Random, digest: &Digest, store: Store) -> Log {
    let log = match random.below(4) {
        0 => in_turn(digest, store),
        1 => {
            let order = lowest_order(&in_turn(digest, store)).unwrap_or_default();
            commits_first(digest, store, &order, random)
        }
        _ => at_random(digest, store, random),
    };
    if random.chance(40) {
        return collapsed(random, &log, 80);
    }
    log
}

/// The finder on every prefix that says more than the one before it, and the scan, against every permutation with every outcome.
fn judged_as_by_force(digest: &Digest, log: &Log, coverage: &mut Coverage) {
    let (views, mut scanned, mut lowest) = (Views::of(log), Answer { code: 0, place: 0 }, None);
    for prefix in 0..=log.events.len() {
        let judged = &log.events[..prefix];
        match judged.last().map(|event| event.kind) {
            Some(READ_CALLED | WRITE_RETURNED) => continue,
            // What is written counts from the commit call on.
            Some(WRITE_CALLED) => (),
            _ => lowest = Tables::of(&log.store, judged).lowest(),
        }
        let marking = lowest.as_ref().map(|order| Marking::of(judged, order).to_bytes());
        assert_eq!(views.find(prefix), marking, "the first {prefix} of {log:?}, a history of {digest}");
        coverage.note(Entry::Find, if lowest.is_some() { 0 } else { 100 });
        if lowest.is_none() && scanned.code == 0 {
            scanned = Answer { code: cause(judged), place: prefix as u32 - 1 };
        }
    }
    assert_eq!(views.scan(), scanned, "{log:?}, a history of {digest}");
    coverage.note(Entry::Scan, scanned.code);
    lone::note(&log.store, &log.events, entries::Answer { code: scanned.code, place: scanned.place }, coverage);
    note(lowest.as_deref(), coverage);
}

/// Notes what became of the search on a whole history.
fn note(lowest: Option<&[Place]>, coverage: &mut Coverage) {
    coverage.note_searched(match lowest {
        None => Searched::InVain,
        Some(order) if order.is_sorted() => Searched::Rising,
        Some(_) => Searched::NotRising,
    });
}

/// The scan's code for a first prefix without a justification.
fn cause(prefix: &[Event]) -> u32 {
    match prefix.last().expect("the empty history is justified").kind {
        READ_RETURNED | LONE_READ => 101,
        COMMITTED => 102,
        ABORTED => 103,
        kind => panic!("an event of kind {kind} takes a justification away"),
    }
}

/// The finder on the whole and the scan, by the library, by trying alone and by plain Rust in the library's way.
fn judged_in_every_way(digest: &Digest, log: &Log) {
    let (views, count) = (Views::of(log), log.events.len());
    let (found, scanned) = (views.find_by(plain::find_by_trying, count), views.scan_by(plain::scan_by_trying));
    assert_eq!(views.find(count), found, "{log:?}, a history of {digest}");
    assert_eq!(views.scan(), scanned, "{log:?}, a history of {digest}");
    assert_eq!(views.find_by(plain::find, count), found, "plain Rust on {log:?}, a history of {digest}");
    assert_eq!(views.scan_by(plain::scan), scanned, "plain Rust on {log:?}, a history of {digest}");
}

/// The same without trying alone.
fn judged_as_in_plain_rust(digest: &Digest, log: &Log) {
    let (views, count) = (Views::of(log), log.events.len());
    assert_eq!(views.find(count), views.find_by(plain::find, count), "{log:?}, a history of {digest}");
    assert_eq!(views.scan(), views.scan_by(plain::scan), "{log:?}, a history of {digest}");
}

/// The whole of it against the paper's definitions.
fn judged_by_definition(log: &Log, coverage: &mut Coverage) {
    let (columns, count) = (Columns::of(&log.events), log.events.len());
    let mut output = vec![0; marking_size(&log.events)];
    compare::find(&log.store, &columns, count, count, &mut output, coverage);
    compare::scan(&log.store, &columns, count, coverage);
}
