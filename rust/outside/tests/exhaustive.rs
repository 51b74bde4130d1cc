//! Every readable history of a few events on two threads, one register and the values 0 and 1: tallied and judged as the brute force
//! does it, in edition 1 and, where something is read, in edition 2 over a start value of 1. Those with lone accesses, each of which is
//! a transaction more, are fewer and all in edition 2. Of those that have store reads, and of some longer ones, every marking gets its
//! verdict and is straightened.

use outside::compare;
use outside::coverage::{judgements, Coverage, Entry, Started, LONE};
use outside::straight;
use reference::event::*;
use reference::justification::is_justification;
use reference::log::Log;
use reference::marking_file::{Marking, Point};
use reference::orders::{all_orders, all_outcomes};
use reference::questions::refused_in_columns;
use reference::reads::{store_reads, transactions};
use reference::store::Store;
use sendoshi::Answer;
use std::thread;

const MOST_EVENTS: usize = 7;

/// With lone accesses, events times transactions are at most this: seven events of two, five of three, four of four.
const MOST_ALONE: usize = 16;

/// Edition 2 in which every register starts at 0.
const ZEROS: Store = Store { edition: 2, ..Store::ZERO };

#[test]
fn every_small_history_is_judged_alike() {
    let (small, rest) = histories(3).into_iter().partition::<Vec<_>, _>(|history| history.len() < 3);
    let mut met = Coverage::default();
    small.iter().for_each(|history| judge(history, &mut met));
    // Each worker takes every other history of three events, and all that go on from there.
    let workers = thread::available_parallelism().map_or(1, |n| n.get());
    thread::scope(|scope| {
        let rest = &rest;
        let work = move |worker: usize| {
            let mut coverage = Coverage::default();
            rest.iter().skip(worker).step_by(workers).for_each(|history| judge_all(history, &mut coverage));
            coverage
        };
        let running: Vec<_> = (0..workers).map(|worker| scope.spawn(move || work(worker))).collect();
        running.into_iter().for_each(|worker| met.add(&worker.join().expect("a worker's comparison")));
    });
    println!("{met}");
    met.allow();
    // So few events are faulted by a read, or by an abort of what a lone read has seen.
    met.require(Entry::Scan, &[0, 101, 103]);
    met.require(Entry::Find, judgements(Entry::Find));
    met.require(Entry::Check, judgements(Entry::Check));
    met.require(Entry::Straighten, judgements(Entry::Straighten));
    met.require_every_tallied();
    met.require_started(&[Started::EditionOne, Started::NoStart, Started::Read, Started::Hidden]);
    met.require_started(&[Started::ReadInVain, Started::ZeroInVain]);
    met.require_lone(&LONE);
}

/// Histories with more writers and more reads: a point may be right at one gap, at some or at all.
#[test]
fn every_marking_of_some_longer_histories_is_judged_alike() {
    let begun = (0..4).fold(Log::new(), |log, thread| log.begin(thread));
    let written = begun.write(0, 0, 1).write(1, 0, 2).write(1, 1, 5).commit(0).commit_called(1);
    let read = written.read(2, 0, 1).read(2, 1, 0).read(3, 0, 2);
    let mut met = Coverage::default();
    let over_start = |log: &Log| Log { store: Store::of(&[(0, 1), (1, 5), (3, 7)]), ..log.clone() };
    let logs = [Log::h0(), Log::h7(), read, lone_between()];
    logs.iter().for_each(|log| judge_markings(log, &mut met));
    logs.iter().for_each(|log| judge_markings(&over_start(log), &mut met));
    println!("{met}");
    met.allow();
    met.require(Entry::Check, &[0, 201, 204, 205]);
    met.require(Entry::Straighten, &[0, 201, 205]);
}

/// T0 has read before T1, a lone write, hides what it read; the value of T2, which waits for its commit, is seen by T3, a lone read.
fn lone_between() -> Log {
    let log = Log { store: ZEROS, ..Log::new() }.begin(0).read(0, 0, 0).lone_write(1, 0, 1).begin(2).write(2, 0, 2);
    log.commit_called(2).lone_read(1, 0, 2)
}

/// All readable histories of at most so many events.
fn histories(most: usize) -> Vec<Vec<Event>> {
    let mut all = vec![vec![]];
    let mut at = 0;
    while at < all.len() {
        if all[at].len() < most {
            let longer = successors(&all[at]);
            all.extend(longer);
        }
        at += 1;
    }
    all
}

/// The histories with one event more that are readable in edition 2, as far as they are judged.
fn successors(history: &[Event]) -> Vec<Vec<Event>> {
    let mut longer = Vec::new();
    for kind in BEGIN..=LONE_WRITE {
        for transaction in 0..=transactions(history) as u16 {
            for (value, thread) in [(0, 0), (0, 1), (1, 0), (1, 1)] {
                let event = Event { kind, transaction, register: 0, value, thread };
                if refused_in_columns(2, history, &event).is_none() {
                    longer.push([history, &[event]].concat());
                }
            }
        }
    }
    longer.retain(|history| !has_lone(history) || size(history) <= MOST_ALONE);
    longer
}

fn has_lone(history: &[Event]) -> bool {
    history.iter().any(Event::is_lone)
}

fn size(history: &[Event]) -> usize {
    history.len() * transactions(history)
}

/// Is every marking judged? With lone accesses some histories have hundreds, and of those that are left out other tests judge some.
fn is_marked(history: &[Event]) -> bool {
    let points = store_reads(history).count();
    let few = transactions(history) + points <= 4 && size(history) <= 14;
    points > 0 && (few || !has_lone(history))
}

fn judge_all(history: &[Event], coverage: &mut Coverage) {
    judge(history, coverage);
    if history.len() < MOST_EVENTS {
        successors(history).iter().for_each(|longer| judge_all(longer, coverage));
    }
}

fn judge(history: &[Event], coverage: &mut Coverage) {
    let lone = has_lone(history);
    let (zeros, one) = (if lone { ZEROS } else { Store::ZERO }, Store::of(&[(0, 1)]));
    let (columns, count) = (Columns::of(history), history.len());
    compare::tally(&zeros, &columns, count, coverage);
    compare::counts(&zeros, &columns, count, coverage);
    judge_over(&zeros, history, coverage);
    if is_marked(history) && !lone {
        judge_markings(&Log { store: zeros, events: history.to_vec() }, coverage);
    }
    // A start value makes no difference where nothing is read.
    if history.iter().any(Event::is_read) {
        judge_over(&one, history, coverage);
    }
    if is_marked(history) {
        judge_markings(&Log { store: one, events: history.to_vec() }, coverage);
    }
}

fn judge_over(store: &Store, history: &[Event], coverage: &mut Coverage) {
    let (columns, count) = (Columns::of(history), history.len());
    let mut output = [0xee; 128];
    compare::scan(store, &columns, count, coverage);
    compare::find(store, &columns, count, count, &mut output, coverage);
}

/// Every order with every outcome and every gap.
fn judge_markings(log: &Log, coverage: &mut Coverage) {
    let Log { store, events } = log;
    let columns = Columns::of(events);
    for places in all_outcomes(transactions(events)).flat_map(all_orders) {
        for marking in all_gaps(events, Marking { places, points: vec![] }) {
            compare::check(store, &columns, events.len(), &marking.to_bytes(), coverage);
            straighten(log, &columns, &marking, coverage);
        }
    }
}

fn straighten(history: &Log, columns: &Columns, marking: &Marking, coverage: &mut Coverage) {
    let (mut output, mut list) = ([0xee; 128], [0xeeee; 8]);
    let Log { store, events } = history;
    let answer = compare::straighten(store, columns, events.len(), &marking.to_bytes(), &mut output, &mut list, coverage);
    let justified = is_justification(store, events, &marking.places);
    assert_eq!(answer.code == 0, justified, "a justification is straightened, and nothing else");
    let answer = Answer { code: answer.code, place: answer.place };
    straight::keeps_its_promises(columns, history, marking, answer, &output, &list);
}

/// The markings of an order with every gap for each store read.
fn all_gaps(history: &[Event], order: Marking) -> Vec<Marking> {
    let mut all = vec![order];
    for read in store_reads(history) {
        let with = |marking: &Marking, gap| {
            let mut marking = marking.clone();
            marking.points.push(Point { event: read as u32, gap });
            marking
        };
        all = all.iter().flat_map(|m| (0..=m.places.len() as u16).map(move |gap| with(m, gap))).collect();
    }
    all
}
