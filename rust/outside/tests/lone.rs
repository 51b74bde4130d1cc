//! Accesses outside transactions: records of kinds 24 and 25 that are wrong in several ways at once, in files and in columns, and random
//! histories with such accesses judged like the histories in which each is written out as a transaction.

use outside::compare;
use outside::coverage::{judgements, Coverage, Entry, LONE};
use outside::lent::lent_count;
use outside::lone::{self, Expanded};
use outside::marks::{careless, changed, random_marking};
use outside::random::Random;
use outside::rounds;
use outside::shapes::marking_size;
use outside::simulate::{simulate, Faults, Plan};
use outside::stores::random_store;
use outside::views::Views;
use outside::walk::{walk, Shape};
use reference::entries;
use reference::event::*;
use reference::history_file;
use reference::log::Log;
use reference::marking_file::{Marking, Point};
use reference::record::record;
use reference::store::Store;
use sendoshi::{calls, Answer};

/// A history behind which a lone access comes: a transaction runs on thread 7, and there is room for another event and another
/// transaction or not.
struct Before {
    log: Log,
    full: bool,
    crowded: bool,
}

const BUSY: u16 = 7;

impl Before {
    fn new(full: bool, crowded: bool) -> Before {
        let ended = if crowded { 63 } else { 0 };
        let mut log = (0..ended).fold(Log::new(), |log, t| log.begin(0).aborted(t)).begin(BUSY);
        while full && log.events.len() < 2_047 {
            log = log.read(ended, 3, 0);
        }
        while full && log.events.len() < 2_048 {
            log = log.read_called(ended, 3);
        }
        Before { log, full, crowded }
    }

    fn begun(&self) -> u16 {
        if self.crowded {
            64
        } else {
            1
        }
    }

    /// The questions that a lone access behind it is asked, after those of its kind and its size, and what they are answered with.
    fn asked(&self, event: Event) -> [(u32, bool); 6] {
        [
            (6, !self.full),
            (7, !self.crowded),
            (8, event.transaction == self.begun()),
            (9, event.thread < 16),
            (10, event.thread != BUSY),
            (12, event.register < 32),
        ]
    }
}

/// Both kinds of access with numbers, threads and registers that are right and wrong.
fn accesses(before: &Before) -> Vec<Event> {
    let (next, mut all) = (before.begun(), Vec::new());
    for kind in [LONE_READ, LONE_WRITE] {
        for transaction in [next, next - 1, next + 256] {
            for thread in [0, 15, BUSY, 16, 256 + BUSY] {
                for register in [31, 32, 65_535] {
                    all.push(Event { kind, transaction, register, value: 0x0102_0304, thread });
                }
            }
        }
    }
    all
}

fn all_before() -> Vec<Before> {
    [(false, false), (false, true), (true, false), (true, true)].map(|(full, crowded)| Before::new(full, crowded)).into()
}

/// A record that is wrong in any number of ways is refused by the first question that says no: 4, 5, 6, 7, 8, 9, 10, 12.
#[test]
fn a_lone_record_meets_its_questions_in_order() {
    let mut met = Coverage::default();
    for before in all_before() {
        for event in accesses(&before) {
            for (edition, size) in [(1, 10), (1, 9), (2, 10), (2, 9), (2, 11), (2, 4), (2, 0)] {
                meets_in_file(&before, event, edition, size, &mut met);
            }
        }
    }
    met.allow();
    met.require(Entry::Read, &[0, 4, 5, 6, 7, 8, 9, 10, 12]);
}

fn meets_in_file(before: &Before, event: Event, edition: u16, size: usize, coverage: &mut Coverage) {
    let store = Store { edition, ..Store::ZERO };
    let mut file = history_file::write(&store, &before.log.events);
    let byte = file.len() as u32;
    let mut body = history_file::write(&store, &[event])[6 + 4..].to_vec(); // behind the head, a length and a kind
    body.resize(size, 0);
    file.extend(record(event.kind, &body));
    let first = [(4, edition == 2), (5, size == 10)];
    let refused = first.into_iter().chain(before.asked(event)).find(|&(_, yes)| !yes);
    let events = [&before.log.events[..], &[event]].concat();
    let done = Answer { code: 0, place: 2 * 65_536 + events.len() as u32 };
    let expected = refused.map_or(done, |(code, _)| Answer { code, place: byte });
    let mut columns = Columns::of(&vec![Event { kind: 0xeeee, ..event }; events.len()]);
    let entries::Answer { code, place } = compare::read(&file, &mut [0xeeee; 32], &mut columns, coverage);
    let answer = Answer { code, place };
    assert_eq!(answer, expected, "{event:?} of {size} bytes in edition {edition}, at byte {byte}");
    let untouched = columns.kinds.iter().all(|&kind| kind == 0xeeee);
    assert_eq!(untouched, answer.code != 0, "columns are filled where nothing is refused");
    if answer.code == 0 {
        assert_eq!(columns, Columns::of(&events));
    }
}

/// Every call that is given columns.
fn answers(log: &Log) -> [Answer; 8] {
    let views = Views::of(log);
    let (store, columns, count) = (views.library_store(), views.library(), lent_count(views.count()));
    [
        calls::write(store, columns, count, &mut []),
        calls::find(store, columns, count, count, &mut []),
        calls::scan(store, columns, count),
        calls::check(store, columns, count, &[]),
        calls::straighten(store, columns, count, &[], &mut [], &mut []),
        calls::transactions(store, columns, count),
        calls::store_reads(store, columns, count),
        calls::tally(store, columns, count),
    ]
}

/// The same in columns: 3, 4, 6, 7, 8, 9, 10, 12, by every call. A value is never asked for.
#[test]
fn a_lone_event_meets_its_questions_in_order() {
    for before in all_before() {
        for event in accesses(&before) {
            for edition in [1, 2, 3] {
                let events = [&before.log.events[..], &[event]].concat();
                let (at, count) = (before.log.events.len() as u32, events.len() as u32);
                let first = [(3, count, edition != 3), (4, at, edition == 2)];
                let own = before.asked(event).map(|(code, yes)| (code, at, yes));
                let refused = first.into_iter().chain(own).find(|&(_, _, yes)| !yes);
                let got = answers(&Log { store: Store { edition, ..Store::ZERO }, events });
                match refused {
                    Some((code, place, _)) => assert_eq!(got, [Answer { code, place }; 8], "{event:?} in edition {edition}"),
                    None => assert!(got.iter().all(|answer| ![3, 4, 6, 7, 8, 9, 10, 11, 12, 13, 16].contains(&answer.code))),
                }
            }
        }
    }
}

/// A lone access has begun and ended: no event of its transaction follows, its number is not free, and its thread is.
#[test]
fn a_lone_access_leaves_its_thread_free_and_its_number_taken() {
    let events = |kind| Log::starting(&[]).event(kind, 0, 3, 0, 5);
    for log in [events(LONE_READ), events(LONE_WRITE)] {
        let refused = |log: &Log, code| assert_eq!(answers(log), [Answer { code, place: 1 }; 8], "{log:?}");
        for kind in [READ_CALLED, READ_RETURNED, WRITE_CALLED, WRITE_RETURNED, COMMIT_CALLED, COMMITTED, ABORTED] {
            refused(&log.clone().event(kind, 0, 0, 0, 0), 11);
        }
        for kind in [BEGIN, LONE_READ, LONE_WRITE] {
            refused(&log.clone().event(kind, 0, 0, 0, 5), 8);
            let next = log.clone().event(kind, 1, 0, 0, 5);
            let [_, _, scanned, _, _, transactions, store_reads, tally] = answers(&next);
            assert_eq!((scanned.code, transactions), (0, Answer { code: 0, place: 2 }), "{next:?}");
            let reads = next.events.iter().filter(|e| e.kind == LONE_READ).count();
            assert_eq!(store_reads, Answer { code: 0, place: reads as u32 });
            let live = usize::from(kind == BEGIN);
            assert_eq!((tally.code, tally.quarters()), (0, [2 - live, 0, 0, live]));
        }
    }
}

/// A file whose events one column does not hold is refused by 14, and a count that one does not hold by 17, whichever it is.
#[test]
fn every_column_must_hold_the_events() {
    let log = Log::starting(&[(3, 9)]).lone_read(1, 3, 9).begin(1).lone_write(2, 3, 7).read(1, 3, 7).lone_read(0, 3, 7);
    let (file, count) = (history_file::write(&log.store, &log.events), log.events.len());
    let mut met = Coverage::default();
    for short in 0..5 {
        let mut columns = Columns::of(&log.events);
        match short {
            0 => drop(columns.kinds.pop()),
            1 => drop(columns.transactions.pop()),
            2 => drop(columns.registers.pop()),
            3 => drop(columns.values.pop()),
            _ => drop(columns.threads.pop()),
        }
        let read = compare::read(&file, &mut [0xeeee; 32], &mut columns, &mut met);
        assert_eq!((read.code, read.place as usize), (14, file.len()), "column {short}");
        let (begun, reads) = compare::counts(&log.store, &columns, count, &mut met);
        let tally = compare::tally(&log.store, &columns, count, &mut met);
        let scanned = compare::scan(&log.store, &columns, count, &mut met);
        for answer in [begun, reads, tally, scanned] {
            assert_eq!((answer.code, answer.place as usize), (17, count), "column {short}");
        }
    }
}

/// Each lone access of a random history, written out as begin, call, answer, commit called and committed, with nothing in between: every
/// answer is the same, where its events are those that were written out.
#[test]
fn a_lone_access_is_judged_like_the_transaction_it_stands_for() {
    let met = rounds::run((rounds::rounds() / 4).max(1), |random, coverage| {
        let log = history(random);
        let expanded = Expanded::of(&log);
        counted_alike(&log, &expanded);
        scanned_alike(&log, &expanded, coverage);
        let prefix = if random.chance(50) { log.events.len() } else { random.below(log.events.len() + 1) };
        let lowest = found_alike(&log, &expanded, prefix);
        let judged = Log { store: log.store, events: log.events[..prefix].to_vec() };
        let marking = match lowest {
            Some(lowest) if random.chance(40) => careless(random, lowest),
            Some(lowest) if random.chance(60) => changed(random, lowest),
            _ => random_marking(random, &judged.events),
        };
        marked_alike(&judged, &expanded, &marking, coverage);
    });
    println!("{met}");
    met.allow();
    if rounds::rounds() >= 20_000 {
        met.require(Entry::Scan, judgements(Entry::Scan));
        met.require(Entry::Check, judgements(Entry::Check));
        met.require(Entry::Straighten, judgements(Entry::Straighten));
        met.require_lone(&LONE);
    }
}

/// A walk or what a transactional memory does, with lone accesses, in edition 2 and of at most ten transactions.
fn history(random: &mut Random) -> Log {
    let log = some_history(random);
    match log.events.iter().any(Event::is_lone) {
        true => log,
        false => lone::collapsed(random, &log, 100),
    }
}

fn some_history(random: &mut Random) -> Log {
    let transactions = 2 + random.below(9);
    if random.chance(60) {
        let shape = Shape { transactions, lone: random.pick(&[30, 60]), ..Shape::small(random) };
        return walk(random, shape);
    }
    let faults = [Faults::default(), Faults { reads: 20, commits: 50, answers: 20, lone_reads: 30 }];
    let plan = Plan { transactions, lone: random.pick(&[30, 60]), faults: random.pick(&faults), ..Plan::small(random) };
    let store = random_store(random, plan.registers, 9);
    simulate(random, store, plan)
}

fn counted_alike(log: &Log, expanded: &Expanded) {
    let (views, other) = (Views::of(log), Views::of(&expanded.log));
    for call in [calls::transactions, calls::store_reads, calls::tally] {
        let answer = call(views.library_store(), views.library(), lent_count(views.count()));
        let written_out = call(other.library_store(), other.library(), lent_count(other.count()));
        assert_eq!(answer, written_out, "{log:?}");
        assert_eq!(answer.code, 0, "{log:?}");
    }
}

fn scanned_alike(log: &Log, expanded: &Expanded, coverage: &mut Coverage) {
    let (answer, written_out) = (Views::of(log).scan(), Views::of(&expanded.log).scan());
    let place = match answer.code {
        0 => 0,
        _ => expanded.read(answer.place as usize) as u32,
    };
    assert_eq!(Answer { place, ..answer }, written_out, "{log:?}");
    coverage.note(Entry::Scan, answer.code);
    lone::note(&log.store, &log.events, entries::Answer { code: answer.code, place: answer.place }, coverage);
}

/// The lowest marking of a prefix, which has the same places and the same gaps.
fn found_alike(log: &Log, expanded: &Expanded, prefix: usize) -> Option<Marking> {
    let judged = &log.events[..prefix];
    let found = Views::of(log).find(prefix).map(|file| Marking::read(judged, &file).expect("the finder's marking is readable"));
    let written_out = Views::of(&expanded.log).find(expanded.prefix(prefix));
    assert_eq!(found.as_ref().map(|marking| expand(marking, expanded).to_bytes()), written_out, "the first {prefix} of {log:?}");
    found
}

/// The marking of the history in which the lone accesses are written out.
fn expand(marking: &Marking, expanded: &Expanded) -> Marking {
    let point = |point: &Point| Point { event: expanded.read(point.event as usize) as u32, ..*point };
    Marking { places: marking.places.clone(), points: marking.points.iter().map(point).collect() }
}

/// The verdict on a marking, and what straightening makes of it. `judged` is a prefix of the log that was expanded.
fn marked_alike(judged: &Log, expanded: &Expanded, marking: &Marking, coverage: &mut Coverage) {
    let written_out = Log { store: judged.store, events: expanded.log.events[..expanded.prefix(judged.events.len())].to_vec() };
    let (views, other) = (Views::of(judged), Views::of(&written_out));
    let (file, other_file) = (marking.to_bytes(), expand(marking, expanded).to_bytes());
    assert_eq!(file.len(), marking_size(&judged.events));
    let checked = calls::check(views.library_store(), views.library(), lent_count(views.count()), &file);
    let other_checked = calls::check(other.library_store(), other.library(), lent_count(other.count()), &other_file);
    assert_eq!(moved_to(checked, expanded), other_checked, "{marking:?} of {judged:?}");
    coverage.note(Entry::Check, checked.code);
    let (answer, straight, list) = straightened(&views, &file);
    let (other_answer, other_straight, other_list) = straightened(&other, &other_file);
    assert_eq!(moved_to(answer, expanded), other_answer, "{marking:?} of {judged:?}");
    coverage.note(Entry::Straighten, answer.code);
    if answer.code == 0 {
        let straight = Marking::read(&judged.events, &straight).expect("a straightened marking is readable");
        assert_eq!(expand(&straight, expanded).to_bytes(), other_straight);
        assert_eq!(list.iter().map(|&event| expanded.read(event as usize) as u32).collect::<Vec<_>>(), other_list);
    }
}

/// The answer with the event of its rule, if it has one, as the history has it in which the lone accesses are written out.
fn moved_to(answer: Answer, expanded: &Expanded) -> Answer {
    let (event, transaction) = answer.halves();
    let event = match answer.code {
        201 => expanded.last(event),
        202 => expanded.begin(event),
        203..=205 => expanded.read(event),
        _ => return answer,
    };
    Answer { place: (event * 65_536 + transaction) as u32, ..answer }
}

/// The answer, and what stands in output and list up to what it says.
fn straightened(views: &Views, file: &[u8]) -> (Answer, Vec<u8>, Vec<u32>) {
    let (mut output, mut list) = (vec![0; file.len()], vec![0; views.count()]);
    let count = lent_count(views.count());
    let answer = calls::straighten(views.library_store(), views.library(), count, file, &mut output, &mut list);
    list.truncate(if answer.code == 0 { answer.halves().0 } else { 0 });
    (answer, output, list)
}
