//! Captures of up to 2,048 events, with 10 transactions to judge or 64 to tally and to straighten, too large for the brute force:
//! the library against plain Rust, which judges them by trying alone, and against plain Rust that searches in the library's way.

use outside::coverage::{Coverage, Entry};
use outside::lent::lent_count;
use outside::marks::{careless, changed, in_effect, random_marking};
use outside::random::Random;
use outside::rounds;
use outside::simulate::{simulate, Faults, Plan};
use outside::stores::random_store;
use outside::straight;
use outside::views::Views;
use plain::{Straightened, Verdict};
use reference::event::Columns as Held;
use reference::log::Log;
use reference::marking_file::Marking;
use reference::{history_file, reads};
use sendoshi::{calls, Answer, Cause, History, Rule, Scan};

#[test]
fn the_library_says_what_plain_rust_says() {
    rounds::run((rounds::rounds() / 500).max(1), |random, _| {
        let log = capture(random);
        let (history, events, views) = (readable(&log), &log.events, Views::of(&log));
        assert_eq!(history.columns(), views.library());
        assert_eq!(history.store(), views.library_store());
        assert_eq!(history.transactions(), reads::transactions(events));
        assert_eq!(history.store_reads(), plain::store_reads(views.plain_store(), views.plain(), events.len()).unwrap());
        tallied(&history, &log);
        let by_trying = views.scan_by(plain::scan_by_trying);
        assert_eq!(history.scan().unwrap(), scan_of(by_trying));
        assert_eq!(views.scan_by(plain::scan), by_trying, "plain Rust in the library's way");
        for prefix in [events.len(), random.below(events.len() + 1)] {
            let found = views.find_by(plain::find_by_trying, prefix);
            assert_eq!(history.lowest_marking(prefix).unwrap(), found, "prefix {prefix}");
            assert_eq!(views.find_by(plain::find, prefix), found, "prefix {prefix}, plain Rust in the library's way");
            let guess = match found {
                Some(file) => Marking::read(&events[..prefix], &file).unwrap(),
                None => random_marking(random, &events[..prefix]),
            };
            verdicts(random, &history, &log, prefix, guess);
        }
    });
}

/// As many transactions as a history may have, and often as many events; and what had become of them at some time before.
#[test]
fn large_histories_are_tallied_as_in_plain_rust() {
    rounds::run((rounds::rounds() / 500).max(1), |random, _| {
        let log = full_capture(random);
        let (history, events) = (readable(&log), &log.events);
        let earlier = random.below(events.len());
        let before = Log { store: log.store, events: events[..earlier].to_vec() };
        tallied(&history, &log);
        tallied(&history.prefix(earlier).expect("a prefix"), &before);
    });
}

/// As many transactions as a history may have, and often as many events: the order in which they took effect, or nearly that,
/// with careless read points.
#[test]
fn large_markings_are_straightened_as_in_plain_rust() {
    let met = rounds::run((rounds::rounds() / 500).max(1), |random, coverage| {
        let log = full_capture(random);
        let order = in_effect(random, &log.events);
        let order = if random.one_in(4) { changed(random, order) } else { order };
        straightened(&log, &careless(random, order), coverage);
    });
    println!("{met}");
    met.allow();
    if rounds::rounds() >= 20_000 {
        met.require(Entry::Straighten, &[0, 205]);
    }
}

/// The history of a log, by its file. Plain Rust reads the same from it, and writes the same file.
fn readable(log: &Log) -> History {
    let (file, count) = (history_file::write(&log.store, &log.events), log.events.len());
    let (small, mut starts, mut values) = (vec![0; count], [0; 32], vec![0; count]);
    let (mut kinds, mut transactions, mut registers, mut threads) = (small.clone(), small.clone(), small.clone(), small);
    let read = plain::read(&file, &mut starts, &mut kinds, &mut transactions, &mut registers, &mut values, &mut threads);
    assert_eq!((read, starts), (Ok((log.store.edition, count)), log.store.starts));
    assert_eq!(Held { kinds, transactions, registers, values, threads }, Held::of(&log.events));
    let mut output = vec![0; file.len()];
    let views = Views::of(log);
    let written = plain::write(views.plain_store(), views.plain(), count, &mut output);
    assert_eq!((written, &output), (Ok(file.len()), &file));
    let history = History::read(&file).expect("a simulated log is readable");
    assert_eq!(history.to_bytes(), file);
    history
}

/// A tally against plain Rust and against the definition, which is quick enough for any history that is known to be readable.
fn tallied(history: &History, log: &Log) {
    let sendoshi::Tally { committed, aborted, pending, live } = history.tally();
    let views = Views::of(log);
    let by_plain = plain::tally(views.plain_store(), views.plain(), log.events.len());
    assert_eq!(by_plain, Ok(plain::Tally { committed, aborted, pending, live }));
    let by_definition = reference::tally::tally(&log.events);
    assert_eq!(by_definition, reference::tally::Tally { committed, aborted, pending, live });
    assert_eq!(committed + aborted + pending + live, history.transactions());
}

fn full_capture(random: &mut Random) -> Log {
    let wrong = Faults { reads: 1, commits: 5, answers: 5, lone_reads: 5 };
    let faults = [Faults::default(), Faults::default(), Faults::default(), wrong];
    let plan = Plan {
        transactions: 64,
        threads: 1 + random.below(16),
        registers: random.pick(&[2, 8, 32]),
        events: 2_048,
        length: random.pick(&[10, 15, 20]),
        lone: random.pick(&[0, 10, 50]),
        faults: random.pick(&faults),
    };
    let store = random_store(random, plan.registers, 1_000);
    simulate(random, store, plan)
}

fn straightened(log: &Log, marking: &Marking, coverage: &mut Coverage) {
    let (views, file, count) = (Views::of(log), marking.to_bytes(), log.events.len());
    let (mut output, mut list) = (vec![0xee; file.len() + 10], vec![0xeeee; marking.points.len() + 1]);
    let (mut other_output, mut other_list) = (output.clone(), list.clone());
    let answer = calls::straighten(views.library_store(), views.library(), lent_count(count), &file, &mut output, &mut list);
    let other = plain::straighten(views.plain_store(), views.plain(), count, &file, &mut other_output, &mut other_list);
    let expected = match other.unwrap() {
        Straightened::Done { length, moved } => (0, moved * 65_536 + length),
        Straightened::Broken(rule, event, transaction) => (201 + rule as u32 - 'A' as u32, event * 65_536 + transaction),
    };
    assert_eq!((answer.code, answer.place as usize), expected);
    assert_eq!((&output, &list), (&other_output, &other_list));
    straight::keeps_its_promises(views.held(), log, marking, answer, &output, &list);
    coverage.note(Entry::Straighten, answer.code);
}

fn capture(random: &mut Random) -> Log {
    let faults = [Faults::default(), Faults::default(), Faults { reads: 1, commits: 20, answers: 5, lone_reads: 20 }];
    let plan = Plan {
        transactions: 10,
        threads: 1 + random.below(4),
        registers: random.pick(&[2, 8, 32]),
        events: random.pick(&[100, 500, 2_048]),
        length: random.pick(&[10, 50, 100]),
        lone: random.pick(&[0, 20, 50]),
        faults: random.pick(&faults),
    };
    let store = random_store(random, plan.registers, 1_000);
    simulate(random, store, plan)
}

/// The verdicts on a marking and on some that differ from it.
fn verdicts(random: &mut Random, history: &History, log: &Log, prefix: usize, marking: Marking) {
    let (views, judged) = (Views::of(log), history.prefix(prefix).expect("a prefix"));
    let mut marking = marking;
    for _ in 0..4 {
        let file = marking.to_bytes();
        let verdict = match plain::check(views.plain_store(), views.plain(), prefix, &file).unwrap() {
            Verdict::Accepted => sendoshi::Verdict::Accepted,
            Verdict::Broken(rule, event, transaction) => {
                let rules = [Rule::A, Rule::B, Rule::C, Rule::D, Rule::E];
                let rule = rules[(rule as u8 - b'A') as usize];
                sendoshi::Verdict::Broken { rule, event, transaction: transaction as u16 }
            }
        };
        assert_eq!(judged.check(&file).unwrap(), verdict);
        marking = changed(random, marking);
    }
}

fn scan_of(answer: Answer) -> Scan {
    match answer.code {
        0 => Scan::Opaque,
        code => {
            let causes = [Cause::ReadReturned, Cause::Committed, Cause::Aborted, Cause::Other];
            Scan::Faulted { event: answer.place as usize, cause: causes[code as usize - 101] }
        }
    }
}
