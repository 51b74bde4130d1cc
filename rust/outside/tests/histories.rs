//! Random small histories and their prefixes: what the library says of them is what the brute force says.

use outside::compare;
use outside::coverage::{judgements, Coverage, Entry, ENTRIES, LONE, STARTED};
use outside::marks::{careless, changed, random_marking};
use outside::notes::{self, Remarked};
use outside::random::Random;
use outside::rounds;
use outside::shapes::{columns_for, columns_of, list_for, marking_size, output_for};
use outside::simulate::{simulate, Faults, Plan};
use outside::stores::{random_store, starts_for};
use outside::straight;
use outside::walk::{walk, Shape};
use reference::entries::NONE;
use reference::event::Columns;
use reference::history_file;
use reference::justification::is_justification;
use reference::log::Log;
use reference::marking_file::Marking;
use sendoshi::Answer;

#[test]
fn the_library_says_what_the_brute_force_says() {
    let met = rounds::run(rounds::rounds(), |random, coverage| {
        let log = history(random);
        let (columns, count) = (columns_of(random, &log.events), log.events.len());
        files(random, &log, &columns, coverage);
        compare::counts(&log.store, &columns, count, coverage);
        compare::tally(&log.store, &columns, count, coverage);
        let scanned = compare::scan(&log.store, &columns, count, coverage);
        let random_one = random.below(count + 1);
        compare::tally(&log.store, &columns, random_one, coverage);
        // The finder on every prefix; markings of the whole, of the random one, and of those on both sides of the fault.
        for prefix in 0..=count {
            let marking = found(random, &log, &columns, prefix, coverage);
            let fault = scanned.code != 0 && (prefix == scanned.place as usize || prefix == scanned.place as usize + 1);
            if prefix == count || prefix == random_one || fault {
                let judged = Log { store: log.store, events: log.events[..prefix].to_vec() };
                markings(random, &judged, &columns, marking, coverage);
            }
        }
    });
    println!("{met}");
    met.allow();
    // A few rounds, as where one seed is run again, need not meet everything.
    if rounds::rounds() >= 20_000 {
        ENTRIES.into_iter().for_each(|entry| met.require(entry, judgements(entry)));
        met.require(Entry::Straighten, &[15]);
        met.require_every_tallied();
        met.require_started(&STARTED);
        met.require_lone(&LONE);
    }
}

/// A walk, or what a transactional memory does, right or wrong, over some store.
fn history(random: &mut Random) -> Log {
    if random.chance(60) {
        let shape = Shape::small(random);
        return walk(random, shape);
    }
    let faults = [
        Faults::default(),
        Faults { reads: 30, ..Faults::default() },
        Faults { commits: 100, ..Faults::default() },
        Faults { reads: 60, answers: 70, ..Faults::default() },
        Faults { reads: 20, commits: 100, answers: 20, lone_reads: 20 },
        Faults { lone_reads: 60, ..Faults::default() },
    ];
    let plan = Plan { faults: random.pick(&faults), ..Plan::small(random) };
    let store = random_store(random, plan.registers, 9);
    simulate(random, store, plan)
}

/// Writing and reading, which undo each other.
fn files(random: &mut Random, log: &Log, columns: &Columns, coverage: &mut Coverage) {
    let Log { store, events } = log;
    let file = history_file::write(store, events);
    let mut output = output_for(random, file.len());
    let written = compare::write(store, columns, events.len(), &mut output, coverage);
    if written.code == 0 {
        assert_eq!(output[..written.place as usize], file);
    }
    // Half of the files have notes, which are not written again.
    let bare = Remarked { file: file.clone(), notes: vec![] };
    let remarked = if random.chance(50) { notes::scattered(random, &file) } else { bare };
    remarks(random, &remarked, coverage);
    let (mut starts, mut back) = (starts_for(random), columns_for(random, events.len()));
    let read = compare::read(&remarked.file, &mut starts, &mut back, coverage);
    if read.code == 0 {
        let mut again = vec![0; file.len()];
        assert_eq!(read.place as usize, usize::from(store.edition) * 65_536 + events.len());
        assert_eq!(starts, store.starts, "the reader's start values are the history's");
        assert!((0..events.len()).all(|at| back.event(at) == events[at]), "the reader's columns hold the events");
        compare::write(store, &back, events.len(), &mut again, coverage);
        assert_eq!(again, file, "a file that is read and written again");
    }
}

/// The first note behind one of them or behind none, which is the next that was put in.
fn remarks(random: &mut Random, remarked: &Remarked, coverage: &mut Coverage) {
    let Remarked { file, notes } = remarked;
    let passed = random.below(notes.len() + 1);
    let from = passed.checked_sub(1).map_or(0, |last| notes[last][1] + notes[last][2]);
    let mut note = [0xeeee; 3];
    let found = compare::next_note(file, from, &mut note, coverage);
    let (code, expected) = notes.get(passed).map_or((NONE, [0xeeee; 3]), |&next| (0, next));
    assert_eq!((found.code, note), (code, expected), "from {from}");
}

/// The finder's marking of a prefix, which the checker accepts.
fn found(random: &mut Random, log: &Log, columns: &Columns, prefix: usize, coverage: &mut Coverage) -> Option<Marking> {
    let judged = &log.events[..prefix];
    let mut output = output_for(random, marking_size(judged));
    let answer = compare::find(&log.store, columns, log.events.len(), prefix, &mut output, coverage);
    if answer.code != 0 {
        assert!(answer.code == 32 || answer.code == NONE);
        return None;
    }
    let file = &output[..answer.place as usize];
    assert_eq!(compare::check(&log.store, columns, prefix, file, coverage).code, 0, "the finder's marking is accepted");
    Some(Marking::read(judged, file).expect("the finder's marking is readable"))
}

/// Verdicts on a random marking, on markings that differ from another in one place, and on a right order with careless read points;
/// and what straightening makes of each.
fn markings(random: &mut Random, judged: &Log, columns: &Columns, lowest: Option<Marking>, coverage: &mut Coverage) {
    let guess = random_marking(random, &judged.events);
    let mut all = vec![changed(random, guess.clone()), guess];
    if let Some(lowest) = lowest {
        all.push(changed(random, lowest.clone()));
        all.push(careless(random, lowest));
    }
    for marking in all {
        compare::check(&judged.store, columns, judged.events.len(), &marking.to_bytes(), coverage);
        straightened(random, judged, columns, &marking, coverage);
    }
}

fn straightened(random: &mut Random, judged: &Log, columns: &Columns, marking: &Marking, coverage: &mut Coverage) {
    let file = marking.to_bytes();
    let (mut output, mut list) = (output_for(random, file.len()), list_for(random, marking.points.len()));
    let Log { store, events } = judged;
    let answer = compare::straighten(store, columns, events.len(), &file, &mut output, &mut list, coverage);
    let long_enough = output.len() >= file.len() && list.len() >= marking.points.len();
    assert_eq!(answer.code != 15, long_enough, "question 15");
    if long_enough {
        assert_eq!(
            answer.code == 0,
            is_justification(store, events, &marking.places),
            "a justification is straightened, and nothing else"
        );
        let answer = Answer { code: answer.code, place: answer.place };
        straight::keeps_its_promises(columns, judged, marking, answer, &output, &list);
    }
}
