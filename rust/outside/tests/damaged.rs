//! Damaged files, markings and columns: refused with the number and at the place that the brute force gives, buffers untouched.

use outside::compare;
use outside::coverage::{refusals, Coverage, ENTRIES};
use outside::damage;
use outside::limits;
use outside::marks::random_marking;
use outside::notes;
use outside::random::Random;
use outside::rounds;
use outside::shapes::{columns_for, columns_of, is_judged_quickly, list_for, marking_size, output_for};
use outside::stores::{damaged_store, random_store, starts_for};
use outside::walk::{walk, Shape};
use reference::event::{Columns, Event};
use reference::log::Log;
use reference::notes::without_notes;
use reference::reads::store_reads;
use reference::store::Store;
use reference::{history_file, record, worked};
use std::sync::atomic::{AtomicU64, Ordering::Relaxed};

#[test]
fn what_is_refused_is_refused_alike() {
    // Some rounds leave their file or their marking as it was: half as many again are run.
    let rounds = rounds::rounds();
    let (files, markings) = (AtomicU64::new(0), AtomicU64::new(0));
    let mut met = rounds::run(rounds + rounds / 2, |random, coverage| {
        let log = history(random);
        files.fetch_add(u64::from(file(random, &log, coverage)), Relaxed);
        columns(random, &log, coverage);
        markings.fetch_add(u64::from(marking(random, &log, coverage)), Relaxed);
    });
    limits(&mut met);
    println!("{met}");
    met.allow();
    // A few rounds, as where one seed is run again, need not meet everything.
    if rounds >= 20_000 {
        assert!(files.into_inner() >= rounds && markings.into_inner() >= rounds, "so many files and markings are damaged");
        ENTRIES.into_iter().for_each(|entry| met.require(entry, &refusals(entry)));
    }
}

/// Every entry at each limit and one step beyond it, in both editions.
fn limits(coverage: &mut Coverage) {
    let all_start = Store { edition: 2, starts: [u32::MAX; 32] };
    for events in limits::histories() {
        for store in [Store::ZERO, all_start, Store { edition: 1, ..all_start }] {
            at_limit(&store, &events, coverage);
        }
    }
    for (size, store) in [32_767, 32_768, 32_769, 70_000].into_iter().flat_map(|size| [(size, Store::ZERO), (size, all_start)]) {
        let events = Log::h0().events;
        let mut file = history_file::write(&store, &events);
        file.resize(size, 0);
        compare::read(&file, &mut [0xeeee; 32], &mut Columns::of(&events), coverage);
        let mut file = worked::h0_marking();
        file.resize(size, 0);
        let lent = Columns::of(&events);
        compare::check(&store, &lent, events.len(), &file, coverage);
        compare::straighten(&store, &lent, events.len(), &file, &mut vec![0xee; size], &mut [0xeeee; 2], coverage);
    }
}

fn at_limit(store: &Store, events: &[Event], coverage: &mut Coverage) {
    let (lent, count) = (Columns::of(events), events.len());
    let mut output = vec![0xee; record::LONGEST_FILE];
    compare::read(&history_file::write(store, events), &mut [0xeeee; 32], &mut lent.clone(), coverage);
    compare::write(store, &lent, count, &mut output, coverage);
    compare::counts(store, &lent, count, coverage);
    compare::tally(store, &lent, count, coverage);
    compare::check(store, &lent, count, &[4, 0, 2, 0, 1, 0], coverage);
    compare::straighten(store, &lent, count, &[4, 0, 2, 0, 1, 0], &mut output, &mut vec![0xeeee; count], coverage);
    if is_judged_quickly(events) {
        compare::scan(store, &lent, count, coverage);
        compare::find(store, &lent, count, count, &mut output, coverage);
    }
}

/// Mostly a small walk. Now and then one with as many transactions or events as a limit allows, or one more.
fn history(random: &mut Random) -> Log {
    let events = match random.below(4_000) {
        0 => limits::long(random.pick(&[2_047, 2_048, 2_049])),
        1..=40 => limits::serial(random.pick(&[63, 64, 65])),
        41..=140 => limits::concurrent(random.pick(&[10, 11, 12])),
        141..=180 => limits::alone(random.pick(&[11, 12, 63, 64, 65])),
        _ => {
            let shape = Shape::small(random);
            return walk(random, shape);
        }
    };
    Log { store: random_store(random, 32, 9), events }
}

/// True where the file is not what it was.
fn file(random: &mut Random, log: &Log, coverage: &mut Coverage) -> bool {
    let bare = history_file::write(&log.store, &log.events);
    let sound = if random.chance(30) { notes::scattered(random, &bare).file } else { bare };
    let file = damage::file(random, sound.clone());
    compare::next_note(&file, random.below(file.len() + 2) as u32, &mut [0xeeee; 3], coverage);
    let (mut starts, mut columns) = (starts_for(random), columns_for(random, log.events.len()));
    let answer = compare::read(&file, &mut starts, &mut columns, coverage);
    if answer.code == 0 {
        let mut again = vec![0; record::LONGEST_FILE];
        let (edition, count) = ((answer.place >> 16) as u16, (answer.place & 0xffff) as usize);
        let written = compare::write(&Store { edition, starts }, &columns, count, &mut again, coverage);
        assert_eq!(again[..written.place as usize], without_notes(&file), "a file that is read and written again");
    }
    file != sound
}

fn columns(random: &mut Random, log: &Log, coverage: &mut Coverage) {
    let marking = random_marking(random, &log.events).to_bytes();
    let marking = damage::file(random, marking);
    let store = damaged_store(random, log.store);
    let events = damage::events(random, log.events.clone());
    let lent = columns_of(random, &events);
    let lent = damage::columns(random, lent);
    let count = match random.below(20) {
        0 => random.below(events.len() + 3),
        1 => {
            let word = random.word() as u32;
            random.pick(&[word, word >> 16, 65_536 + events.len() as u32, u32::MAX - 1, u32::MAX]) as usize
        }
        _ => events.len(),
    };
    let mut output = output_for(random, history_file::write(&store, &events).len());
    compare::write(&store, &lent, count, &mut output, coverage);
    compare::counts(&store, &lent, count, coverage);
    compare::tally(&store, &lent, count, coverage);
    compare::check(&store, &lent, count, &marking, coverage);
    straighten(random, &store, &lent, count, &marking, coverage);
    if is_judged_quickly(&held(&lent, count)) {
        compare::scan(&store, &lent, count, coverage);
    }
    let prefix = match random.below(10) {
        0 => (count + 1 + random.below(2)).min(u32::MAX as usize),
        1..=6 => count,
        _ => random.below(events.len() + 1),
    };
    let judged = held(&lent, prefix);
    if is_judged_quickly(&judged) {
        let mut output = output_for(random, marking_size(&judged));
        compare::find(&store, &lent, count, prefix, &mut output, coverage);
    }
}

/// The first events of columns, as many as every column holds.
fn held(columns: &Columns, count: usize) -> Vec<Event> {
    (0..count).take_while(|&at| columns.hold(at + 1)).map(|at| columns.event(at)).collect()
}

/// True where the marking is not what it was.
fn marking(random: &mut Random, log: &Log, coverage: &mut Coverage) -> bool {
    let Log { store, events } = log;
    let sound = random_marking(random, events).to_bytes();
    let file = damage::file(random, sound.clone());
    let lent = columns_of(random, events);
    compare::check(store, &lent, events.len(), &file, coverage);
    straighten(random, store, &lent, events.len(), &file, coverage);
    file != sound
}

/// With an output and a list that are perhaps too short, so that question 15 meets those before it.
fn straighten(random: &mut Random, store: &Store, lent: &Columns, count: usize, file: &[u8], coverage: &mut Coverage) {
    let mut output = output_for(random, file.len());
    let mut list = list_for(random, store_reads(&held(lent, count)).count());
    compare::straighten(store, lent, count, file, &mut output, &mut list, coverage);
}
