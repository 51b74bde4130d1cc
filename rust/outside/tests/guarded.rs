//! Every call on buffers that stand against a page that may not be touched: before them, then behind them. The answers and the buffers
//! afterwards are those of the same call on other memory.

use outside::damage;
use outside::guarded::{Guarded, Side};
use outside::lent::lent_count;
use outside::limits;
use outside::marks::marked_history;
use outside::notes::scattered;
use outside::random::Random;
use outside::rounds;
use outside::shapes::{columns_for, columns_of, list_for, marking_size, output_for};
use outside::stores::{damaged_store, starts_for};
use reference::event::Columns as Held;
use reference::history_file;
use reference::log::Log;
use reference::reads::store_reads;
use reference::store::Store as HeldStore;
use sendoshi::{calls, Answer, Columns, ColumnsMut, Store};
use std::os::unix::process::ExitStatusExt;
use std::process::Command;
use std::{env, ptr};

const SIDES: [Side; 2] = [Side::Before, Side::Behind];

#[test]
fn no_call_reaches_beyond_a_buffer() {
    rounds::run((rounds::rounds() / 20).max(1), |random, _| {
        let (log, marking) = marked_history(random);
        let (file, marking) = (history_file::write(&log.store, &log.events), marking.to_bytes());
        let file = if random.chance(50) { scattered(random, &file).file } else { file };
        all_calls(random, &log, &file, &marking);
        let file = damage::file(random, file);
        let marking = damage::file(random, marking);
        let log = Log { store: damaged_store(random, log.store), events: damage::events(random, log.events) };
        all_calls(random, &log, &file, &marking);
    });
    let mut random = Random::new(0);
    for events in limits::histories() {
        for store in [HeldStore::ZERO, HeldStore { edition: 2, starts: [9; 32] }] {
            let file = history_file::write(&store, &events);
            all_calls(&mut random, &Log { store, events: events.clone() }, &file, &[4, 0, 2, 0, 1, 0]);
        }
    }
}

/// Reading one entry too many ends the program, so that the comparison above would not go unnoticed.
#[test]
fn a_touch_beyond_a_buffer_is_stopped() {
    const TOUCH: &str = "SENDOSHI_TOUCH";
    if let Ok(side) = env::var(TOUCH) {
        let side = if side == "before" { Side::Before } else { Side::Behind };
        let guarded = Guarded::new(&[7u16, 8, 9], side);
        assert_eq!(guarded.slice(), [7, 8, 9]);
        // SAFETY: none. The page may not be touched, and the program ends here.
        println!("{}", unsafe { ptr::read_volatile(guarded.beyond(side)) });
        return;
    }
    for side in ["before", "behind"] {
        let mut again = Command::new(env::current_exe().expect("this test's own file"));
        let output = again.args(["--exact", "a_touch_beyond_a_buffer_is_stopped"]).env(TOUCH, side).output().expect("it runs");
        assert_eq!(output.status.signal(), Some(11), "a touch {side} the buffer");
    }
}

fn all_calls(random: &mut Random, log: &Log, file: &[u8], marking: &[u8]) {
    let Log { store, events } = log;
    let held = Given { store: *store, columns: columns_of(random, events) };
    let prefix = random.below(events.len() + 1);
    let (starts, lent) = (starts_for(random), columns_for(random, events.len()));
    let written = output_for(random, history_file::write(store, events).len());
    let found = output_for(random, marking_size(&events[..prefix]));
    let (count, prefix) = (lent_count(events.len()), lent_count(prefix));
    let straight = output_for(random, marking.len());
    let moved = list_for(random, store_reads(events).count());
    let bytes = [0, random.below(file.len() + 1) as u32, u32::MAX];
    for side in SIDES {
        read(side, file, &starts, &lent);
        next_notes(side, file, bytes);
        let guarded = GuardedGiven::new(&held, side);
        let marking_file = Guarded::new(marking, side);
        both(&guarded, &held, |store, columns| calls::scan(store, columns, count));
        both(&guarded, &held, |store, columns| calls::transactions(store, columns, count));
        both(&guarded, &held, |store, columns| calls::store_reads(store, columns, count));
        both(&guarded, &held, |store, columns| calls::tally(store, columns, count));
        let checked = calls::check(guarded.store(), guarded.columns.view(), count, marking_file.slice());
        assert_eq!(checked, calls::check(held.store(), view(&held.columns), count, marking));
        fill(side, &guarded, &held, &written, |store, columns, output| calls::write(store, columns, count, output));
        fill(side, &guarded, &held, &found, |store, columns, output| calls::find(store, columns, count, prefix, output));
        straighten(side, &guarded, &held, count, &marking_file, &straight, &moved);
        assert!(guarded.holds(&held) && marking_file.slice() == marking, "a buffer that is only read has changed");
    }
}

fn read(side: Side, file: &[u8], starts: &[u32; 32], lent: &Held) {
    let (mut guarded_starts, mut columns) = (Guarded::new(starts, side), GuardedColumns::new(lent, side));
    let (mut plain_starts, mut plain) = (*starts, lent.clone());
    let Held { kinds, transactions, registers, values, threads } = &mut plain;
    let expected = calls::read(file, &mut plain_starts, ColumnsMut { kinds, transactions, registers, values, threads });
    let file = Guarded::new(file, side);
    assert_eq!(calls::read(file.slice(), guarded_starts.starts_mut(), columns.view_mut()), expected);
    assert_eq!(guarded_starts.starts(), &plain_starts, "the reader left other start values");
    assert!(columns.hold(&plain), "the reader left other columns");
}

/// The first note from each of some bytes on, into three numbers that keep the one found before.
fn next_notes(side: Side, file: &[u8], bytes: [u32; 3]) {
    let (guarded_file, mut guarded, mut plain) = (Guarded::new(file, side), Guarded::new(&[0xeeee; 3], side), [0xeeee; 3]);
    for from in bytes {
        let expected = calls::next_note(file, from, &mut plain);
        assert_eq!(calls::next_note(guarded_file.slice(), from, guarded.note_mut()), expected);
        assert_eq!(guarded.slice(), plain);
    }
    assert_eq!(guarded_file.slice(), file, "a file that is only read has changed");
}

/// A call that only reads.
fn both(guarded: &GuardedGiven, held: &Given, call: impl Fn(Store, Columns) -> Answer) {
    assert_eq!(call(guarded.store(), guarded.columns.view()), call(held.store(), view(&held.columns)));
}

/// A call that fills an output.
fn fill(side: Side, guarded: &GuardedGiven, held: &Given, output: &[u8], call: impl Fn(Store, Columns, &mut [u8]) -> Answer) {
    let mut guarded_output = Guarded::new(output, side);
    let mut plain = output.to_vec();
    let expected = call(held.store(), view(&held.columns), &mut plain);
    assert_eq!(call(guarded.store(), guarded.columns.view(), guarded_output.slice_mut()), expected);
    assert_eq!(guarded_output.slice(), plain);
}

/// The straightener, which fills an output and a list.
fn straighten(side: Side, given: &GuardedGiven, held: &Given, count: u32, file: &Guarded<u8>, output: &[u8], list: &[u32]) {
    let (mut guarded, mut guarded_list) = (Guarded::new(output, side), Guarded::new(list, side));
    let (plain_file, mut plain, mut plain_list) = (file.slice().to_vec(), output.to_vec(), list.to_vec());
    let expected = calls::straighten(held.store(), view(&held.columns), count, &plain_file, &mut plain, &mut plain_list);
    let (output, list) = (guarded.slice_mut(), guarded_list.slice_mut());
    assert_eq!(calls::straighten(given.store(), given.columns.view(), count, file.slice(), output, list), expected);
    assert_eq!((guarded.slice(), guarded_list.slice()), (&plain[..], &plain_list[..]));
}

fn view(held: &Held) -> Columns<'_> {
    let Held { kinds, transactions, registers, values, threads } = held;
    Columns { kinds, transactions, registers, values, threads }
}

/// What a call is given of a history: its store and its columns.
struct Given {
    store: HeldStore,
    columns: Held,
}

impl Given {
    fn store(&self) -> Store<'_> {
        Store { edition: self.store.edition, starts: &self.store.starts }
    }
}

struct GuardedGiven {
    edition: u16,
    starts: Guarded<u32>,
    columns: GuardedColumns,
}

impl GuardedGiven {
    fn new(held: &Given, side: Side) -> GuardedGiven {
        let starts = Guarded::new(&held.store.starts, side);
        GuardedGiven { edition: held.store.edition, starts, columns: GuardedColumns::new(&held.columns, side) }
    }

    fn store(&self) -> Store<'_> {
        Store { edition: self.edition, starts: self.starts.starts() }
    }

    fn holds(&self, held: &Given) -> bool {
        self.starts.slice() == held.store.starts && self.columns.hold(&held.columns)
    }
}

struct GuardedColumns {
    kinds: Guarded<u16>,
    transactions: Guarded<u16>,
    registers: Guarded<u16>,
    values: Guarded<u32>,
    threads: Guarded<u16>,
}

impl GuardedColumns {
    fn new(held: &Held, side: Side) -> GuardedColumns {
        GuardedColumns {
            kinds: Guarded::new(&held.kinds, side),
            transactions: Guarded::new(&held.transactions, side),
            registers: Guarded::new(&held.registers, side),
            values: Guarded::new(&held.values, side),
            threads: Guarded::new(&held.threads, side),
        }
    }

    fn view(&self) -> Columns<'_> {
        Columns {
            kinds: self.kinds.slice(),
            transactions: self.transactions.slice(),
            registers: self.registers.slice(),
            values: self.values.slice(),
            threads: self.threads.slice(),
        }
    }

    fn view_mut(&mut self) -> ColumnsMut<'_> {
        ColumnsMut {
            kinds: self.kinds.slice_mut(),
            transactions: self.transactions.slice_mut(),
            registers: self.registers.slice_mut(),
            values: self.values.slice_mut(),
            threads: self.threads.slice_mut(),
        }
    }

    fn hold(&self, held: &Held) -> bool {
        self.kinds.slice() == held.kinds
            && self.transactions.slice() == held.transactions
            && self.registers.slice() == held.registers
            && self.values.slice() == held.values
            && self.threads.slice() == held.threads
    }
}
