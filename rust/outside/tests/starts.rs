//! Editions and start values: every start record that can be wrong in several ways, stores that are refused, and prefixes.

use outside::compare;
use outside::coverage::{Coverage, Entry};
use outside::lent::lent_count;
use outside::limits;
use reference::event::{Columns as Held, BEGIN, LONE_READ, LONE_WRITE};
use reference::history_file::{self, start_record, START};
use reference::justification::Outcome::Aborted;
use reference::log::Log;
use reference::record::record;
use reference::store::Store as HeldStore;
use reference::worked::marking;
use sendoshi::{calls, Answer, Columns, Store};

fn view(held: &Held) -> Columns<'_> {
    let Held { kinds, transactions, registers, values, threads } = held;
    Columns { kinds, transactions, registers, values, threads }
}

/// A start record that is wrong in any number of ways is refused by the first question that says no: 4, 5, 43, 41, 42. It stands
/// behind no event, one, in edition 2 also a lone access, or as many as a history may have, and behind a start of register 3.
#[test]
fn a_start_record_meets_its_questions_in_order() {
    let mut met = Coverage::default();
    let full = history_file::write(&HeldStore::ZERO, &limits::long(2_048))[6..].to_vec();
    let (all, second) = (&[1, 2, 3][..], &[2][..]);
    let alone = [LONE_READ, LONE_WRITE].map(|kind| (record(kind, &[0; 10]), second));
    for (before, editions) in [(vec![], all), (record(BEGIN, &[0; 4]), all), (full, all)].into_iter().chain(alone) {
        for size in [0, 2, 4, 5, 6, 7, 8] {
            for register in [0, 3, 4, 31, 32, 35, 260, 65_535] {
                for value in [0, 1, 65_536, u32::MAX] {
                    editions.iter().for_each(|&edition| meets(edition, &before, size, register, value, &mut met));
                }
            }
        }
    }
    met.allow();
    met.require(Entry::Read, &[0, 3, 4, 5, 41, 42, 43]);
}

fn meets(edition: u16, before: &[u8], size: usize, register: u16, value: u32, coverage: &mut Coverage) {
    let first = if edition == 2 { start_record(3, 9) } else { vec![] };
    let mut file = [&record(history_file::HEAD, &edition.to_le_bytes())[..], &first, before].concat();
    let byte = file.len();
    let asked = [
        (3, 0, edition != 3),
        (4, byte, edition == 2),
        (5, byte, size == 6),
        (43, byte, before.is_empty()),
        (41, byte, register > 3 && register < 32),
        (42, byte, value != 0),
    ];
    let refused = asked.into_iter().find(|&(_, _, yes)| !yes);
    let expected = refused.map_or((0, 2 * 65_536), |(number, place, _)| (number, place));
    let mut body = start_record(register, value)[4..].to_vec();
    body.resize(size, 0);
    file.extend(record(START, &body));
    let answer = compare::read(&file, &mut [0xeeee; 32], &mut Held::default(), coverage);
    let got = (answer.code, answer.place as usize);
    assert_eq!(got, expected, "edition {edition}, {register} := {value}, {size} bytes, at byte {byte}");
}

/// Each register alone and all together: what is written is read back, and what is read is what was written.
#[test]
fn start_values_of_every_register_come_back() {
    let mut met = Coverage::default();
    let alone =
        (0..32).flat_map(|register| [1, 255, 256, 65_536, 1 << 24, u32::MAX].map(|value| HeldStore::of(&[(register, value)])));
    let rising: Vec<(u16, u32)> = (0..32).map(|register| (register, u32::from(register) * 0x0101_0101 + 1)).collect();
    for store in alone.chain([HeldStore::of(&rising), HeldStore::of(&[]), HeldStore::ZERO]) {
        let file = history_file::write(&store, &Log::h0().events);
        let (mut starts, mut columns, mut output) = ([0xeeee; 32], Held::of(&Log::h0().events), vec![0xee; file.len()]);
        let read = compare::read(&file, &mut starts, &mut columns, &mut met);
        assert_eq!((read.code, read.place, starts), (0, u32::from(store.edition) * 65_536 + 10, store.starts));
        let mut untouched = [0xeeee; 32];
        let short = compare::read(&file, &mut untouched, &mut Held::of(&Log::h0().events[..9]), &mut met);
        assert_eq!((short.code, short.place as usize, untouched), (14, file.len(), [0xeeee; 32]), "columns for nine events");
        let written = compare::write(&store, &columns, 10, &mut output, &mut met);
        assert_eq!((written.code, written.place as usize), (0, file.len()));
        assert_eq!(output, file);
        assert_eq!(compare::write(&store, &columns, 10, &mut output[1..], &mut met).code, 15, "a byte too short");
        // Register and value are the judges' too.
        for (register, start) in (0..).zip(store.starts) {
            let log = Log { store, ..Log::new().begin(0).read(0, register, start) };
            assert_eq!(compare::scan(&store, &Held::of(&log.events), 3, &mut met).code, 0, "{register} reads {start}");
        }
    }
}

/// A store that is refused is refused right after a count that is too large: before a prefix that is too long, before events that are
/// wrong, before a marking that is none and before outputs that are too short.
#[test]
fn stores_are_refused_right_after_counts() {
    let wrong = Held::of(&Log::new().aborted(0).begin(16).events);
    let refused = [(1, [9; 32]), (0, [0; 32]), (3, [0; 32]), (258, [9; 32]), (65_535, [0; 32])];
    for held in [Held::of(&Log::h0().events), wrong, Held::default()] {
        let (columns, count) = (view(&held), lent_count(held.kinds.len()));
        for (edition, starts) in &refused {
            let store = Store { edition: *edition, starts };
            let answer = Answer { code: 3, place: count };
            for prefix in [0, count, count + 1, u32::MAX] {
                assert_eq!(calls::find(store, columns, count, prefix, &mut []), answer, "edition {edition}, prefix {prefix}");
            }
            let answers = [
                calls::write(store, columns, count, &mut []),
                calls::scan(store, columns, count),
                calls::check(store, columns, count, &[]),
                calls::straighten(store, columns, count, &[], &mut [], &mut []),
                calls::transactions(store, columns, count),
                calls::store_reads(store, columns, count),
                calls::tally(store, columns, count),
            ];
            assert_eq!(answers, [answer; 7], "edition {edition}");
        }
        // A single start value that is not 0 is enough, wherever it stands and whichever of its bytes it is in.
        for (register, value) in (0..32).flat_map(|register| [1, 256, 65_536, 1 << 24].map(|value| (register, value))) {
            let mut starts = [0; 32];
            starts[register] = value;
            let store = Store { edition: 1, starts: &starts };
            let answers = [calls::scan(store, columns, count), calls::tally(store, columns, count)];
            assert_eq!(answers, [Answer { code: 3, place: count }; 2], "register {register} starts with {value}");
        }
    }
}

/// Each prefix of a history is judged over the history's own store, whether it is the finder's prefix or the count of another call.
#[test]
fn prefixes_keep_their_start_values() {
    // T0 reads the start value, then T1 hides it and T2 reads what T1 wrote.
    let log = Log::starting(&[(3, 9)]).begin(0).read(0, 3, 9).begin(1).write(1, 3, 7).commit(1).begin(2).read(2, 3, 7);
    let (held, count) = (Held::of(&log.events), lent_count(log.events.len()));
    let (store, columns) = (Store { edition: 2, starts: &log.store.starts }, view(&held));
    let one = marking(&[(0, Aborted)], &[(2, 0)]);
    let two = marking(&[(0, Aborted), (1, Aborted)], &[(2, 0)]);
    for (prefix, lowest) in [(3, &one), (4, &two), (6, &two), (7, &two)] {
        let (mut output, mut again, mut list) = (vec![0; lowest.len()], vec![0; lowest.len()], [0; 1]);
        let found = calls::find(store, columns, count, prefix, &mut output);
        assert_eq!((found.code, &output), (0, lowest), "prefix {prefix}");
        assert_eq!(calls::check(store, columns, prefix, lowest).code, 0, "prefix {prefix}");
        assert_eq!(calls::scan(store, columns, prefix).code, 0, "prefix {prefix}");
        let straightened = calls::straighten(store, columns, prefix, lowest, &mut again, &mut list);
        assert_eq!((straightened.code, &again), (0, lowest), "prefix {prefix}");
        // Over zeros nobody left the 9 that was read.
        assert_eq!(calls::find(Store::ZERO, columns, count, prefix, &mut output).code, 100, "prefix {prefix}");
        assert_eq!(calls::check(Store::ZERO, columns, prefix, lowest).code, 205, "prefix {prefix}");
    }
    assert_eq!(calls::scan(store, columns, count).code, 0);
    assert_eq!(calls::scan(Store::ZERO, columns, count), Answer { code: 101, place: 2 });
}
