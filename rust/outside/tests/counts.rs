//! Counts, prefixes and lengths as large as they can be: what a refusal comes with is told exactly, and nothing is cut to fewer bits.

use outside::vast::Vast;
use reference::event::Columns as Held;
use reference::log::Log;
use reference::worked::h0_marking;
use sendoshi::answer::NONE;
use sendoshi::{calls, ffi, Answer, Columns, ColumnsMut, History, Place, Question, Refusal, Store};
use std::mem::transmute;

/// Numbers above the ten events of H0, up to the largest. Four of them are ten or less in their lower bits.
const BEYOND: [u32; 8] = [11, 65_535, 65_546, 256 + 10, 1 << 31, (1 << 31) + 10, u32::MAX - 1, u32::MAX];

/// A length that is two in its lower 32 bits.
const VAST: usize = (1 << 32) + 2;

fn h0() -> Held {
    Held::of(&Log::h0().events)
}

fn view(held: &Held) -> Columns<'_> {
    let Held { kinds, transactions, registers, values, threads } = held;
    Columns { kinds, transactions, registers, values, threads }
}

/// Every call that is given a count.
fn answers(store: Store, columns: Columns, count: u32) -> [Answer; 8] {
    [
        calls::write(store, columns, count, &mut []),
        calls::find(store, columns, count, 0, &mut []),
        calls::scan(store, columns, count),
        calls::check(store, columns, count, &[]),
        calls::straighten(store, columns, count, &[], &mut [], &mut []),
        calls::transactions(store, columns, count),
        calls::store_reads(store, columns, count),
        calls::tally(store, columns, count),
    ]
}

/// A count that the columns do not hold is refused with itself as its event, before anything is said of the store.
#[test]
fn a_count_beyond_the_columns_is_told_exactly() {
    let held = h0();
    // The last two are refused for their edition or their start values, but after the count.
    for (edition, starts) in [(1, [0; 32]), (2, [9; 32]), (1, [9; 32]), (3, [0; 32])] {
        let store = Store { edition, starts: &starts };
        for count in BEYOND {
            let refused = Answer { code: 17, place: count };
            assert_eq!(answers(store, view(&held), count), [refused; 8], "count {count}, edition {edition}");
        }
        assert!(answers(store, view(&held), 10).iter().all(|answer| answer.code != 17), "ten events are held");
    }
}

#[test]
fn a_prefix_beyond_the_count_is_refused_with_the_count() {
    for prefix in BEYOND {
        let answer = calls::find(Store::ZERO, view(&h0()), 10, prefix, &mut []);
        assert_eq!(answer, Answer { code: 18, place: 10 }, "prefix {prefix}");
    }
}

/// The columns of H0, going on with more than 2^32 zeros.
struct VastColumns {
    kinds: Vast<u16>,
    transactions: Vast<u16>,
    registers: Vast<u16>,
    values: Vast<u32>,
    threads: Vast<u16>,
}

impl VastColumns {
    fn new() -> VastColumns {
        let Held { kinds, transactions, registers, values, threads } = h0();
        VastColumns {
            kinds: Vast::new(&kinds, VAST),
            transactions: Vast::new(&transactions, VAST),
            registers: Vast::new(&registers, VAST),
            values: Vast::new(&values, VAST),
            threads: Vast::new(&threads, VAST),
        }
    }

    fn view(&self) -> Columns<'_> {
        Columns {
            kinds: self.kinds.slice(),
            transactions: self.transactions.slice(),
            registers: self.registers.slice(),
            values: self.values.slice(),
            threads: self.threads.slice(),
        }
    }
}

/// They hold every count: what is refused is the event behind H0, whose kind is 0.
#[test]
fn vast_columns_hold_every_count() {
    let vast = VastColumns::new();
    for count in BEYOND {
        assert_eq!(answers(Store::ZERO, vast.view(), count), [Answer { code: 4, place: 10 }; 8], "count {count}");
    }
    assert_eq!(answers(Store::ZERO, vast.view(), 10), answers(Store::ZERO, view(&h0()), 10));
    let refusal = Refusal { question: Question::EventKind, place: Place::Event(10) };
    assert_eq!(History::from_columns(vast.view()), Err(refusal));
}

/// One column that does not hold the count is enough, whichever it is.
#[test]
fn every_column_must_hold_the_count() {
    let (held, vast) = (h0(), VastColumns::new());
    let (short, long) = (view(&held), vast.view());
    let one_short = [
        Columns { kinds: short.kinds, ..long },
        Columns { transactions: short.transactions, ..long },
        Columns { registers: short.registers, ..long },
        Columns { values: short.values, ..long },
        Columns { threads: short.threads, ..long },
    ];
    for columns in one_short {
        for count in BEYOND {
            assert_eq!(answers(Store::ZERO, columns, count), [Answer { code: 17, place: count }; 8], "count {count}");
        }
        let refusal = Refusal { question: Question::CountTooLarge, place: Place::Event(VAST) };
        assert_eq!(History::from_columns(columns), Err(refusal));
    }
}

/// A file of more than 2^32 bytes is too long, whatever it begins with, a note among it.
#[test]
fn vast_files_are_too_long() {
    let (history, marking) = (Vast::new(&NOTED, VAST), Vast::new(&h0_marking(), VAST));
    let (held, mut read) = (h0(), h0());
    let Held { kinds, transactions, registers, values, threads } = &mut read;
    let columns = ColumnsMut { kinds, transactions, registers, values, threads };
    let too_long = Answer { code: 1, place: 0 };
    assert_eq!(calls::read(history.slice(), &mut [0; 32], columns), too_long);
    assert_eq!(calls::check(Store::ZERO, view(&held), 10, marking.slice()), too_long);
    assert_eq!(calls::straighten(Store::ZERO, view(&held), 10, marking.slice(), &mut [0; 42], &mut [0; 2]), too_long);
    for from in [0, 6, 7].into_iter().chain(BEYOND) {
        let mut note = [0xeeee; 3];
        assert_eq!(calls::next_note(history.slice(), from, &mut note), Answer { code: NONE, place: 0 }, "from {from}");
        assert_eq!(note, [0xeeee; 3]);
    }
    assert_eq!(sendoshi::notes(history.slice()).next(), None);
}

/// A head and a note, ten bytes.
const NOTED: [u8; 10] = [4, 0, 1, 0, 1, 0, 2, 0, 48, 0];

/// From a byte beyond the file there is no note, whatever the lower bits of its number are.
#[test]
fn no_note_is_found_beyond_the_file() {
    for from in (7..=10).chain(BEYOND).chain([65_536, 65_536 + 6, 256 + 6, 1 << 16, (1 << 31) + 6]) {
        let mut note = [0xeeee; 3];
        assert_eq!(calls::next_note(&NOTED, from, &mut note), Answer { code: NONE, place: 0 }, "from {from}");
        assert_eq!(note, [0xeeee; 3], "from {from}");
    }
    let mut note = [0xeeee; 3];
    assert_eq!(calls::next_note(&NOTED, 6, &mut note), Answer { code: 0, place: 0 });
    assert_eq!(note, [0, 10, 0]);
}

type W = u64;

/// A function of the archive as the processor sees it: on x86-64 each number and each pointer is passed in a word of 64 bits.
type Words = unsafe extern "C" fn(W, W, W, W, W, W, W, W, W, W, W, W, W, W, W, W, W, W, W) -> u64;

/// # Safety
/// The words are those of the function's parameters, of which it has at most 19; it does not look at those behind them.
unsafe fn called(function: *const (), words: &[&[W]]) -> Answer {
    let mut all = words.concat();
    all.resize(19, 0);
    let &[a, b, c, d, e, f, g, h, i, j, k, l, m, n, o, p, q, r, s] = &all[..] else { panic!("more than 19 words") };
    Answer::of(transmute::<*const (), Words>(function)(a, b, c, d, e, f, g, h, i, j, k, l, m, n, o, p, q, r, s))
}

/// The archive takes counts, prefixes and the byte from which a note is looked for in 32 bits, as header and wrapper declare them: what a
/// caller leaves in the upper half of a word makes no difference.
#[test]
fn counts_have_32_bits_in_the_archive() {
    let (held, starts, file) = (h0(), [0u32; 32], h0_marking());
    let Held { kinds, transactions, registers, values, threads } = &held;
    let pointers = [kinds, transactions, registers, threads].map(|column| column.as_ptr() as W);
    let [k, t, r, d] = pointers;
    let columns = [k, 10, t, 10, r, 10, values.as_ptr() as W, 10, d, 10];
    let marking = [file.as_ptr() as W, file.len() as W];
    let (mut output, mut moved) = ([0u8; 88], [0u32; 2]);
    let (output, moved) = ([output.as_mut_ptr() as W, 88], [moved.as_mut_ptr() as W, 2]);
    for above in [1 << 32, 0xdead_beef << 32, W::MAX << 32] {
        let (store, count, prefix) = ([above | 1, starts.as_ptr() as W], [above | 10], [above | 6]);
        // SAFETY: the words are those that the header asks for; the buffers live through the calls and overlap nowhere.
        let answers = unsafe {
            [
                called(ffi::sendoshi_write as *const (), &[&store, &columns, &count, &output]),
                called(ffi::sendoshi_find as *const (), &[&store, &columns, &count, &prefix, &output]),
                called(ffi::sendoshi_scan as *const (), &[&store, &columns, &count]),
                called(ffi::sendoshi_check as *const (), &[&store, &columns, &count, &marking]),
                called(ffi::sendoshi_straighten as *const (), &[&store, &columns, &count, &marking, &output, &moved]),
                called(ffi::sendoshi_transactions as *const (), &[&store, &columns, &count]),
                called(ffi::sendoshi_store_reads as *const (), &[&store, &columns, &count]),
                called(ffi::sendoshi_tally as *const (), &[&store, &columns, &count]),
            ]
        };
        // H0 has 88 bytes and its marking 42; that of its first six events has a read point less.
        let expected = [88, 32, 0, 0, 42, 2, 2, 0x0100_0001].map(|place| Answer { code: 0, place });
        assert_eq!(answers, expected, "with {above:x} above each number");
        let (mut note, history) = ([0u32; 3], [NOTED.as_ptr() as W, NOTED.len() as W]);
        // SAFETY: as above.
        let found = unsafe { called(ffi::sendoshi_next_note as *const (), &[&history, &[above | 6], &[note.as_mut_ptr() as W]]) };
        assert_eq!((found, note), (Answer { code: 0, place: 0 }, [0, 10, 0]), "with {above:x} above the byte");
    }
}
