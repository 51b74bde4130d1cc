//! One capture with its buffers, and each job done by the library and by plain Rust.

use crate::earlier::{Earlier, EarlierColumns};
use crate::measure::{measure, Measured};
use outside::lent::lent_count;
use outside::views::{find_answer, scan_answer};
use plain::{Scanned, Straightened, Tally, Verdict};
use reference::event::{Columns as Held, Event, BEGIN};
use reference::history_file;
use reference::log::Log;
use reference::store::Store as HeldStore;
use sendoshi::{calls, Answer, Columns, ColumnsMut, Store};
use std::hint::black_box;

/// A capture, in columns that the reader may fill.
pub struct Capture {
    pub file: Vec<u8>,
    held_store: HeldStore,
    held: Held,
    /// The registers as an earlier version of four columns takes them.
    earlier_registers: Vec<u16>,
    count: usize,
    output: Vec<u8>,
}

impl Capture {
    /// One of edition 1.
    pub fn new(events: &[Event]) -> Capture {
        Capture::of(&Log { store: HeldStore::ZERO, events: events.to_vec() })
    }

    pub fn of(log: &Log) -> Capture {
        let Log { store, events } = log;
        let earlier_register = |event: &Event| if event.kind == BEGIN { event.thread } else { event.register };
        Capture {
            file: history_file::write(store, events),
            held_store: *store,
            held: Held::of(events),
            earlier_registers: events.iter().map(earlier_register).collect(),
            count: events.len(),
            output: vec![0; 32_768],
        }
    }

    /// The number of events, as the library takes it.
    fn lent_count(&self) -> u32 {
        lent_count(self.count)
    }

    fn store(&self) -> Store<'_> {
        Store { edition: self.held_store.edition, starts: &self.held_store.starts }
    }

    fn library(&self) -> Columns<'_> {
        let Held { kinds, transactions, registers, values, threads } = &self.held;
        Columns { kinds, transactions, registers, values, threads }
    }

    fn plain_store(&self) -> plain::Store<'_> {
        plain::Store { edition: self.held_store.edition, starts: &self.held_store.starts }
    }

    fn plain(&self) -> plain::Columns<'_> {
        let Held { kinds, transactions, registers, values, threads } = &self.held;
        plain::Columns { kinds, transactions, registers, values, threads }
    }

    fn earlier(&self, earlier: &Earlier) -> EarlierColumns<'_> {
        let Held { kinds, transactions, registers, values, threads } = &self.held;
        if earlier.threads {
            return EarlierColumns { kinds, transactions, registers, values, threads: Some(threads) };
        }
        EarlierColumns { kinds, transactions, registers: &self.earlier_registers, values, threads: None }
    }

    pub fn read(&self) -> Measured {
        let mut held = self.held.clone();
        let mut other = self.held.clone();
        let file = &self.file;
        let library = |held: &mut Held| {
            let Held { kinds, transactions, registers, values, threads } = held;
            let columns = ColumnsMut { kinds, transactions, registers, values, threads };
            let answer = calls::read(black_box(file), &mut [0; 32], columns);
            (answer.code == 0).then_some(answer.halves().1)
        };
        let plain = |held: &mut Held| {
            let Held { kinds, transactions, registers, values, threads } = held;
            let read = plain::read(black_box(file), &mut [0; 32], kinds, transactions, registers, values, threads);
            read.ok().map(|(_, count)| count)
        };
        assert_eq!(library(&mut held), Some(self.count));
        assert_eq!(plain(&mut other), Some(self.count));
        assert_eq!(held, other);
        measure(|| library(&mut held), || plain(&mut other))
    }

    /// The notes of the file, so many, each found from behind the one before it on.
    pub fn notes(&self, count: usize) -> Measured {
        let file = &self.file;
        let library = || {
            let (mut note, mut found) = ([0; 3], 0);
            while calls::next_note(black_box(file), note[1] + note[2], &mut note).code == 0 {
                found += 1;
            }
            found
        };
        let plain = || {
            let next = |note: &plain::Note| plain::next_note(black_box(file), note.start + note.length);
            std::iter::successors(plain::next_note(black_box(file), 0), next).count()
        };
        assert_eq!((library(), plain()), (count, count));
        measure(library, plain)
    }

    pub fn write(&self) -> Measured {
        let mut output = self.output.clone();
        let mut other = self.output.clone();
        let library =
            |output: &mut [u8]| calls::write(self.store(), black_box(self.library()), self.lent_count(), output).place as usize;
        let plain = |output: &mut [u8]| plain::write(self.plain_store(), black_box(self.plain()), self.count, output).ok();
        assert_eq!(Some(library(&mut output)), plain(&mut other));
        assert_eq!(output, other);
        measure(|| library(&mut output), || plain(&mut other))
    }

    pub fn tally(&self) -> Measured {
        let library = || calls::tally(self.store(), black_box(self.library()), self.lent_count());
        let plain = || plain::tally(self.plain_store(), black_box(self.plain()), self.count);
        let Tally { committed, aborted, pending, live } = plain().expect("a capture that is readable");
        assert_eq!((library().code, library().quarters()), (0, [committed, aborted, pending, live]));
        measure(library, plain)
    }

    pub fn scan(&self) -> Measured {
        self.scan_with(|| scan_answer(plain::scan(self.plain_store(), black_box(self.plain()), self.count)))
    }

    /// The scan beside plain Rust that searches for every prefix and only tries, unless that places so many.
    pub fn scan_by_trying(&self, most: u64) -> Option<Measured> {
        self.scan_placements_by_trying(most)?;
        Some(self.scan_with(|| scan_answer(plain::scan_by_trying(self.plain_store(), black_box(self.plain()), self.count))))
    }

    /// The scan by the library and by an earlier version of it.
    pub fn scan_beside(&self, earlier: &Earlier) -> Measured {
        self.scan_with(|| earlier.scan(self.store(), black_box(self.earlier(earlier)), self.count))
    }

    fn scan_with(&self, other: impl Fn() -> Answer) -> Measured {
        let library = || calls::scan(self.store(), black_box(self.library()), self.lent_count());
        assert_eq!(library(), other());
        measure(library, other)
    }

    /// How many searches plain Rust needs for a scan, and how many transactions it places in them.
    pub fn scan_counts(&self) -> [u64; 2] {
        let counted = plain::scan_counting(self.plain_store(), self.plain(), self.count).expect("a capture that is judged");
        [counted.searches, counted.placements]
    }

    /// How many it places by trying alone, if those are fewer than `most`.
    pub fn scan_placements_by_trying(&self, most: u64) -> Option<u64> {
        let counted = plain::scan_by_trying_counting(self.plain_store(), self.plain(), self.count, most);
        Some(counted.expect("a capture that is judged")?.placements)
    }

    /// The finder on the whole capture.
    pub fn find(&self) -> Measured {
        self.find_with(|output| {
            find_answer(plain::find(self.plain_store(), black_box(self.plain()), self.count, self.count, output))
        })
    }

    /// The finder beside plain Rust that only tries, unless that places so many.
    pub fn find_by_trying(&self, most: u64) -> Option<Measured> {
        self.find_placements_by_trying(most)?;
        let other = |output: &mut [u8]| {
            find_answer(plain::find_by_trying(self.plain_store(), black_box(self.plain()), self.count, self.count, output))
        };
        Some(self.find_with(other))
    }

    /// The finder by the library and by an earlier version of it.
    pub fn find_beside(&self, earlier: &Earlier) -> Measured {
        self.find_with(|output| earlier.find(self.store(), black_box(self.earlier(earlier)), self.count, output))
    }

    fn find_with(&self, other: impl Fn(&mut [u8]) -> Answer) -> Measured {
        let mut output = self.output.clone();
        let mut other_output = self.output.clone();
        let count = self.lent_count();
        let library = |output: &mut [u8]| calls::find(self.store(), black_box(self.library()), count, count, output);
        assert_eq!(library(&mut output), other(&mut other_output));
        assert_eq!(output, other_output);
        measure(|| library(&mut output), || other(&mut other_output))
    }

    /// How many transactions plain Rust places on the way to the finder's answer.
    pub fn find_placements(&self) -> u64 {
        plain::find_placements(self.plain_store(), self.plain(), self.count)
    }

    /// How many it places by trying alone, if those are fewer than `most`.
    pub fn find_placements_by_trying(&self, most: u64) -> Option<u64> {
        plain::find_placements_by_trying(self.plain_store(), self.plain(), self.count, most)
    }

    /// The checker on a marking that is accepted.
    pub fn check(&self, marking: &[u8]) -> Measured {
        let library = || calls::check(self.store(), black_box(self.library()), self.lent_count(), black_box(marking));
        let plain = || plain::check(self.plain_store(), black_box(self.plain()), self.count, black_box(marking));
        assert_eq!(library().code, 0);
        assert_eq!(plain(), Ok(Verdict::Accepted));
        measure(library, plain)
    }

    /// The straightening of a marking whose order is a justification, and how many of its points are moved.
    pub fn straighten(&self, marking: &[u8]) -> (usize, Measured) {
        let (mut output, mut list) = (self.output.clone(), vec![0; self.count]);
        let (mut other, mut other_list) = (self.output.clone(), vec![0; self.count]);
        let library = |output: &mut [u8], list: &mut [u32]| {
            let answer =
                calls::straighten(self.store(), black_box(self.library()), self.lent_count(), black_box(marking), output, list);
            (answer.code == 0).then_some(answer.halves())
        };
        let plain = |output: &mut [u8], list: &mut [u32]| {
            let result =
                plain::straighten(self.plain_store(), black_box(self.plain()), self.count, black_box(marking), output, list);
            match result {
                Ok(Straightened::Done { length, moved }) => Some((moved, length)),
                _ => None,
            }
        };
        let (moved, length) = plain(&mut other, &mut other_list).expect("an order that is a justification");
        assert_eq!(library(&mut output, &mut list), Some((moved, length)));
        assert_eq!((&output, &list), (&other, &other_list));
        (moved, measure(|| library(&mut output, &mut list), || plain(&mut other, &mut other_list)))
    }
}

/// The scan of several opaque captures, for the mean of one.
pub fn scan_all(captures: &[Capture]) -> Measured {
    all_with(captures, |c| plain::scan(c.plain_store(), black_box(c.plain()), c.count) == Ok(Scanned::Opaque))
}

/// The same beside an earlier version.
pub fn scan_all_beside(captures: &[Capture], earlier: &Earlier) -> Measured {
    all_with(captures, |c| earlier.scan(c.store(), black_box(c.earlier(earlier)), c.count).code == 0)
}

fn all_with(captures: &[Capture], is_opaque: impl Fn(&Capture) -> bool) -> Measured {
    let library = || captures.iter().filter(|c| calls::scan(c.store(), black_box(c.library()), c.lent_count()).code == 0).count();
    let other = || captures.iter().filter(|c| is_opaque(c)).count();
    assert_eq!((library(), other()), (captures.len(), captures.len()), "all captures are opaque");
    let Measured { library, plain, ratio, samples } = measure(library, other);
    let each = captures.len() as f64;
    Measured { library: library / each, plain: plain / each, ratio, samples }
}
