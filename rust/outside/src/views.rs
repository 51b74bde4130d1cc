//! A log as the library and plain Rust are lent it, and what plain Rust says of it.

use crate::lent::lent_count;
use plain::{Refusal, Scanned};
use reference::event::Columns;
use reference::justification::{Outcome, Place};
use reference::log::Log;
use reference::reads::transactions;
use reference::store::Store;
use sendoshi::answer::{self, NONE};
use sendoshi::{calls, Answer};

/// A store and columns that both sides may be lent.
pub struct Views {
    store: Store,
    held: Columns,
}

impl Views {
    pub fn of(log: &Log) -> Views {
        Views { store: log.store, held: Columns::of(&log.events) }
    }

    pub fn count(&self) -> usize {
        self.held.kinds.len()
    }

    pub fn held(&self) -> &Columns {
        &self.held
    }

    pub fn library_store(&self) -> sendoshi::Store<'_> {
        sendoshi::Store { edition: self.store.edition, starts: &self.store.starts }
    }

    pub fn library(&self) -> sendoshi::Columns<'_> {
        let Columns { kinds, transactions, registers, values, threads } = &self.held;
        sendoshi::Columns { kinds, transactions, registers, values, threads }
    }

    pub fn plain_store(&self) -> plain::Store<'_> {
        plain::Store { edition: self.store.edition, starts: &self.store.starts }
    }

    pub fn plain(&self) -> plain::Columns<'_> {
        let Columns { kinds, transactions, registers, values, threads } = &self.held;
        plain::Columns { kinds, transactions, registers, values, threads }
    }

    /// The library's lowest marking of a prefix, or none.
    pub fn find(&self, prefix: usize) -> Option<Vec<u8>> {
        let mut output = self.output();
        let answer = calls::find(self.library_store(), self.library(), lent_count(self.count()), lent_count(prefix), &mut output);
        output.truncate(answer.place as usize);
        match answer.code {
            answer::DONE => Some(output),
            code => {
                assert_eq!(code, NONE, "the finder's answer on {prefix} events");
                None
            }
        }
    }

    /// Plain Rust's, by one of its ways to search.
    pub fn find_by(&self, finder: Finder, prefix: usize) -> Option<Vec<u8>> {
        let mut output = self.output();
        let found = finder(self.plain_store(), self.plain(), self.count(), prefix, &mut output);
        output.truncate(found.expect("a log that is judged")?);
        Some(output)
    }

    /// An output for every marking of a log of at most ten transactions.
    fn output(&self) -> Vec<u8> {
        vec![0; 6 + 8 * 10 + 10 * self.count()] // ten bytes a read point, and at most one of them an event
    }

    /// What the library says of all prefixes.
    pub fn scan(&self) -> Answer {
        calls::scan(self.library_store(), self.library(), lent_count(self.count()))
    }

    /// What plain Rust says, by one of its ways to scan.
    pub fn scan_by(&self, scanner: Scanner) -> Answer {
        scan_answer(scanner(self.plain_store(), self.plain(), self.count()))
    }
}

/// The answer of plain Rust's scan as the library gives it.
pub fn scan_answer(scanned: Result<Scanned, Refusal>) -> Answer {
    match scanned.expect("a log that is judged") {
        Scanned::Opaque => Answer { code: answer::DONE, place: 0 },
        Scanned::Faulted(event, cause) => Answer { code: 100 + u32::from(cause), place: event as u32 },
    }
}

/// The answer of plain Rust's finder as the library gives it.
pub fn find_answer(found: Result<Option<usize>, Refusal>) -> Answer {
    match found.expect("a log that is judged") {
        Some(length) => Answer { code: answer::DONE, place: length as u32 },
        None => Answer { code: NONE, place: 0 },
    }
}

pub type Finder = fn(plain::Store, plain::Columns, usize, usize, &mut [u8]) -> Result<Option<usize>, Refusal>;
pub type Scanner = fn(plain::Store, plain::Columns, usize) -> Result<Scanned, Refusal>;

/// The lowest order that justifies a log of at most ten transactions, by plain Rust.
pub fn lowest_order(log: &Log) -> Option<Vec<Place>> {
    let marking = Views::of(log).find_by(plain::find, log.events.len())?;
    let places = &marking[6..6 + 8 * transactions(&log.events)]; // behind the head, eight bytes a place
    let place = |record: &[u8]| Place {
        transaction: u16::from(record[4]),
        outcome: if record[6] == 0 { Outcome::Aborted } else { Outcome::Committed },
    };
    Some(places.chunks(8).map(place).collect())
}
