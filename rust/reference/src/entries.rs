//! The library's entries: each answers with a code and a place, and treats lent buffers as the library promises.

use crate::event::{Columns, Event};
use crate::history_file;
use crate::judgement::{lowest, scan as judge, Scanned};
use crate::marking_file::Marking;
use crate::notes::notes;
use crate::questions::refused_in_columns;
use crate::reads;
use crate::record::{refuse, Refusal};
use crate::rules::{verdict, Rule, Verdict};
use crate::store::{Store, REGISTERS};
use crate::straighten;
use crate::tally::{self, Tally};

/// A code and its place, as the library packs them into one number.
#[derive(Clone, Copy, Debug, PartialEq, Eq)]
pub struct Answer {
    pub code: u32,
    pub place: u32,
}

/// The code of a finder that found no justification, and of a walk that found no note.
pub const NONE: u32 = 100;

/// The most transactions that are judged.
pub const MOST_JUDGED: usize = 10;

fn answer(result: Result<(u32, usize), Refusal>) -> Answer {
    let (code, place) = result.unwrap_or_else(|refusal| (u32::from(refusal.number), refusal.place));
    Answer { code, place: u32::try_from(place).expect("a place of 32 bits, as counts are") }
}

/// Reads a file into 32 start values and columns.
pub fn read(file: &[u8], starts: &mut [u32; REGISTERS], columns: &mut Columns) -> Answer {
    answer(history_file::read(file).and_then(|(store, events)| {
        if !columns.hold(events.len()) {
            return refuse(14, file.len());
        }
        for (at, &event) in events.iter().enumerate() {
            columns.put(at, event);
        }
        *starts = store.starts;
        Ok((0, usize::from(store.edition) * 65_536 + events.len()))
    }))
}

/// The first note of a file whose record begins at a byte or later: the events before it, where its bytes begin, and how many it has.
pub fn next_note(file: &[u8], from: u32, note: &mut [u32; 3]) -> Answer {
    let found = notes(file).into_iter().find(|found| found.byte as u64 >= u64::from(from));
    if let Some(found) = found {
        *note = [found.events, found.start(), found.bytes.len()].map(|number| number as u32);
    }
    Answer { code: if found.is_some() { 0 } else { NONE }, place: 0 }
}

/// Writes columns as a file.
pub fn write(store: &Store, columns: &Columns, count: usize, output: &mut [u8]) -> Answer {
    answer(history(store, columns, count).and_then(|events| {
        let file = history_file::write(store, &events);
        if output.len() < file.len() {
            return refuse(15, count);
        }
        output[..file.len()].copy_from_slice(&file);
        Ok((0, file.len()))
    }))
}

/// The lowest justification of a prefix, as a marking.
pub fn find(store: &Store, columns: &Columns, count: usize, prefix: usize, output: &mut [u8]) -> Answer {
    answer(holds(store, columns, count).and_then(|()| {
        if prefix > count {
            return refuse(18, count);
        }
        let events = history(store, columns, count)?;
        let judged = &events[..prefix];
        let transactions = reads::transactions(judged);
        if transactions > MOST_JUDGED {
            return refuse(31, count);
        }
        if output.len() < 6 + 8 * transactions + 10 * reads::store_reads(judged).count() {
            return refuse(32, count);
        }
        let Some(order) = lowest(store, judged) else {
            return Ok((NONE, 0));
        };
        let file = Marking::of(judged, &order).to_bytes();
        output[..file.len()].copy_from_slice(&file);
        Ok((0, file.len()))
    }))
}

/// Judges every prefix.
pub fn scan(store: &Store, columns: &Columns, count: usize) -> Answer {
    answer(history(store, columns, count).and_then(|events| {
        if reads::transactions(&events) > MOST_JUDGED {
            return refuse(31, count);
        }
        Ok(match judge(store, &events) {
            Scanned::Opaque => (0, 0),
            Scanned::Faulted { event, cause } => (100 + u32::from(cause), event),
        })
    }))
}

/// Checks a marking of the history.
pub fn check(store: &Store, columns: &Columns, count: usize, file: &[u8]) -> Answer {
    answer(history(store, columns, count).and_then(|events| {
        let marking = Marking::read(&events, file)?;
        Ok(match verdict(store, &events, &marking) {
            Verdict::Accepted => (0, 0),
            Verdict::Broken { rule, event, transaction } => broken(rule, event, transaction),
        })
    }))
}

/// Straightens the read points of a marking of the history, and lists the events of those that were moved.
pub fn straighten(store: &Store, columns: &Columns, count: usize, file: &[u8], output: &mut [u8], list: &mut [u32]) -> Answer {
    answer(history(store, columns, count).and_then(|events| {
        let marking = Marking::read(&events, file)?;
        if output.len() < file.len() || list.len() < reads::store_reads(&events).count() {
            return refuse(15, count);
        }
        let straight = straighten::straighten(store, &events, &marking);
        if let Verdict::Broken { rule, event, transaction } = verdict(store, &events, &straight) {
            return Ok(broken(rule, event, transaction));
        }
        let (bytes, moved) = (straight.to_bytes(), straighten::moved(store, &events, &marking));
        output[..bytes.len()].copy_from_slice(&bytes);
        list[..moved.len()].copy_from_slice(&moved);
        Ok((0, moved.len() * 65_536 + bytes.len()))
    }))
}

/// Counts the transactions begun.
pub fn transactions(store: &Store, columns: &Columns, count: usize) -> Answer {
    answer(history(store, columns, count).map(|events| (0, reads::transactions(&events))))
}

/// Counts the store reads.
pub fn store_reads(store: &Store, columns: &Columns, count: usize) -> Answer {
    answer(history(store, columns, count).map(|events| (0, reads::store_reads(&events).count())))
}

/// Tallies the transactions begun.
pub fn tally(store: &Store, columns: &Columns, count: usize) -> Answer {
    answer(history(store, columns, count).map(|events| {
        let Tally { committed, aborted, pending, live } = tally::tally(&events);
        (0, committed * 16_777_216 + aborted * 65_536 + pending * 256 + live)
    }))
}

/// The code of a broken rule, and its event and transaction in one place.
fn broken(rule: Rule, event: usize, transaction: u16) -> (u32, usize) {
    let code = match rule {
        Rule::A => 201,
        Rule::B => 202,
        Rule::C => 203,
        Rule::D => 204,
        Rule::E => 205,
    };
    (code, event * 65_536 + usize::from(transaction))
}

/// Questions 17 and 3.
fn holds(store: &Store, columns: &Columns, count: usize) -> Result<(), Refusal> {
    if !columns.hold(count) {
        return refuse(17, count);
    }
    match store.is_admitted() {
        true => Ok(()),
        false => refuse(3, count),
    }
}

/// The events of columns over a store, by questions 17 and 3 and each event's own.
pub fn history(store: &Store, columns: &Columns, count: usize) -> Result<Vec<Event>, Refusal> {
    holds(store, columns, count)?;
    let mut events = Vec::new();
    for at in 0..count {
        let event = columns.event(at);
        if let Some(number) = refused_in_columns(store.edition, &events, &event) {
            return refuse(number, at);
        }
        events.push(event);
    }
    Ok(events)
}
