//! The lines that the report program prints for a capture.

use crate::event::Event;
use crate::judgement::{scan, Scanned};
use crate::marking_file::Marking;
use crate::reads::{store_reads, transactions};
use crate::rules::{verdict, Verdict};
use crate::store::Store;
use crate::tally::{tally, Tally};
use crate::{entries, history_file};

/// The report on a history file and a marking file; an absent one is empty.
pub fn report(history: &[u8], marking: &[u8]) -> String {
    match history_file::read(history) {
        Ok((store, events)) => {
            counted(&events) + &tallied(&events) + &checked(&store, &events, marking) + &judged(&store, &events)
        }
        Err(refusal) => format!("history refused {} byte {}\n", refusal.number, refusal.place),
    }
}

/// The first line.
pub fn counted(events: &[Event]) -> String {
    format!("events {} transactions {} reads {}\n", events.len(), transactions(events), store_reads(events).count())
}

/// The tally line.
pub fn tallied(events: &[Event]) -> String {
    let Tally { committed, aborted, pending, live } = tally(events);
    format!("committed {committed} aborted {aborted} pending {pending} live {live}\n")
}

/// The line on the marking.
fn checked(store: &Store, events: &[Event], marking: &[u8]) -> String {
    match Marking::read(events, marking).map(|m| verdict(store, events, &m)) {
        Err(refusal) => format!("marking refused {} byte {}\n", refusal.number, refusal.place),
        Ok(Verdict::Accepted) => "marking accepted\n".to_string(),
        Ok(Verdict::Broken { rule, event, transaction }) => {
            format!("marking rule {rule:?} event {event} transaction {transaction}\n")
        }
    }
}

/// The last line.
fn judged(store: &Store, events: &[Event]) -> String {
    if transactions(events) > entries::MOST_JUDGED {
        return "opaque refused 31\n".to_string();
    }
    match scan(store, events) {
        Scanned::Opaque => "opaque yes\n".to_string(),
        Scanned::Faulted { event, cause } => format!("opaque no event {event} cause {cause}\n"),
    }
}
