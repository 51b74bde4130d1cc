//! How cost grows with events and with transactions.

use crate::inputs::{serial, simulated};
use crate::measure::Measured;
use crate::sides::{scan_all, Capture};
use crate::table;

pub fn print() {
    table::head("Growth with events (scans: the mean of 8 captures)", "job");
    for events in [256, 512, 1_024, 2_048] {
        table::row(&format!("read, {events} events"), &Capture::new(&simulated(10, events, 1)).read());
    }
    for events in [256, 512, 1_024, 2_048] {
        let (log, marking) = serial(16, events);
        table::row(&format!("check, 16 transactions, {events} events"), &Capture::new(&log).check(&marking));
    }
    for events in [256, 512, 1_024, 2_048] {
        table::row(&format!("scan, 10 transactions, {events} events"), &scans(10, events));
    }
    table::end();
    table::head("Growth with transactions (scans: the mean of 8 captures)", "job");
    for begins in [8, 16, 32, 64] {
        let (log, marking) = serial(begins, 2_048);
        table::row(&format!("check, {begins} transactions, {} events", log.len()), &Capture::new(&log).check(&marking));
    }
    for begins in [2, 4, 6, 8, 10] {
        table::row(&format!("scan, {begins} transactions, 2048 events"), &scans(begins, 2_048));
    }
    table::end();
}

fn scans(begins: usize, events: usize) -> Measured {
    scan_all(&captures(begins, events))
}

/// One capture differs much from the next, so that growth shows only in several.
pub fn captures(begins: usize, events: usize) -> Vec<Capture> {
    (1..=8).map(|seed| Capture::new(&simulated(begins, events, seed))).collect()
}
