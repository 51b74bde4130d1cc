//! The scan and the finder on captures.

use crate::inputs::{late_fault, simulated, simulated_lone};
use crate::sides::Capture;
use crate::table;
use reference::log::Log;

pub fn print() {
    table::head("Captures of 10 transactions and 2,048 events from a simulated transactional memory", "job");
    for seed in 1..=3 {
        let log = simulated(10, 2_048, seed);
        table::row(&format!("scan, opaque, capture {seed}"), &Capture::new(&log).scan());
        table::row(&format!("scan, fault at the last read, capture {seed}"), &Capture::new(&late_fault(log.clone())).scan());
        table::row(&format!("find the lowest marking, capture {seed}"), &Capture::new(&log).find());
    }
    for seed in 4..=6 {
        print_lone(seed);
    }
    table::end();
}

/// A capture in which a display task reads bare, and others write so.
fn print_lone(seed: u64) {
    let log = simulated_lone(10, 2_048, 40, seed);
    let fault = Log { store: log.store, events: late_fault(log.events.clone()) };
    let lone = log.events.iter().filter(|event| event.is_lone()).count();
    let name = format!("capture {seed}, {lone} lone accesses among its transactions");
    table::row(&format!("scan, opaque, {name}"), &Capture::of(&log).scan());
    table::row(&format!("scan, fault at the last read, {name}"), &Capture::of(&fault).scan());
    table::row(&format!("find the lowest marking, {name}"), &Capture::of(&log).find());
}
