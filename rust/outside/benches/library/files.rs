//! Reading, writing, going through notes, tallying, checking and straightening.

use crate::inputs::{careless, noted, serial, serial_reads, simulated, simulated_lone};
use crate::sides::Capture;
use crate::table;
use reference::event::Event;
use reference::log::Log;

pub fn print() {
    table::head("Files, tallies and markings", "job");
    let full = Capture::new(&simulated(10, 2_048, 1));
    let bytes = full.file.len();
    table::rate_row(&format!("read a history of 2,048 events, {bytes} bytes"), bytes, &full.read());
    table::rate_row(&format!("write a history of 2,048 events, {bytes} bytes"), bytes, &full.write());
    let lone = Capture::of(&simulated_lone(64, 2_048, 50, 1));
    let bytes = lone.file.len();
    table::rate_row(&format!("read a history of 2,048 events, lone accesses among them, {bytes} bytes"), bytes, &lone.read());
    table::rate_row(&format!("write a history of 2,048 events, lone accesses among them, {bytes} bytes"), bytes, &lone.write());
    let mut remarked = Capture::new(&simulated(10, 2_048, 1));
    remarked.file = noted(&full.file, 16, 32);
    let (bytes, notes) = (remarked.file.len(), 2_048 / 16);
    table::rate_row(&format!("read a history of 2,048 events and {notes} notes, {bytes} bytes"), bytes, &remarked.read());
    table::row(&format!("find its {notes} notes, one after the other"), &remarked.notes(notes));
    let small = Capture::new(&Log::h0().events);
    table::row("read the paper's H0, 88 bytes", &small.read());
    table::row("write the paper's H0, 88 bytes", &small.write());
    table::row("tally a history of 10 transactions and 2,048 events", &full.tally());
    let (events, marking) = serial(64, 2_048);
    table::row("tally a history of 64 transactions and 2,048 events", &Capture::new(&events).tally());
    table::row("tally a history of 64 transactions and 2,048 events, lone accesses among them", &lone.tally());
    let reads = (marking.len() - 6 - 8 * 64) / 10;
    let what = format!("check a marking of 64 transactions and {reads} read points, {} bytes", marking.len());
    table::row(&what, &Capture::new(&events).check(&marking));
    // Reads of registers that nobody wrote are right at every gap; those of the one that all write are right at one or two.
    straighten(&events, &careless(&events, &marking));
    let (events, marking) = serial_reads(64, 2_048, 1);
    straighten(&events, &careless(&events, &marking));
    table::end();
}

fn straighten(events: &[Event], marking: &[u8]) {
    let reads = (marking.len() - 6 - 8 * 64) / 10;
    let (moved, measured) = Capture::new(events).straighten(marking);
    table::row(&format!("straighten a marking of that size, {moved} of {reads} read points moved"), &measured);
}
