//! Inputs that make a search long: digests that a climb came to, families, and histories that are hard to scan.

use crate::inputs::{cycle, late_fault, pending_writers, simulated};
use crate::sides::Capture;
use crate::table;
use outside::digest::Digest;
use outside::hard::{pending_chain, pending_pairs, pending_ring, two_destructive};
use outside::random::Random;
use outside::schedule::{commits_first, in_turn, witness_breaking};
use outside::views::lowest_order;
use reference::event::Event;
use reference::store::Store;

/// One digest a line, below a line that says what it is.
const CLIMBED: &str = include_str!("hard.txt");

/// By trying alone, placing so many takes about a second.
const SECOND: u64 = 100_000_000;
const QUICK: u64 = 5_000_000;

/// So many placements by trying alone are waited for.
pub fn patience(quick: bool) -> u64 {
    if quick {
        QUICK
    } else {
        SECOND
    }
}

fn climbed() -> Vec<(String, Digest)> {
    let lines: Vec<&str> = CLIMBED.lines().collect();
    let named = |pair: &[&str]| {
        let name = pair[0].strip_prefix("# ").expect("a line that says what the next one is");
        (name.to_string(), pair[1].parse().expect("a digest"))
    };
    lines.chunks(2).map(named).collect()
}

fn families() -> Vec<(String, Digest)> {
    let mut all: Vec<(String, Digest)> = Vec::new();
    for padding in [0, 8, 23] {
        let padded = if padding == 0 { String::new() } else { format!(", all read {padding} registers more") };
        all.push((format!("a chain of 9 pending writers{padded}"), pending_chain(9, padding)));
        all.push((format!("a ring of 9 pending writers{padded}"), pending_ring(9, padding)));
    }
    all.push(("9 pending writers that share registers by pairs".to_string(), pending_pairs(9)));
    all.push(("9 pending writers, two of which spoil each other's".to_string(), two_destructive(9)));
    all
}

/// Everything for the finder: what it is, and its events.
pub fn finds() -> Vec<(String, Vec<Event>)> {
    let digests = climbed().into_iter().chain(families());
    let built = digests.map(|(name, digest)| (name, in_turn(&digest, Store::ZERO).events));
    let pending =
        (4..=9).map(|writers| (format!("{writers} pending writers and a read of another value"), pending_writers(writers)));
    let cycles = (4..=10).map(|length| (format!("{length} reads in a cycle"), cycle(length)));
    built.chain(pending).chain(cycles).collect()
}

/// Histories of 2,048 events or one less, from the same digests.
pub fn scans() -> Vec<(String, Vec<Event>)> {
    let digests = climbed().into_iter().chain(families());
    digests.map(|(name, digest)| (name, hard_to_scan(&digest))).collect()
}

/// Of the two ways to play a digest the one that costs a scan more.
fn hard_to_scan(digest: &Digest) -> Vec<Event> {
    let order = lowest_order(&in_turn(digest, Store::ZERO)).unwrap_or_default();
    let filled = digest.filled(2_048);
    let played = [
        commits_first(&filled, Store::ZERO, &order, &mut Random::new(1)).events,
        witness_breaking(&filled, Store::ZERO, &order, &mut Random::new(1)).events,
    ];
    played.into_iter().max_by_key(|events| Capture::new(events).scan_counts()[1]).expect("two histories")
}

pub fn print() {
    table::counted_head("Hard inputs: the finder", "input", &["placements"]);
    for (name, events) in finds() {
        let capture = Capture::new(&events);
        table::counted_row(&name, &[capture.find_placements()], &capture.find());
    }
    table::end();
    table::counted_head("Hard inputs: scans of 2,048 events", "input", &["searches", "placements"]);
    for (name, events) in scans() {
        let capture = Capture::new(&events);
        table::counted_row(&name, &capture.scan_counts(), &capture.scan());
    }
    table::end();
}

/// The captures and the hard inputs beside plain Rust that asks no question and carries no witness.
pub fn print_by_trying(quick: bool) {
    let most = patience(quick);
    let dash = table::thousands(most);
    table::head_beside(&format!("Beside plain Rust by trying alone (a dash: {dash} placements and more)"), "job", "by trying");
    for seed in 1..=3 {
        let log = simulated(10, 2_048, seed);
        let fault = Capture::new(&late_fault(log.clone()));
        let capture = Capture::new(&log);
        table::row_if(&format!("scan, opaque, capture {seed}"), capture.scan_by_trying(most).as_ref());
        table::row_if(&format!("scan, fault at the last read, capture {seed}"), fault.scan_by_trying(most).as_ref());
        table::row_if(&format!("find the lowest marking, capture {seed}"), capture.find_by_trying(most).as_ref());
    }
    for (name, events) in finds() {
        table::row_if(&format!("find, {name}"), Capture::new(&events).find_by_trying(most).as_ref());
    }
    for (name, events) in scans() {
        table::row_if(&format!("scan, {name}"), Capture::new(&events).scan_by_trying(most).as_ref());
    }
    table::end();
}
