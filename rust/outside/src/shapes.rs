//! Columns, outputs and lists of odd lengths that hold something already, and what the brute force can judge in good time.

use crate::random::Random;
use reference::event::{Columns, Event};
use reference::{entries, reads};

/// Does the brute force answer quickly for these events? It does for a few transactions, and where there are too many events or
/// transactions for any judgement.
pub fn is_judged_quickly(events: &[Event]) -> bool {
    let begun = reads::transactions(events);
    let few = begun <= 5 && events.len() <= 64;
    few || begun > entries::MOST_JUDGED || events.len() > 2_048
}

/// Columns that hold the events, each with some entries more.
pub fn columns_of(random: &mut Random, events: &[Event]) -> Columns {
    let mut columns = Columns::of(events);
    let more = |random: &mut Random| if random.chance(50) { 0 } else { random.below(4) };
    (0..more(random)).for_each(|_| columns.kinds.push(random.word() as u16 % 40));
    (0..more(random)).for_each(|_| columns.transactions.push(random.word() as u16 % 4));
    (0..more(random)).for_each(|_| columns.registers.push(random.word() as u16 % 40));
    (0..more(random)).for_each(|_| columns.values.push(random.word() as u32 % 4));
    (0..more(random)).for_each(|_| columns.threads.push(random.word() as u16 % 4));
    columns
}

/// Columns for a reader of so many events, full of other things: some too short, most long enough.
pub fn columns_for(random: &mut Random, events: usize) -> Columns {
    let length = |random: &mut Random| match random.below(20) {
        0 => events.saturating_sub(1),
        1..=12 => events,
        _ => events + random.below(5),
    };
    let mut columns = Columns::default();
    (0..length(random)).for_each(|_| columns.kinds.push(random.word() as u16));
    (0..length(random)).for_each(|_| columns.transactions.push(random.word() as u16));
    (0..length(random)).for_each(|_| columns.registers.push(random.word() as u16));
    (0..length(random)).for_each(|_| columns.values.push(random.word() as u32));
    (0..length(random)).for_each(|_| columns.threads.push(random.word() as u16));
    columns
}

/// An output for so many bytes, full of other things: some too short, most long enough.
pub fn output_for(random: &mut Random, bytes: usize) -> Vec<u8> {
    let length = length_for(random, bytes);
    (0..length).map(|_| random.word() as u8).collect()
}

/// A list for so many events, full of other things: some too short, most long enough.
pub fn list_for(random: &mut Random, events: usize) -> Vec<u32> {
    let length = length_for(random, events);
    (0..length).map(|_| random.word() as u32).collect()
}

fn length_for(random: &mut Random, needed: usize) -> usize {
    match random.below(20) {
        0 => needed.saturating_sub(1),
        1 => random.below(needed + 1),
        2..=12 => needed,
        _ => needed + random.below(20),
    }
}

/// The size of the marking of a prefix.
pub fn marking_size(prefix: &[Event]) -> usize {
    6 + 8 * reads::transactions(prefix) + 10 * reads::store_reads(prefix).count()
}
