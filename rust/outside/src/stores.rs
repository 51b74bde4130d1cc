//! Random stores: editions and start values, and what the judged histories did with them.

use crate::coverage::{Coverage, Started};
use crate::random::Random;
use reference::entries::Answer;
use reference::event::*;
use reference::reads::store_reads;
use reference::store::{Store, REGISTERS};

/// A store that every call takes: edition 1, or edition 2 with or without start values, most of them where these events look and from 0
/// to this value.
pub fn random_store(random: &mut Random, registers: usize, most: u32) -> Store {
    if random.chance(35) {
        return Store::ZERO;
    }
    let mut store = Store::of(&[]);
    match random.below(10) {
        0 => (),
        1 => store.starts.fill_with(|| random.word() as u32),
        _ => store.starts[..registers].fill_with(|| random.below(most as usize + 1) as u32),
    }
    if random.one_in(5) {
        store.starts[random.below(REGISTERS)] = random.pick(&[0, 1, 256, 65_536, u32::MAX]);
    }
    store
}

/// A store that is perhaps refused: of another edition, or of edition 1 with a start value.
pub fn damaged_store(random: &mut Random, mut store: Store) -> Store {
    match random.below(24) {
        0 => store.edition = random.pick(&[0, 3, 4, 256, 257, 258, 512, 65_535]),
        1 => store.edition = 1,
        2 => {
            let start = random.pick(&[1, 255, 256, 65_535, 65_536, 1 << 31, u32::MAX]);
            store = Store { edition: 1, ..Store::of(&[(random.below(REGISTERS) as u16, start)]) };
        }
        _ => (),
    }
    store
}

/// Start values for a reader, full of other things.
pub fn starts_for(random: &mut Random) -> [u32; REGISTERS] {
    [0; REGISTERS].map(|_| random.word() as u32)
}

/// Notes what a history that was scanned had to do with its store.
pub fn note(store: &Store, history: &[Event], scanned: Answer, coverage: &mut Coverage) {
    match store.edition {
        1 => coverage.note_started(Started::EditionOne),
        _ if store.starts == [0; REGISTERS] => coverage.note_started(Started::NoStart),
        _ => (),
    }
    let reads: Vec<usize> = store_reads(history).filter(|&read| store.start(history[read].register) != 0).collect();
    let of_start = |read: &usize| history[*read].value == store.start(history[*read].register);
    if scanned.code == 0 && reads.iter().any(of_start) {
        coverage.note_started(Started::Read);
    }
    if scanned.code == 0 && !reads.iter().all(of_start) {
        coverage.note_started(Started::Hidden);
    }
    // Of a history that is not opaque, only the read that faults it says something.
    match reads.iter().find(|&&read| scanned.code == 101 && read == scanned.place as usize) {
        Some(read) if of_start(read) => coverage.note_started(Started::ReadInVain),
        Some(&read) if history[read].value == 0 => coverage.note_started(Started::ZeroInVain),
        _ => (),
    }
}
