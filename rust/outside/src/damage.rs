//! Damaged files, events and columns: cut, lengthened, with bits turned, with records out of their order, with stray notes.

use crate::random::Random;
use reference::event::{Columns, Event};
use reference::history_file::START;
use reference::notes::NOTE;
use reference::record::{record, records_from};

/// Numbers next to which something changes.
const EDGES: [u16; 34] = [
    0, 1, 2, 3, 4, 5, 6, 8, 10, 11, 12, 15, 16, 17, 18, 19, 22, 23, 24, 25, 26, 31, 32, 33, 34, 47, 48, 49, 63, 64, 66, 67,
    2_048, 65_535,
];

/// How many faults are put into one thing.
fn faults(random: &mut Random) -> usize {
    random.pick(&[0, 1, 1, 1, 2, 3])
}

/// A file with a few faults, or none.
pub fn file(random: &mut Random, mut file: Vec<u8>) -> Vec<u8> {
    for _ in 0..faults(random) {
        file = if random.chance(50) { bytes(random, file) } else { records(random, &file) };
    }
    match random.below(1_000) {
        0 => file.resize(32_768, 0),
        1 => file.resize(32_769, 0),
        _ => (),
    }
    file
}

fn bytes(random: &mut Random, mut file: Vec<u8>) -> Vec<u8> {
    let at = random.below(file.len() + 1);
    match random.below(7) {
        0 => file.truncate(at),
        1 => file.truncate(file.len().saturating_sub(1)),
        2 => file.insert(at, random.word() as u8),
        3 => (0..=random.below(12)).for_each(|_| file.push(random.pick(&[0, 0, 0, 4, 6, 16, 32]))),
        4 => put(&mut file, at / 2 * 2, random.pick(&EDGES)), // the fields of whole records stand at even places
        5 => file.iter_mut().skip(at).take(1).for_each(|byte| *byte = random.word() as u8),
        _ => file.iter_mut().skip(at).take(1).for_each(|byte| *byte ^= 1 << random.below(8)),
    }
    file
}

fn put(bytes: &mut [u8], at: usize, field: u16) {
    bytes.iter_mut().skip(at).zip(field.to_le_bytes()).for_each(|(byte, new)| *byte = new);
}

/// Takes the records of a file apart, as far as they go, and puts them together in another way.
fn records(random: &mut Random, file: &[u8]) -> Vec<u8> {
    let mut records = split(file);
    if records.is_empty() {
        return file.to_vec();
    }
    let (at, other) = (random.below(records.len()), random.below(records.len()));
    match random.below(11) {
        0 => records.swap(at, other),
        1 => drop(records.remove(at)),
        2 => records.insert(other, records[at].clone()),
        3 => records.push(stray(random)),
        4 => records.insert(random.below(records.len() + 1).max(1), start(random)),
        5 => records.insert(random.below(records.len() + 1), note(random)),
        6 => put(&mut records[0].body, 0, random.pick(&[0, 1, 1, 2, 2, 3])),
        7 => records[at].kind = random.pick(&EDGES),
        8 => drop(records[at].body.pop()),
        9 => records[at].body.push(random.word() as u8),
        _ => {
            let field = random.below(records[at].body.len() + 1) / 2 * 2;
            put(&mut records[at].body, field, random.pick(&EDGES));
        }
    }
    records.iter().flat_map(|r| record(r.kind, &r.body)).collect()
}

#[derive(Clone)]
struct Parts {
    kind: u16,
    body: Vec<u8>,
}

fn split(file: &[u8]) -> Vec<Parts> {
    let (records, _) = records_from(file, 0);
    records.into_iter().map(|record| Parts { kind: record.kind, body: record.body.to_vec() }).collect()
}

/// A record of some kind with small fields.
fn stray(random: &mut Random) -> Parts {
    let kind = random.pick(&[16, 17, 18, 19, 20, 21, 22, 23, 24, 24, 25, 25, 32, 33]);
    let mut body = vec![0; random.pick(&[2, 4, 4, 6, 8, 10, 10])];
    for field in (0..body.len()).step_by(2) {
        body[field] = random.below(8) as u8;
    }
    Parts { kind, body }
}

/// A start record, of the right size or not.
fn start(random: &mut Random) -> Parts {
    let register: u16 = random.pick(&[0, 1, 2, 3, 30, 31, 31, 32, 64, 256, 65_535]);
    let value: u32 = random.pick(&[0, 0, 1, 2, 256, 65_536, 1 << 31]);
    let mut body = [&register.to_le_bytes()[..], &value.to_le_bytes()].concat();
    body.resize(random.pick(&[6, 6, 6, 6, 6, 6, 4, 5, 7, 8]), 0);
    Parts { kind: START, body }
}

/// A note, mostly about as long as it may be, and now and then before the head.
fn note(random: &mut Random) -> Parts {
    let size = random.pick(&[0, 1, 63, 64, 65, 65, 66, 320]);
    Parts { kind: NOTE, body: (0..size).map(|_| random.word() as u8).collect() }
}

/// Events with a few faults, or none.
pub fn events(random: &mut Random, mut events: Vec<Event>) -> Vec<Event> {
    for _ in 0..faults(random) {
        if events.is_empty() {
            break;
        }
        let (at, other) = (random.below(events.len()), random.below(events.len()));
        let edge = random.pick(&EDGES);
        match random.below(9) {
            0 => events.swap(at, other),
            1 => drop(events.remove(at)),
            2 => events.insert(other, events[at]),
            3 => events[at].kind = edge,
            4 => events[at].transaction = edge,
            5 => events[at].register = edge,
            6 => events[at].value = u32::from(edge),
            // Of what does not begin, any thread but 0 is refused in the same way.
            7 if events[at].is_begin() || random.chance(20) => events[at].thread = random.pick(&[edge, 0, 1, 2]),
            _ => events[at].value = random.below(3) as u32,
        }
    }
    events
}

/// Columns of which one is perhaps too short.
pub fn columns(random: &mut Random, mut columns: Columns) -> Columns {
    match random.below(20) {
        0 => drop(columns.kinds.pop()),
        1 => drop(columns.transactions.pop()),
        2 => drop(columns.registers.pop()),
        3 => drop(columns.values.pop()),
        4 => drop(columns.threads.pop()),
        _ => (),
    }
    columns
}
