//! Notes put into files, and where those of the files that were read stood.

use crate::coverage::{Coverage, Noted};
use crate::random::Random;
use reference::event::{BEGIN, LONE_WRITE};
use reference::history_file::START;
use reference::notes::{is_note, note_record, LONGEST_NOTE};
use reference::record::{records_from, Record, LONGEST_FILE};

/// A file with notes in it.
pub struct Remarked {
    pub file: Vec<u8>,
    /// Of each note that was put in: the events before it, the byte at which its bytes begin, and how many it has.
    pub notes: Vec<[u32; 3]>,
}

/// Puts notes before some of the records behind the first one, and behind the last; several in a row now and then. What is no whole record
/// stays at the end. A file that is not too long does not become so.
pub fn scattered(random: &mut Random, file: &[u8]) -> Remarked {
    let (records, _) = records_from(file, 0);
    let mut remarked = Remarked { file: Vec::new(), notes: Vec::new() };
    let (percent, mut room, mut events) = (random.pick(&[10, 30, 60]), LONGEST_FILE.saturating_sub(file.len()), 0);
    for record in &records {
        if record.byte > 0 {
            remarked.add_some(random, percent, events, &mut room);
        }
        remarked.file.extend(&file[record.byte..record.next]);
        events += u32::from(is_event(record));
    }
    if let Some(last) = records.last() {
        remarked.add_some(random, percent, events, &mut room);
        remarked.file.extend(&file[last.next..]);
        return remarked;
    }
    Remarked { file: file.to_vec(), ..remarked }
}

impl Remarked {
    fn add_some(&mut self, random: &mut Random, percent: usize, events: u32, room: &mut usize) {
        while random.chance(percent) {
            let note = note_record(&text(random));
            if note.len() > *room {
                return;
            }
            *room -= note.len();
            self.notes.push([events, self.file.len() as u32 + 4, note.len() as u32 - 4]);
            self.file.extend(note);
        }
    }
}

/// What a note carries: nothing, as much as it may, something that looks like records, or anything.
fn text(random: &mut Random) -> Vec<u8> {
    let any = |random: &mut Random, size: usize| (0..size).map(|_| random.word() as u8).collect();
    match random.below(10) {
        0 | 1 => vec![],
        2 | 3 => any(random, LONGEST_NOTE),
        4 => [6, 0, 16, 0, 0, 0, 1, 0].repeat(1 + random.below(8)), // begins
        5 => [8, 0, 3, 0, 3, 0, 9, 0, 0, 0].repeat(1 + random.below(6)), // start records
        6 => [2, 0, 48, 0].repeat(1 + random.below(16)),            // notes
        7 => vec![random.pick(&[0, 255]); random.below(LONGEST_NOTE + 1)],
        _ => {
            let size = random.below(LONGEST_NOTE + 1);
            any(random, size)
        }
    }
}

fn is_event(record: &Record) -> bool {
    (BEGIN..=LONE_WRITE).contains(&record.kind)
}

/// Notes where the notes of a file that was read stood, and what they carried.
pub fn note(file: &[u8], coverage: &mut Coverage) {
    let (records, _) = records_from(file, 6);
    for at in (0..records.len()).filter(|&at| is_note(&records[at])) {
        let before = records[..at].iter().rev().find(|record| !is_note(record));
        let behind = records[at..].iter().find(|record| !is_note(record));
        coverage.note_noted(place(before.map(|record| record.kind), behind.map(|record| record.kind)));
        if at > 0 && is_note(&records[at - 1]) {
            coverage.note_noted(Noted::InARow);
        }
        match records[at].body.len() {
            0 => coverage.note_noted(Noted::Empty),
            LONGEST_NOTE => coverage.note_noted(Noted::Full),
            _ => (),
        }
    }
}

/// Where a note stands between records of these kinds that are no notes.
fn place(before: Option<u16>, behind: Option<u16>) -> Noted {
    match (before, behind) {
        (None, Some(START)) => Noted::BeforeStarts,
        (Some(START), Some(START)) => Noted::BetweenStarts,
        (Some(START), Some(_)) => Noted::BehindStarts,
        (None, Some(_)) => Noted::BeforeEvents,
        (None | Some(START), None) => Noted::WithoutEvents,
        (Some(_), Some(_)) => Noted::BetweenEvents,
        (Some(_), None) => Noted::BehindEvents,
    }
}

#[cfg(test)]
mod tests {
    use super::*;
    use crate::walk::{walk, Shape};
    use reference::history_file;
    use reference::notes::{notes, without_notes};

    #[test]
    fn notes_are_put_in_and_taken_out() {
        let mut put = 0;
        for seed in 0..2_000 {
            let mut random = Random::new(seed);
            let shape = Shape::small(&mut random);
            let log = walk(&mut random, shape);
            let file = history_file::write(&log.store, &log.events);
            let remarked = scattered(&mut random, &file);
            assert_eq!(without_notes(&remarked.file), file);
            let found: Vec<[u32; 3]> = notes(&remarked.file)
                .iter()
                .map(|note| [note.events, note.start(), note.bytes.len()].map(|number| number as u32))
                .collect();
            assert_eq!(found, remarked.notes);
            put += found.len();
        }
        assert!(put > 10_000, "{put} notes");
    }

    /// What is no whole record has no notes behind it, and a file stays as short as it may be.
    #[test]
    fn files_that_are_cut_or_full() {
        let (head, mut random) = ([4, 0, 1, 0, 1, 0], Random::new(1));
        assert_eq!(scattered(&mut random, &[7; 3]).file, [7; 3]);
        let cut = (0..100).map(|_| scattered(&mut random, &[&head[..], &[9]].concat()).file);
        assert!(cut.into_iter().all(|file| file.starts_with(&head) && file.ends_with(&[9])));
        let begins = [&head[..], &[6, 0, 16, 0, 0, 0, 0, 0].repeat(4_095)].concat();
        let lengths: Vec<usize> = (0..20).map(|_| scattered(&mut random, &begins).file.len()).collect();
        assert!(lengths.iter().all(|&length| (begins.len()..=LONGEST_FILE).contains(&length)), "{lengths:?}");
    }
}
