//! The notes of a history file.

use crate::answer::{DONE, NONE};
use crate::calls;
use std::iter::FusedIterator;

/// A note: what a technician typed, as the recorder stored it between events. It may be empty, and its bytes need not be text.
#[derive(Clone, Copy, Debug, PartialEq, Eq, Hash)]
pub struct Note<'a> {
    /// How many events stand before it: it was stored before the event of this number.
    pub events: usize,
    /// The byte of the file at which its own bytes begin.
    pub start: usize,
    /// Its bytes, at most 64.
    pub bytes: &'a [u8],
}

/// The notes of a history file, in the order of the file. The file is not judged: of one that [`History::read`](crate::History::read)
/// takes these are all notes, and of another those that stand before the first record that is cut off and before the first note of more
/// than 64 bytes, or none if it is longer than a file may be.
///
/// ```
/// let capture = [
///     4, 0, 1, 0, 1, 0, // the head
///     6, 0, 16, 0, 0, 0, 0, 0, // T0 begins on thread 0
///     6, 0, 48, 0, b'l', b'a', b'm', b'p', // a note
///     4, 0, 23, 0, 0, 0, // T0 is aborted
///     2, 0, 48, 0, // an empty note
/// ];
/// let history = sendoshi::History::read(&capture)?;
/// assert_eq!(history.len(), 2);
/// for note in sendoshi::notes(&capture) {
///     println!("after {} events: {}", note.events, String::from_utf8_lossy(note.bytes));
/// }
/// # let notes: Vec<_> = sendoshi::notes(&capture).map(|note| (note.events, note.start, note.bytes)).collect();
/// # assert_eq!(notes, [(1, 18, &b"lamp"[..]), (2, 32, b"")]);
///
/// // The history is that of the capture without its notes, and is written so.
/// let bare = [&capture[..14], &capture[22..28]].concat();
/// assert_eq!(sendoshi::History::read(&bare)?, history);
/// assert_eq!(history.to_bytes(), bare);
/// # Ok::<(), sendoshi::Refusal>(())
/// ```
pub fn notes(file: &[u8]) -> Notes<'_> {
    Notes { file, from: 0 }
}

/// Goes through the notes of a history file; [`notes`] makes it.
#[derive(Clone, Debug)]
pub struct Notes<'a> {
    file: &'a [u8],
    // Every note whose record begins before this byte has been given.
    from: u32,
}

impl<'a> Iterator for Notes<'a> {
    type Item = Note<'a>;

    fn next(&mut self) -> Option<Note<'a>> {
        let mut found = [0; 3];
        let answer = calls::next_note(self.file, self.from, &mut found);
        let [events, start, length] = found.map(|number| number as usize);
        match answer.code {
            // A note is found behind the byte that was asked for: the walk comes to its end.
            DONE if found[1] > self.from => {
                let bytes = &self.file[start..start + length];
                self.from = found[1] + found[2];
                Some(Note { events, start, bytes })
            }
            NONE => None,
            _ => answer.unexpected(),
        }
    }
}

// Where no note is left, the same walk finds none again.
impl FusedIterator for Notes<'_> {}
