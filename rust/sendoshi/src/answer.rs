//! The one number that every call answers with.

use crate::judgement::Rule;
use crate::question::{Place, Question, Refusal};

/// A code and its place, taken apart.
#[derive(Clone, Copy, Debug, PartialEq, Eq)]
pub struct Answer {
    pub code: u32,
    pub place: u32,
}

/// What was asked for is done; the place is the count or the length, or several of them in one number.
pub const DONE: u32 = 0;
/// The finder's answer where no order justifies the prefix, and that of the walk through notes where none is left.
pub const NONE: u32 = 100;

impl Answer {
    /// Takes code × 2^32 + place apart.
    pub fn of(number: u64) -> Answer {
        Answer { code: (number >> 32) as u32, place: number as u32 }
    }

    /// The refusal that the code stands for, if it stands for one.
    pub(crate) fn refusal(self, place: fn(usize) -> Place) -> Option<Refusal> {
        let question = u8::try_from(self.code).ok().and_then(Question::from_number)?;
        Some(Refusal { question, place: place(self.place as usize) })
    }

    /// The place of a call that is done, or its refusal.
    ///
    /// # Panics
    ///
    /// If the code is none that the call can answer with: the archive is then not the one that this crate was written for.
    pub(crate) fn done(self, place: fn(usize) -> Place) -> Result<usize, Refusal> {
        match self.refusal(place) {
            Some(refusal) => Err(refusal),
            None if self.code == DONE => Ok(self.place as usize),
            None => self.unexpected(),
        }
    }

    /// The two numbers that share the place of a history that is read, its edition and its event count; of a broken rule, its event
    /// and its transaction; or of a straightened marking, how many points were moved and its length.
    pub fn halves(self) -> (usize, usize) {
        ((self.place >> 16) as usize, (self.place & 0xffff) as usize)
    }

    /// The four numbers that share the place of a tally: how many transactions committed, were aborted, are pending and are live.
    pub fn quarters(self) -> [usize; 4] {
        self.place.to_be_bytes().map(usize::from)
    }

    /// The rule that is broken, its event and its transaction, if the code stands for one.
    pub(crate) fn broken(self) -> Option<(Rule, usize, u16)> {
        let (event, transaction) = self.halves();
        Some((Rule::from_code(self.code)?, event, transaction as u16))
    }

    pub(crate) fn unexpected(self) -> ! {
        panic!("the library answered with code {} and place {}", self.code, self.place)
    }
}
