//! The questions that a file, columns or a marking must pass, and the refusal of one that does not.

use std::error::Error;
use std::fmt;

macro_rules! questions {
    ($($number:literal $name:ident $text:literal)*) => {
        /// A question that was answered with no. Its text says what is wrong.
        #[derive(Clone, Copy, Debug, PartialEq, Eq, Hash)]
        #[repr(u8)]
        pub enum Question {
            $(#[doc = $text] $name = $number,)*
        }

        impl Question {
            /// Every question, by rising number.
            pub const ALL: &'static [Question] = &[$(Question::$name),*];

            /// The question of a number.
            pub fn from_number(number: u8) -> Option<Question> {
                match number {
                    $($number => Some(Question::$name),)*
                    _ => None,
                }
            }

            /// What is wrong, in plain words.
            pub fn text(self) -> &'static str {
                match self {
                    $(Question::$name => $text,)*
                }
            }
        }
    };
}

questions! {
    1 FileTooLong "the file is longer than 32,768 bytes"
    2 RecordCut "a record is cut off, or its length is too small to cover a kind"
    3 HistoryHead "there is no head of a history of edition 1 or 2, or edition 1 is given with a start value that is not 0"
    4 EventKind "the kind is none of the event kinds, 16 to 23 and in edition 2 also 24 and 25, nor 48 in a file, nor 3 in one of edition 2"
    5 EventSize "the record is longer or shorter than its kind asks for"
    6 TooManyEvents "there are more than 2,048 events"
    7 TooManyTransactions "more than 64 transactions begin, lone accesses among them"
    8 TransactionNumber "the begin or the lone access does not carry the next free transaction number"
    9 ThreadNumber "the thread of the begin or the lone access is not below 16"
    10 ThreadBusy "the thread of the begin or the lone access is still busy with its previous transaction"
    11 TransactionNotRunning "the transaction has not begun, or has ended already, as a lone access has at once"
    12 RegisterNumber "the register of the call or the lone access is not below 32"
    13 EventNotDue "the event does not fit the transaction's pending call"
    14 ColumnTooShort "one of the five columns is too short for the events of the file"
    15 OutputTooShort "the output is too short for the file, or the list for the points that may be moved"
    16 StrayField "a field that the kind does not have is not 0, or a returned read names another register than its call"
    17 CountTooLarge "one of the five columns is shorter than the count"
    18 PrefixTooLong "the prefix is longer than the history"
    21 MarkingHead "the file does not start with the head of a marking of edition 1"
    22 MarkingKind "the kind is neither that of a place nor that of a read point"
    23 MarkingSize "the record is longer or shorter than its kind asks for"
    24 PlaceNotOpen "a place follows a read point, names no transaction of the history, or names one that has its place already"
    25 OutcomeNumber "the outcome is neither 0 nor 1"
    26 PointNotDue "the read point's event is not above the last one's, or is no store read"
    27 GapTooLarge "the gap is larger than the number of transactions"
    28 TransactionMissing "a transaction has no place"
    29 PointMissing "a store read has no read point"
    31 TooManyToJudge "more than 10 transactions begin in what is to be judged"
    32 MarkingTooShort "the output is too short for the marking"
    41 StartRegister "the start record's register is not above the last one's, or not below 32"
    42 StartZero "the start record's value is 0"
    43 StartLate "a start record follows an event"
    44 NoteLong "the note has more than 64 bytes"
}

impl Question {
    /// The number under which the library and its formats know the question.
    pub fn number(self) -> u8 {
        self as u8
    }
}

impl fmt::Display for Question {
    fn fmt(&self, f: &mut fmt::Formatter) -> fmt::Result {
        f.write_str(self.text())
    }
}

/// Where a question was answered with no.
#[derive(Clone, Copy, Debug, PartialEq, Eq, Hash)]
pub enum Place {
    /// The byte where the record begins, or the file's length at its end.
    Byte(usize),
    /// The event, or the event count where the question is about all of them.
    Event(usize),
}

impl fmt::Display for Place {
    fn fmt(&self, f: &mut fmt::Formatter) -> fmt::Result {
        match self {
            Place::Byte(byte) => write!(f, "byte {byte}"),
            Place::Event(event) => write!(f, "event {event}"),
        }
    }
}

/// The first question that was answered with no, and where.
///
/// ```
/// use sendoshi::{History, Place, Question};
///
/// let refusal = History::read(&[4, 0, 1, 0, 1, 0, 4, 0, 16, 0, 0, 0]).unwrap_err();
/// assert_eq!(refusal.question, Question::EventSize);
/// assert_eq!(refusal.place, Place::Byte(6));
/// assert_eq!(refusal.to_string(), "refused 5 at byte 6: the record is longer or shorter than its kind asks for");
/// ```
#[derive(Clone, Copy, Debug, PartialEq, Eq, Hash)]
pub struct Refusal {
    pub question: Question,
    pub place: Place,
}

impl fmt::Display for Refusal {
    fn fmt(&self, f: &mut fmt::Formatter) -> fmt::Result {
        write!(f, "refused {} at {}: {}", self.question.number(), self.place, self.question)
    }
}

impl Error for Refusal {}
