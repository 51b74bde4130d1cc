//! What the scan, the checker and the straightening of a marking answer.

use std::fmt;

/// The kind of event that left the history without a justification.
#[derive(Clone, Copy, Debug, PartialEq, Eq, Hash)]
pub enum Cause {
    /// A returned read, or a lone one.
    ReadReturned = 1,
    Committed = 2,
    Aborted = 3,
    Other = 4,
}

impl Cause {
    /// The number of the cause.
    pub fn number(self) -> u8 {
        self as u8
    }

    pub(crate) fn from_code(code: u32) -> Option<Cause> {
        match code {
            101 => Some(Cause::ReadReturned),
            102 => Some(Cause::Committed),
            103 => Some(Cause::Aborted),
            104 => Some(Cause::Other),
            _ => None,
        }
    }
}

/// The judgement on all prefixes of a history. It displays as the line of a report.
#[derive(Clone, Copy, Debug, PartialEq, Eq, Hash)]
pub enum Scan {
    /// Every prefix has a justification.
    Opaque,
    /// The first prefix without a justification ends with this event.
    Faulted { event: usize, cause: Cause },
}

impl fmt::Display for Scan {
    fn fmt(&self, f: &mut fmt::Formatter) -> fmt::Result {
        match self {
            Scan::Opaque => f.write_str("opaque yes"),
            Scan::Faulted { event, cause } => write!(f, "opaque no event {event} cause {}", cause.number()),
        }
    }
}

/// The rules of a marking.
#[derive(Clone, Copy, Debug, PartialEq, Eq, Hash)]
pub enum Rule {
    /// Each outcome is one that the history allows.
    A,
    /// No transaction is placed before one that ended before it began.
    B,
    /// Each own read returns the latest own write.
    C,
    /// Between a read point and its reader no other transaction writes the register.
    D,
    /// Each store read returns what the last other writer before its point left.
    E,
}

impl Rule {
    pub(crate) fn from_code(code: u32) -> Option<Rule> {
        match code {
            201 => Some(Rule::A),
            202 => Some(Rule::B),
            203 => Some(Rule::C),
            204 => Some(Rule::D),
            205 => Some(Rule::E),
            _ => None,
        }
    }
}

/// The verdict on a marking. It displays as the line of a report.
#[derive(Clone, Copy, Debug, PartialEq, Eq, Hash)]
pub enum Verdict {
    Accepted,
    /// The first broken rule, at its lowest transaction (A, B) or event (C, D, E).
    Broken {
        rule: Rule,
        event: usize,
        transaction: u16,
    },
}

impl fmt::Display for Verdict {
    fn fmt(&self, f: &mut fmt::Formatter) -> fmt::Result {
        match self {
            Verdict::Accepted => f.write_str("marking accepted"),
            Verdict::Broken { rule, event, transaction } => {
                write!(f, "marking rule {rule:?} event {event} transaction {transaction}")
            }
        }
    }
}

/// What comes of straightening a marking's read points.
#[derive(Clone, Debug, PartialEq, Eq, Hash)]
pub enum Straightening {
    /// Outcomes and order are a justification. The straightened marking is accepted.
    Straightened {
        marking: Vec<u8>,
        /// The events whose points were moved, rising.
        moved: Vec<usize>,
    },
    /// Outcomes and order are no justification, wherever the points stand: the first rule that is broken with the points moved, which
    /// is never D.
    Broken { rule: Rule, event: usize, transaction: u16 },
}
