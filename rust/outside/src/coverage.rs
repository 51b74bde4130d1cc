//! Which codes each entry has answered with, which transactions were tallied, what was read of start values, what was accessed outside
//! transactions, where notes stood, what became of searches, and how often.

use std::collections::BTreeMap;
use std::fmt;

#[derive(Clone, Copy, Debug, PartialEq, Eq, PartialOrd, Ord)]
pub enum Entry {
    Read,
    NextNote,
    Write,
    Find,
    Scan,
    Check,
    Straighten,
    Transactions,
    StoreReads,
    Tally,
}

/// What a tallied history can have: one of the four numbers that is not 0, or a transaction aborted in one of the four ways.
#[derive(Clone, Copy, Debug, PartialEq, Eq, PartialOrd, Ord)]
pub enum Tallied {
    Committed,
    Aborted,
    Pending,
    Live,
    AbortedFromRead,
    AbortedFromWrite,
    AbortedAfterCommitCall,
    AbortedWithNoCall,
}

/// What a scanned history can have to do with the store it finds.
#[derive(Clone, Copy, Debug, PartialEq, Eq, PartialOrd, Ord)]
pub enum Started {
    /// Edition 1.
    EditionOne,
    /// Edition 2 with zeros only.
    NoStart,
    /// An opaque history with a store read of a start value that is not 0.
    Read,
    /// An opaque history with a store read of another value, where a start value stood.
    Hidden,
    /// A history faulted by a store read of a start value that is not 0.
    ReadInVain,
    /// A history faulted by a store read of 0, where a start value stood.
    ZeroInVain,
}

/// What a scanned history can have to do with accesses outside transactions.
#[derive(Clone, Copy, Debug, PartialEq, Eq, PartialOrd, Ord)]
pub enum Lone {
    /// An opaque history with a lone read.
    Read,
    /// An opaque history with a lone read of what a commit leaves that was not answered when it was read.
    ReadOfPending,
    /// A history faulted by a lone read.
    ReadInVain,
    /// An opaque history with a lone write.
    Write,
    /// An opaque history in which a transaction reads what a lone write alone can have left.
    WriteSeen,
    /// The same where a lone read does.
    WriteSeenAlone,
    /// A history faulted by a read, not a lone one, of what only a lone write wrote.
    WriteSeenInVain,
}

/// Where a note of a file that was read can stand, and what it can carry.
#[derive(Clone, Copy, Debug, PartialEq, Eq, PartialOrd, Ord)]
pub enum Noted {
    BeforeStarts,
    BetweenStarts,
    /// Behind start records and before an event.
    BehindStarts,
    /// Before the first event of a file without start records.
    BeforeEvents,
    BetweenEvents,
    BehindEvents,
    /// At the end of a file that has no event.
    WithoutEvents,
    /// Right behind another note.
    InARow,
    /// It has no byte.
    Empty,
    /// It has as many bytes as a note may have.
    Full,
}

/// What a finder can make of a history.
#[derive(Clone, Copy, Debug, PartialEq, Eq, PartialOrd, Ord)]
pub enum Searched {
    /// The lowest order takes the transactions as they are numbered.
    Rising,
    /// The lowest order goes back: some that begin with a lower transaction were tried before it, in vain.
    NotRising,
    /// Every order was tried in vain.
    InVain,
}

/// Everything that is noted.
#[derive(Clone, Copy, Debug, PartialEq, Eq, PartialOrd, Ord)]
enum Met {
    Answered(Entry, u32),
    Tallied(Tallied),
    Started(Started),
    Lone(Lone),
    Noted(Noted),
    Searched(Searched),
}

#[derive(Clone, Debug, Default)]
pub struct Coverage {
    met: BTreeMap<Met, u64>,
}

impl Coverage {
    pub fn note(&mut self, entry: Entry, code: u32) {
        self.note_met(Met::Answered(entry, code));
    }

    pub fn note_tallied(&mut self, what: Tallied) {
        self.note_met(Met::Tallied(what));
    }

    pub fn note_started(&mut self, what: Started) {
        self.note_met(Met::Started(what));
    }

    pub fn note_lone(&mut self, what: Lone) {
        self.note_met(Met::Lone(what));
    }

    pub fn note_noted(&mut self, what: Noted) {
        self.note_met(Met::Noted(what));
    }

    pub fn note_searched(&mut self, what: Searched) {
        self.note_met(Met::Searched(what));
    }

    fn note_met(&mut self, met: Met) {
        *self.met.entry(met).or_default() += 1;
    }

    pub fn add(&mut self, other: &Coverage) {
        for (&met, count) in &other.met {
            *self.met.entry(met).or_default() += count;
        }
    }

    pub fn count(&self, entry: Entry, code: u32) -> u64 {
        self.met.get(&Met::Answered(entry, code)).copied().unwrap_or(0)
    }

    /// Fails if an entry has never answered with one of these codes.
    pub fn require(&self, entry: Entry, codes: &[u32]) {
        self.require_met(codes.iter().map(|&code| Met::Answered(entry, code)));
    }

    /// Fails if something that a history can have was in none that was tallied.
    pub fn require_every_tallied(&self) {
        self.require_met(TALLIED.into_iter().map(Met::Tallied));
    }

    /// Fails if one of these was the case of no history that was scanned.
    pub fn require_started(&self, all: &[Started]) {
        self.require_met(all.iter().copied().map(Met::Started));
    }

    /// Fails if one of these was the case of no history that was scanned.
    pub fn require_lone(&self, all: &[Lone]) {
        self.require_met(all.iter().copied().map(Met::Lone));
    }

    /// Fails if no file that was read had a note that stands, or carries what it does, in one of the ways there are.
    pub fn require_every_noted(&self) {
        self.require_met(NOTED.into_iter().map(Met::Noted));
    }

    /// Fails if something that can become of a search never did.
    pub fn require_every_searched(&self) {
        self.require_met(SEARCHED.into_iter().map(Met::Searched));
    }

    fn require_met(&self, all: impl Iterator<Item = Met>) {
        let missing: Vec<Met> = all.filter(|met| !self.met.contains_key(met)).collect();
        assert!(missing.is_empty(), "{missing:?} was never met, but\n{self}");
    }

    /// Fails if an entry has answered with a code that it has not: the scan with cause 4, say, or the straightener with rule D.
    pub fn allow(&self) {
        for met in self.met.keys() {
            if let &Met::Answered(entry, code) = met {
                let known = judgements(entry).contains(&code) || refusals(entry).contains(&code);
                assert!(known, "{entry:?} answered with {code}");
            }
        }
    }
}

impl fmt::Display for Coverage {
    fn fmt(&self, f: &mut fmt::Formatter) -> fmt::Result {
        for (met, count) in &self.met {
            match met {
                Met::Answered(entry, code) => writeln!(f, "{entry:?} {code}: {count}")?,
                Met::Tallied(what) => writeln!(f, "tallied {what:?}: {count}")?,
                Met::Started(what) => writeln!(f, "start values {what:?}: {count}")?,
                Met::Lone(what) => writeln!(f, "lone accesses {what:?}: {count}")?,
                Met::Noted(what) => writeln!(f, "notes {what:?}: {count}")?,
                Met::Searched(what) => writeln!(f, "searched {what:?}: {count}")?,
            }
        }
        Ok(())
    }
}

/// The questions that columns, their store and their events are asked by every entry but the reader.
const COLUMNS: [u32; 12] = [3, 4, 6, 7, 8, 9, 10, 11, 12, 13, 16, 17];

/// The questions that a marking is asked.
const MARKING: [u32; 11] = [1, 2, 21, 22, 23, 24, 25, 26, 27, 28, 29];

/// The questions that an entry can answer with no.
pub fn refusals(entry: Entry) -> Vec<u32> {
    let own: Vec<u32> = match entry {
        Entry::Read => return (1..=14).chain(41..=44).collect(),
        Entry::NextNote => return vec![],
        Entry::Write => vec![15],
        Entry::Find => vec![18, 31, 32],
        Entry::Scan => vec![31],
        Entry::Check => MARKING.to_vec(),
        Entry::Straighten => [&MARKING[..], &[15]].concat(),
        Entry::Transactions | Entry::StoreReads | Entry::Tally => vec![],
    };
    [&COLUMNS[..], &own].concat()
}

/// The other codes that an entry can answer with. The scan's cause 4 is not among them: no readable history has it. Nor is rule D
/// among those of a straightened marking: nothing lies between a reader and a point at its place.
pub fn judgements(entry: Entry) -> &'static [u32] {
    match entry {
        Entry::Find | Entry::NextNote => &[0, 100],
        Entry::Scan => &[0, 101, 102, 103],
        Entry::Check => &[0, 201, 202, 203, 204, 205],
        Entry::Straighten => &[0, 201, 202, 203, 205],
        _ => &[0],
    }
}

pub const ENTRIES: [Entry; 10] = [
    Entry::Read,
    Entry::NextNote,
    Entry::Write,
    Entry::Find,
    Entry::Scan,
    Entry::Check,
    Entry::Straighten,
    Entry::Transactions,
    Entry::StoreReads,
    Entry::Tally,
];

pub const TALLIED: [Tallied; 8] = [
    Tallied::Committed,
    Tallied::Aborted,
    Tallied::Pending,
    Tallied::Live,
    Tallied::AbortedFromRead,
    Tallied::AbortedFromWrite,
    Tallied::AbortedAfterCommitCall,
    Tallied::AbortedWithNoCall,
];

pub const STARTED: [Started; 6] =
    [Started::EditionOne, Started::NoStart, Started::Read, Started::Hidden, Started::ReadInVain, Started::ZeroInVain];

pub const LONE: [Lone; 7] = [
    Lone::Read,
    Lone::ReadOfPending,
    Lone::ReadInVain,
    Lone::Write,
    Lone::WriteSeen,
    Lone::WriteSeenAlone,
    Lone::WriteSeenInVain,
];

pub const NOTED: [Noted; 10] = [
    Noted::BeforeStarts,
    Noted::BetweenStarts,
    Noted::BehindStarts,
    Noted::BeforeEvents,
    Noted::BetweenEvents,
    Noted::BehindEvents,
    Noted::WithoutEvents,
    Noted::InARow,
    Noted::Empty,
    Noted::Full,
];

pub const SEARCHED: [Searched; 3] = [Searched::Rising, Searched::NotRising, Searched::InVain];
