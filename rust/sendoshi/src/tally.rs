//! What has become of a history's transactions.

use std::fmt;

/// The transactions of a history, each counted once. It displays as the line of a report.
#[derive(Clone, Copy, Debug, PartialEq, Eq, Hash)]
pub struct Tally {
    /// Those that have committed, lone accesses among them.
    pub committed: usize,
    /// Those that were aborted, also after they called commit.
    pub aborted: usize,
    /// Those that called commit and have no answer yet.
    pub pending: usize,
    /// The others that have not ended.
    pub live: usize,
}

impl fmt::Display for Tally {
    fn fmt(&self, f: &mut fmt::Formatter) -> fmt::Result {
        let Tally { committed, aborted, pending, live } = self;
        write!(f, "committed {committed} aborted {aborted} pending {pending} live {live}")
    }
}
