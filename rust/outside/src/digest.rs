//! Digests of histories. A digest says of each transaction how it stands, what it read from the store, what it wrote and which
//! ones it precedes, and nothing else of the order of events: that is what a search for an order has to go by. Inputs that make
//! such a search long are short as digests.
//!
//! One is written on a line as `committed>2 3=0 3:=1; pending 4:=1; live 3=1 4=1`: the transactions in order, each with its
//! standing, the first transaction that begins after its end if there is one, its reads `register=value` and its writes
//! `register:=value`.

use std::fmt;
use std::str::FromStr;

/// How a transaction stands at the end: pending where its commit is called and unanswered.
#[derive(Clone, Copy, Debug, PartialEq, Eq)]
pub enum Standing {
    Committed,
    Aborted,
    Pending,
    Live,
}

pub const STANDINGS: [Standing; 4] = [Standing::Committed, Standing::Aborted, Standing::Pending, Standing::Live];

#[derive(Clone, Debug, PartialEq, Eq)]
pub struct Transaction {
    pub standing: Standing,
    /// Registers and values, read before anything is written.
    pub reads: Vec<(u16, u32)>,
    pub writes: Vec<(u16, u32)>,
    /// The first of the later ones that begins after this one has ended. It says nothing of one that does not end.
    pub before: Option<usize>,
}

/// The transactions in the order in which they begin.
#[derive(Clone, Debug, PartialEq, Eq)]
pub struct Digest(pub Vec<Transaction>);

impl Standing {
    pub fn ends(self) -> bool {
        matches!(self, Standing::Committed | Standing::Aborted)
    }

    pub fn may_commit(self) -> bool {
        matches!(self, Standing::Committed | Standing::Pending)
    }

    fn name(self) -> &'static str {
        match self {
            Standing::Committed => "committed",
            Standing::Aborted => "aborted",
            Standing::Pending => "pending",
            Standing::Live => "live",
        }
    }
}

impl Transaction {
    /// One that precedes nobody.
    pub fn new(standing: Standing, reads: Vec<(u16, u32)>, writes: Vec<(u16, u32)>) -> Transaction {
        Transaction { standing, reads, writes, before: None }
    }

    /// An aborted one that wrote has called commit first: until that is answered, others may have read from it.
    pub fn calls_commit(&self) -> bool {
        self.standing.may_commit() || (self.standing == Standing::Aborted && !self.writes.is_empty())
    }

    /// What it leaves in a register if it commits: the last that it wrote there.
    pub fn written(&self, register: u16) -> Option<u32> {
        self.writes.iter().rev().find(|write| write.0 == register).map(|write| write.1)
    }

    /// How many events it has: calls and answers are two, but for a commit that is not answered.
    fn length(&self) -> usize {
        let commit_call = usize::from(self.calls_commit());
        1 + 2 * self.reads.len() + 2 * self.writes.len() + commit_call + usize::from(self.standing.ends())
    }
}

impl Digest {
    /// How many have begun when this transaction may end: all, unless it precedes some.
    pub fn begun_at_end_of(&self, t: usize) -> usize {
        let named = self.0[t].before.filter(|&first| self.0[t].standing.ends() && first > t);
        named.unwrap_or(self.0.len()).min(self.0.len())
    }

    /// The same reads over and over, of each transaction in its turn, until a history of it has so many events or one less. A
    /// repeated read returns what it returned, so that nothing else is asked of an order.
    pub fn filled(&self, events: usize) -> Digest {
        let mut filled = self.clone();
        let readers: Vec<usize> = (0..self.0.len()).filter(|&t| !self.0[t].reads.is_empty()).collect();
        let more = events.saturating_sub(self.length()) / 2;
        for (at, &t) in readers.iter().cycle().take(more).enumerate() {
            let reads = &self.0[t].reads;
            filled.0[t].reads.push(reads[at / readers.len() % reads.len()]);
        }
        filled
    }

    /// How many events a history of it has.
    pub fn length(&self) -> usize {
        self.0.iter().map(Transaction::length).sum()
    }
}

impl fmt::Display for Digest {
    fn fmt(&self, f: &mut fmt::Formatter) -> fmt::Result {
        for (t, transaction) in self.0.iter().enumerate() {
            let separator = if t == 0 { "" } else { "; " };
            write!(f, "{separator}{transaction}")?;
        }
        Ok(())
    }
}

impl fmt::Display for Transaction {
    fn fmt(&self, f: &mut fmt::Formatter) -> fmt::Result {
        f.write_str(self.standing.name())?;
        if let Some(first) = self.before {
            write!(f, ">{first}")?;
        }
        self.reads.iter().try_for_each(|(register, value)| write!(f, " {register}={value}"))?;
        self.writes.iter().try_for_each(|(register, value)| write!(f, " {register}:={value}"))
    }
}

impl FromStr for Digest {
    type Err = String;

    fn from_str(line: &str) -> Result<Digest, String> {
        line.split(';').map(str::parse).collect::<Result<_, _>>().map(Digest)
    }
}

impl FromStr for Transaction {
    type Err = String;

    fn from_str(text: &str) -> Result<Transaction, String> {
        let mut words = text.split_whitespace();
        let head = words.next().ok_or("a transaction without a standing")?;
        let (name, before) = match head.split_once('>') {
            Some((name, first)) => (name, Some(number(first)?)),
            None => (head, None),
        };
        let standing = STANDINGS.into_iter().find(|standing| standing.name() == name).ok_or(format!("{name} is no standing"))?;
        let mut transaction = Transaction { before, ..Transaction::new(standing, Vec::new(), Vec::new()) };
        for word in words {
            match (word.split_once(":="), word.split_once('=')) {
                (Some((register, value)), _) => transaction.writes.push((number(register)?, number(value)?)),
                (None, Some((register, value))) => transaction.reads.push((number(register)?, number(value)?)),
                (None, None) => return Err(format!("{word} is no access")),
            }
        }
        Ok(transaction)
    }
}

fn number<N: FromStr>(text: &str) -> Result<N, String> {
    text.parse().map_err(|_| format!("{text} is no number here"))
}

#[cfg(test)]
mod tests {
    use super::*;
    use crate::random::Random;
    use crate::random_digest::{serial, wild, Shape};
    use reference::store::Store;

    #[test]
    fn parsing_and_printing_undo_each_other() {
        let line = "committed>2 3=0 3:=1; pending 4:=1; live 3=1 4=1; aborted";
        assert_eq!(line.parse::<Digest>().unwrap().to_string(), line);
        for seed in 0..1_000 {
            let mut random = Random::new(seed);
            let shape = Shape::small(&mut random, 6);
            for digest in [wild(&mut random, shape), serial(&mut random, shape, &Store::ZERO)] {
                assert_eq!(digest.to_string().parse(), Ok(digest));
            }
        }
    }

    #[test]
    fn what_is_no_digest_is_refused() {
        for line in
            ["", "; live", "waiting 0=1", "live 0", "live 0=x", "live -1=0", "live 65536=0", "live 0:=4294967296", "live>x"]
        {
            assert!(line.parse::<Digest>().is_err(), "{line}");
        }
    }
}
