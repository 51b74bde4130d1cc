//! The search for the lowest justification: depth first, lower transactions first and aborted before committed, and before it
//! walks on it asks whether it can still arrive.

use crate::columns::REGISTERS;
use crate::tables::{Tables, Transaction, MOST};

/// A transaction and whether it is taken as committed.
pub type Place = (usize, bool);

/// What stands in the registers.
pub type Contents = [u32; REGISTERS];

/// The order that was found, if there is one, and how many transactions were placed on the way, those of the questions among
/// them.
pub struct Found {
    pub order: Option<Vec<Place>>,
    pub placements: u64,
}

/// The lowest justification of the prefix that the tables describe, in a store that starts with these values.
pub fn lowest(starts: &Contents, tables: &Tables) -> Found {
    search(starts, tables, FEW, u64::MAX)
}

/// The same by trying alone: no question is asked.
pub fn lowest_by_trying(starts: &Contents, tables: &Tables) -> Found {
    lowest_by_trying_so_often(starts, tables, u64::MAX)
}

/// The same, given up once so many have been placed.
pub fn lowest_by_trying_so_often(starts: &Contents, tables: &Tables, most: u64) -> Found {
    search(starts, tables, MOST as u32 + 1, most)
}

fn search(starts: &Contents, tables: &Tables, few: u32, most: u64) -> Found {
    if tables.hopeless {
        return Found { order: None, placements: 0 };
    }
    let transactions = &tables.transactions;
    let mut search = Search { transactions, few, most, order: Vec::with_capacity(transactions.len()), placements: 0 };
    let found = search.place_rest((1 << transactions.len()) - 1, starts);
    Found { placements: search.placements, order: found.then_some(search.order) }
}

/// Fewer unplaced than this are tried without asking.
const FEW: u32 = 5;

/// A search under way. Sets of transactions have one bit each.
struct Search<'a> {
    transactions: &'a [Transaction],
    few: u32,
    most: u64,
    order: Vec<Place>,
    placements: u64,
}

impl Search<'_> {
    /// Places the transactions that are left.
    fn place_rest(&mut self, left: u64, store: &Contents) -> bool {
        if left == 0 {
            return true;
        }
        if left.count_ones() >= self.few && !self.hopeful(left, store) {
            return false;
        }
        members(left).any(|next| {
            let transaction = &self.transactions[next];
            if transaction.after & left != 0 || !reads_fit(transaction, store) {
                return false;
            }
            let rest = left & !(1 << next);
            (transaction.may_abort && self.place((next, false), rest, store))
                || (transaction.may_commit && self.place((next, true), rest, &after(transaction, store)))
        })
    }

    fn place(&mut self, place: Place, rest: u64, store: &Contents) -> bool {
        if self.placements == self.most {
            return false;
        }
        self.placements += 1;
        self.order.push(place);
        if self.place_rest(rest, store) {
            return true;
        }
        self.order.pop();
        false
    }

    /// May those that are left be placed in some order? No is certain, yes is not.
    fn hopeful(&mut self, left: u64, store: &Contents) -> bool {
        let ready = members(left).filter(|&t| reads_fit(&self.transactions[t], store)).fold(0, |set, t| set | 1 << t);
        !members(left & !ready).any(|t| self.bereft(left, store, t)) && self.possible(left, left, ready, store)
    }

    /// Does t need a value that no other open one writes, now that the last place is filled? A commit may have overwritten it, one that
    /// could have committed leaves others without its writes, and any other place takes nothing away.
    #[inline(never)] // it is asked once a question, and would crowd the search out of registers
    fn bereft(&self, open: u64, store: &Contents, t: usize) -> bool {
        match self.order.last() {
            Some(&(last, true)) => self.orphaned(open, last, t),
            Some(&(last, false)) if !self.transactions[last].may_commit => false,
            _ => self.stranded(open, store, t),
        }
    }

    /// May all that are needed be placed, with commits of open ones in between? `ready` are the open ones whose reads fit.
    fn possible(&mut self, open: u64, need: u64, ready: u64, store: &Contents) -> bool {
        let need = self.settle(need, ready);
        need == 0 || members(ready).any(|t| self.leads(open, need, ready, store, t))
    }

    /// What is still needed when each that is ready and may abort is taken as placed: it leaves the store as it is.
    fn settle(&self, mut need: u64, ready: u64) -> u64 {
        let may_go = |need: u64, t: usize| self.transactions[t].may_abort && self.transactions[t].after & need == 0;
        while let Some(t) = members(need & ready).find(|&t| may_go(need, t)) {
            need &= !(1 << t);
        }
        need
    }

    /// May they, if t commits next?
    fn leads(&mut self, open: u64, need: u64, ready: u64, store: &Contents, t: usize) -> bool {
        let transaction = &self.transactions[t];
        if !transaction.may_commit || transaction.after & need != 0 {
            return false;
        }
        self.placements += 1;
        let open = open & !(1 << t);
        let need = need & open;
        if members(need).any(|reader| self.orphaned(open, t, reader)) {
            return false;
        }
        let store = after(transaction, store);
        let ready = members(open).filter(|&other| self.still_ready(t, ready, &store, other)).fold(0, |set, t| set | 1 << t);
        self.possible(open, need, ready, &store)
    }

    /// Do the reads of t fit, now that the last commit was that of `writer`?
    fn still_ready(&self, writer: usize, ready: u64, store: &Contents, t: usize) -> bool {
        let (writer, reader) = (&self.transactions[writer], &self.transactions[t]);
        let touched = writer.has_written & reader.has_read;
        if registers(touched).any(|register| writer.written[register] != reader.read[register]) {
            return false;
        }
        ready >> t & 1 == 1 || (touched != 0 && reads_fit(reader, store))
    }

    /// Has the commit of `writer` overwritten a value that `reader` needs and no other open one writes?
    #[inline(always)] // it is asked at every commit
    fn orphaned(&self, open: u64, writer: usize, reader: usize) -> bool {
        let (writer, needed) = (&self.transactions[writer], &self.transactions[reader]);
        registers(writer.has_written & needed.has_read).any(|register| {
            let value = needed.read[register];
            writer.written[register] != value && !self.sourced(open & !(1 << reader), register, value)
        })
    }

    /// Does t need a value that is not there and that no other open one writes?
    fn stranded(&self, open: u64, store: &Contents, t: usize) -> bool {
        let needed = &self.transactions[t];
        registers(needed.has_read).any(|register| {
            let value = needed.read[register];
            store[register] != value && !self.sourced(open & !(1 << t), register, value)
        })
    }

    /// May one of the set write the value?
    fn sourced(&self, set: u64, register: usize, value: u32) -> bool {
        members(set).map(|t| &self.transactions[t]).any(|transaction| {
            transaction.may_commit && transaction.has_written >> register & 1 == 1 && transaction.written[register] == value
        })
    }
}

/// The members of a set, lowest first.
fn members(mut set: u64) -> impl Iterator<Item = usize> {
    std::iter::from_fn(move || {
        let lowest = (set != 0).then(|| set.trailing_zeros() as usize)?;
        set &= set - 1;
        Some(lowest)
    })
}

fn registers(set: u32) -> impl Iterator<Item = usize> {
    members(u64::from(set))
}

fn reads_fit(transaction: &Transaction, store: &Contents) -> bool {
    registers(transaction.has_read).all(|register| transaction.read[register] == store[register])
}

/// What stands in the registers after a commit.
fn after(transaction: &Transaction, store: &Contents) -> Contents {
    std::array::from_fn(|register| transaction.written[register] | (store[register] & transaction.unwritten[register]))
}
