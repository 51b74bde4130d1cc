//! The checker.

use crate::accesses::{Accesses, StoreRead};
use crate::columns::*;
use crate::marking_file::{read_marking, Marking};
use crate::store::Store;

#[derive(Clone, Copy, Debug, PartialEq, Eq)]
pub enum Verdict {
    Accepted,
    /// The rule from `A` to `E`, the event and its transaction.
    Broken(char, usize, usize),
}

/// Checks a marking of the first `count` events.
pub fn check(store: Store, columns: Columns, count: usize, file: &[u8]) -> Result<Verdict, Refusal> {
    columns.validate(store, count)?;
    let accesses = Accesses::of(columns, count);
    let marking = read_marking(file, &accesses)?;
    let broken = broken_order(columns, &accesses, &marking)
        .or_else(|| first_read(&accesses, &marking, 'D', |read, gap| overwritten(&accesses, &marking, read, gap)))
        .or_else(|| first_read(&accesses, &marking, 'E', |read, gap| wrong_value(store, &accesses, &marking, read, gap)));
    Ok(broken.map_or(Verdict::Accepted, |(rule, event, transaction)| Verdict::Broken(rule, event, transaction)))
}

/// The first of the rules A, B and C that is broken, which the read points have no part in.
pub fn broken_order(columns: Columns, accesses: &Accesses, marking: &Marking) -> Option<(char, usize, usize)> {
    outcomes(accesses, marking)
        .or_else(|| real_time(accesses, marking))
        .or_else(|| accesses.wrong_own_read.map(|at| ('C', at, usize::from(columns.transactions[at]))))
}

fn outcomes(accesses: &Accesses, marking: &Marking) -> Option<(char, usize, usize)> {
    let wrong = accesses.spans.iter().zip(&marking.committed).position(|(span, &committed)| match span.last_kind {
        COMMIT_CALLED => false,
        COMMITTED | LONE_READ | LONE_WRITE => !committed,
        _ => committed,
    })?;
    Some(('A', accesses.spans[wrong].last, wrong))
}

fn real_time(accesses: &Accesses, marking: &Marking) -> Option<(char, usize, usize)> {
    let early = (0..accesses.spans.len()).find(|&transaction| {
        let begin = accesses.spans[transaction].begin;
        let behind = &marking.order[marking.place[transaction]..];
        behind.iter().any(|&other| accesses.spans[usize::from(other)].end.is_some_and(|end| end < begin))
    })?;
    Some(('B', accesses.spans[early].begin, early))
}

fn first_read(
    accesses: &Accesses,
    marking: &Marking,
    rule: char,
    breaks: impl Fn(&StoreRead, usize) -> bool,
) -> Option<(char, usize, usize)> {
    let mut reads = accesses.store_reads.iter().zip(&marking.gaps);
    let (read, _) = reads.find(|(read, &gap)| breaks(read, gap))?;
    Some((rule, read.event, usize::from(read.transaction)))
}

/// What a transaction other than the reader leaves in the register of a read.
fn written(accesses: &Accesses, marking: &Marking, read: &StoreRead, transaction: u16) -> Option<u32> {
    if transaction == read.transaction || !marking.committed[usize::from(transaction)] {
        return None;
    }
    accesses.written[usize::from(transaction)][usize::from(read.register)]
}

/// Rule D.
pub fn overwritten(accesses: &Accesses, marking: &Marking, read: &StoreRead, gap: usize) -> bool {
    let reader = marking.place[usize::from(read.transaction)];
    let between = if gap <= reader { gap..reader } else { reader + 1..gap };
    marking.order[between].iter().any(|&t| written(accesses, marking, read, t).is_some())
}

/// Rule E.
pub fn wrong_value(store: Store, accesses: &Accesses, marking: &Marking, read: &StoreRead, gap: usize) -> bool {
    let before = marking.order[..gap].iter().rev();
    let last = before.filter_map(|&t| written(accesses, marking, read, t)).next();
    last.unwrap_or(store.starts[usize::from(read.register)]) != read.value
}
