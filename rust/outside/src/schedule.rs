//! Histories from digests: the steps of the transactions put one after the other, each transaction on a thread of its own.

use crate::digest::{Digest, Standing, Transaction};
use crate::random::Random;
use crate::views::lowest_order;
use reference::justification::{Outcome, Place};
use reference::log::Log;
use reference::store::Store;

/// What a transaction does next: an event, or a call with its answer.
#[derive(Clone, Copy, Debug, PartialEq, Eq)]
pub enum Step {
    Begin,
    Read(u16, u32),
    Write(u16, u32),
    CallCommit,
    Commit,
    Abort,
}

impl Step {
    fn is_end(self) -> bool {
        matches!(self, Step::Commit | Step::Abort)
    }
}

/// A history of a digest in which everything comes as early as its rank allows: of the steps that may come next, always the one
/// of the least rank, and the lower transaction's among equals. Exactly those that the digest says precede others.
pub fn play<R: Ord>(digest: &Digest, store: Store, mut rank: impl FnMut(usize, Step) -> R) -> Log {
    let steps: Vec<Vec<Step>> = digest.0.iter().map(steps).collect();
    let mut taken = vec![0; steps.len()];
    let mut log = Log { store, events: Vec::new() };
    loop {
        let due = (0..steps.len()).filter(|&t| is_due(digest, &steps, &taken, t));
        let Some(t) = due.min_by_key(|&t| rank(t, steps[t][taken[t]])) else {
            return log;
        };
        log = take(log, t as u16, steps[t][taken[t]]);
        taken[t] += 1;
    }
}

fn steps(transaction: &Transaction) -> Vec<Step> {
    let reads = transaction.reads.iter().map(|&(register, value)| Step::Read(register, value));
    let writes = transaction.writes.iter().map(|&(register, value)| Step::Write(register, value));
    let end = match transaction.standing {
        Standing::Committed => Some(Step::Commit),
        Standing::Aborted => Some(Step::Abort),
        Standing::Pending | Standing::Live => None,
    };
    let call = transaction.calls_commit().then_some(Step::CallCommit);
    [Step::Begin].into_iter().chain(reads).chain(writes).chain(call).chain(end).collect()
}

/// May the next step of this transaction come now? One begins when all that precede it have ended and all lower ones have begun;
/// one ends when all have begun that it does not precede.
fn is_due(digest: &Digest, steps: &[Vec<Step>], taken: &[usize], t: usize) -> bool {
    match steps[t].get(taken[t]) {
        None => false,
        Some(Step::Begin) => (0..t).all(|u| taken[u] > 0 && (digest.begun_at_end_of(u) > t || taken[u] == steps[u].len())),
        Some(step) => !step.is_end() || (0..digest.begun_at_end_of(t)).all(|u| taken[u] > 0),
    }
}

fn take(log: Log, t: u16, step: Step) -> Log {
    match step {
        Step::Begin => log.begin(t),
        Step::Read(register, value) => log.read(t, register, value),
        Step::Write(register, value) => log.write(t, register, value),
        Step::CallCommit => log.commit_called(t),
        Step::Commit => log.committed(t),
        Step::Abort => log.aborted(t),
    }
}

/// The transactions one after the other once all have begun that can; those that never call commit come last, so that commit is
/// called before what they read.
pub fn in_turn(digest: &Digest, store: Store) -> Log {
    play(digest, store, |t, step| match step {
        Step::Begin => 0,
        _ if digest.begun_at_end_of(t) < digest.0.len() => 1,
        _ if digest.0[t].calls_commit() => 2,
        _ => 3,
    })
}

/// Any step that may come next.
pub fn at_random(digest: &Digest, store: Store, random: &mut Random) -> Log {
    play(digest, store, |_, _| random.word())
}

/// A history that is hard to scan: all begin, then those that may commit go on in this order up to their commit calls, then the
/// others read by turns, and the ends come last. Until an end comes, every order has all its outcomes open.
pub fn commits_first(digest: &Digest, store: Store, order: &[Place], random: &mut Random) -> Log {
    play(digest, store, |t, step| match step {
        Step::Begin => (0, 0),
        step if step.is_end() => (3, random.below(digest.0.len())),
        _ if digest.0[t].standing.may_commit() => (1, position(order, t)),
        _ => (2, random.below(digest.0.len())),
    })
}

/// The same with the others' reads in the order that breaks a carried witness most often: next comes a read that returns another
/// value than the witness has for it, as long as there is one. All who may commit have called commit by then, so that each search
/// for another witness has all of them to place either way.
pub fn witness_breaking(digest: &Digest, store: Store, order: &[Place], random: &mut Random) -> Log {
    let mut log = commits_first(&digest.before_late_reads(), store, order, random);
    let mut reads = digest.late_reads();
    let mut witness = lowest_order(&log);
    while !reads.is_empty() {
        let breaks = |&(t, register, value): &LateRead| {
            witness.as_ref().is_some_and(|order| seen(digest, &store, order, t, register) != value)
        };
        let breaking = reads.iter().position(breaks);
        let (t, register, value) = reads.remove(breaking.unwrap_or(0));
        log = log.read(t, register, value);
        if breaking.is_some() {
            witness = lowest_order(&log);
        }
    }
    (0..digest.0.len()).fold(log, |log, t| end(log, t as u16, &digest.0[t]))
}

/// A read of a transaction that may not commit: the transaction, the register and the value.
type LateRead = (u16, u16, u32);

impl Digest {
    /// What has happened when all commits are called, none is answered, and the others have done nothing yet.
    fn before_late_reads(&self) -> Digest {
        let so_far = |transaction: &Transaction| match transaction.standing.may_commit() {
            true => Transaction::new(Standing::Pending, transaction.reads.clone(), transaction.writes.clone()),
            false => Transaction::new(Standing::Live, Vec::new(), Vec::new()),
        };
        Digest(self.0.iter().map(so_far).collect())
    }

    fn late_reads(&self) -> Vec<LateRead> {
        let late = (0..).zip(&self.0).filter(|(_, transaction)| !transaction.standing.may_commit());
        late.flat_map(|(t, transaction)| transaction.reads.iter().map(move |&(register, value)| (t, register, value))).collect()
    }
}

/// What a transaction finds in a register by an order.
fn seen(digest: &Digest, store: &Store, order: &[Place], t: u16, register: u16) -> u32 {
    let before = order.iter().take_while(|place| place.transaction != t).filter(|place| place.outcome == Outcome::Committed);
    let written = before.filter_map(|place| digest.0[usize::from(place.transaction)].written(register));
    written.last().unwrap_or(store.start(register))
}

/// What is left of a transaction after its reads and its commit call.
fn end(log: Log, t: u16, transaction: &Transaction) -> Log {
    let late = steps(transaction).into_iter().filter(|step| match step {
        Step::Begin | Step::Read(..) => false,
        Step::Write(..) | Step::CallCommit => !transaction.standing.may_commit(),
        Step::Commit | Step::Abort => true,
    });
    late.fold(log, |log, step| take(log, t, step))
}

fn position(order: &[Place], t: usize) -> usize {
    order.iter().position(|place| usize::from(place.transaction) == t).unwrap_or(t)
}

#[cfg(test)]
mod tests {
    use super::*;
    use crate::random_digest::{serial, wild, Shape};
    use crate::views::Views;
    use reference::event::*;
    use reference::justification::{is_allowed, precedes};
    use reference::reads::{last_write, store_reads};

    /// Reads the digest back from a history, by the definitions.
    fn digest_of(log: &Log) -> Digest {
        let transaction = |t: u16| {
            let allowed = |outcome| is_allowed(&log.events, Place { transaction: t, outcome });
            let ended = log.events.iter().any(|e| e.is_end() && e.transaction == t);
            let standing = match (allowed(Outcome::Committed), allowed(Outcome::Aborted)) {
                (true, false) => Standing::Committed,
                (true, true) => Standing::Pending,
                _ if ended => Standing::Aborted,
                _ => Standing::Live,
            };
            let reads = store_reads(&log.events).map(|at| log.events[at]).filter(|e| e.transaction == t);
            let written = log.events.iter().filter(|e| e.kind == WRITE_CALLED && e.transaction == t);
            let begun = log.events.iter().filter(|e| e.kind == BEGIN).count();
            let before = (0..begun).find(|&later| precedes(&log.events, t, later as u16));
            let mut all = Transaction::new(standing, reads.map(|e| (e.register, e.value)).collect(), Vec::new());
            all.writes = written.map(|e| (e.register, last_write(&log.events, t, e.register).unwrap())).collect();
            Transaction { before, ..sorted(all) }
        };
        let begun = log.events.iter().filter(|e| e.kind == BEGIN);
        Digest(begun.map(|e| transaction(e.transaction)).collect())
    }

    /// The same transaction with its accesses in order, each once.
    fn sorted(mut transaction: Transaction) -> Transaction {
        for accesses in [&mut transaction.reads, &mut transaction.writes] {
            accesses.sort();
            accesses.dedup();
        }
        transaction
    }

    fn readable(log: &Log) -> bool {
        reference::entries::history(&log.store, &Columns::of(&log.events), log.events.len()).is_ok()
    }

    #[test]
    fn a_history_has_the_digest_that_it_is_made_from() {
        for seed in 0..2_000 {
            let mut random = Random::new(seed);
            let shape = Shape::small(&mut random, 5);
            let digest = if random.chance(50) { wild(&mut random, shape) } else { serial(&mut random, shape, &Store::ZERO) };
            let made = Digest(digest.0.iter().cloned().map(sorted).collect());
            for log in [in_turn(&digest, Store::ZERO), at_random(&digest, Store::ZERO, &mut random)] {
                assert!(readable(&log), "{digest}");
                assert_eq!(log.events.len(), digest.length());
                assert_eq!(digest_of(&log), made, "{digest}");
            }
            let order = lowest_order(&in_turn(&digest, Store::ZERO)).unwrap_or_default();
            let filled = digest.filled(100);
            for log in [commits_first(&filled, Store::ZERO, &order, &mut random), at_random(&filled, Store::ZERO, &mut random)] {
                assert!(readable(&log), "{filled}");
                assert_eq!(digest_of(&log), made, "{filled}");
            }
        }
    }

    /// A live one that reads from four pending ones by turns, the lowest last: each read breaks the order before it.
    #[test]
    fn reads_that_break_the_witness_come_first() {
        let digest: Digest = "live 0=1 1=1 2=1 3=1; pending 0:=1; pending 1:=1; pending 2:=1; pending 3:=1".parse().unwrap();
        let mut random = Random::new(1);
        let searches = |log: &Log| {
            let views = Views::of(log);
            plain::scan_counting(views.plain_store(), views.plain(), views.count()).unwrap().searches
        };
        let order = lowest_order(&in_turn(&digest, Store::ZERO)).unwrap();
        let log = witness_breaking(&digest.filled(100), Store::ZERO, &order, &mut random);
        assert!(readable(&log));
        assert_eq!(log.events.len(), digest.filled(100).length());
        assert_eq!(searches(&log), 4);
    }
}
