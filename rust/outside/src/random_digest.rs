//! Random digests: wild ones, ones that an order surely justifies, and changes to either.

use crate::digest::{Digest, Standing, Transaction};
use crate::random::Random;
use reference::store::Store;

/// What a digest may look like. Few registers and values make many orders fit.
#[derive(Clone, Copy, Debug)]
pub struct Shape {
    pub transactions: usize,
    pub registers: usize,
    /// Values are from 0 to this.
    pub values: usize,
    /// Of a hundred registers, those that a transaction reads and those that it writes.
    pub reads: usize,
    pub writes: usize,
    /// Of a hundred transactions, those whose commits wait for their answers.
    pub pending: usize,
    /// Of a hundred ended ones, those that precede what they can.
    pub precede: usize,
    /// Of a hundred transactions, those that committed after a single access, as a lone one does.
    pub single: usize,
}

impl Shape {
    /// So many transactions with a few accesses each.
    pub fn small(random: &mut Random, transactions: usize) -> Shape {
        let registers = random.pick(&[1, 2, 3, 3, 4]);
        Shape {
            transactions,
            registers,
            values: random.pick(&[1, 2, 2, 3]),
            reads: (100 * random.pick(&[1, 1, 2]) / registers).min(80),
            writes: (100 * random.pick(&[1, 1, 2]) / registers).min(80),
            pending: random.pick(&[20, 40, 60, 80]),
            precede: random.pick(&[0, 0, 30]),
            single: random.pick(&[0, 0, 20, 40]),
        }
    }

    fn standing(self, random: &mut Random) -> Standing {
        match random.chance(self.pending) {
            true => Standing::Pending,
            false => random.pick(&[Standing::Committed, Standing::Committed, Standing::Aborted, Standing::Live]),
        }
    }

    fn value(self, random: &mut Random) -> u32 {
        random.below(self.values + 1) as u32
    }

    fn register(self, random: &mut Random) -> u16 {
        random.below(self.registers) as u16
    }

    /// Some registers, each with a value.
    fn accesses(self, random: &mut Random, percent: usize) -> Vec<(u16, u32)> {
        let chosen: Vec<u16> = (0..self.registers as u16).filter(|_| random.chance(percent)).collect();
        chosen.into_iter().map(|register| (register, self.value(random))).collect()
    }

    fn transaction(self, random: &mut Random) -> Transaction {
        if random.chance(self.single) {
            let access = vec![(self.register(random), self.value(random))];
            return match random.chance(50) {
                true => Transaction::new(Standing::Committed, access, Vec::new()),
                false => Transaction::new(Standing::Committed, Vec::new(), access),
            };
        }
        Transaction::new(self.standing(random), self.accesses(random, self.reads), self.accesses(random, self.writes))
    }
}

/// Transactions that have nothing to do with each other.
pub fn wild(random: &mut Random, shape: Shape) -> Digest {
    let mut digest = Digest((0..shape.transactions).map(|_| shape.transaction(random)).collect());
    for t in 0..shape.transactions {
        if digest.0[t].standing.ends() && random.chance(shape.precede) {
            digest.0[t].before = (t + 1..shape.transactions).nth(random.below(shape.transactions));
        }
    }
    digest
}

/// Transactions that ran one after the other on this store and are numbered otherwise: an order that justifies them there surely
/// is, and a search that tries lower transactions first may come to it late.
pub fn serial(random: &mut Random, shape: Shape, store: &Store) -> Digest {
    let numbers = random.order(shape.transactions);
    let mut contents = store.starts;
    let mut ran: Vec<(usize, Transaction)> = Vec::new();
    for (at, &number) in numbers.iter().enumerate() {
        let mut transaction = shape.transaction(random);
        transaction.reads.iter_mut().for_each(|(register, value)| *value = contents[usize::from(*register)]);
        if commits(random, transaction.standing) {
            transaction.writes.iter().for_each(|&(register, value)| contents[usize::from(register)] = value);
        }
        if transaction.standing.ends() && random.chance(shape.precede) {
            // It can precede only such as ran after it.
            let highest = numbers[..=at].iter().copied().fold(number, usize::max);
            transaction.before = (highest + 1..shape.transactions).nth(random.below(3));
        }
        ran.push((number, transaction));
    }
    ran.sort_by_key(|&(number, _)| number);
    Digest(ran.into_iter().map(|(_, transaction)| transaction).collect())
}

/// Does one that stands so take effect? A pending commit does in most cases.
fn commits(random: &mut Random, standing: Standing) -> bool {
    standing == Standing::Committed || (standing == Standing::Pending && random.chance(80))
}

/// The digest with one thing changed: an access, a standing, two transactions, or one that has become like another.
pub fn changed(random: &mut Random, digest: &Digest, shape: Shape) -> Digest {
    let mut digest = digest.clone();
    let (t, other) = (random.below(digest.0.len()), random.below(digest.0.len()));
    let register = shape.register(random);
    match random.below(12) {
        0..=2 => set(random, shape, &mut digest.0[t].reads, register),
        3..=6 => set(random, shape, &mut digest.0[t].writes, register),
        7 => digest.0[t].standing = shape.standing(random),
        8 => swap(&mut digest, t, other),
        9 => digest.0[t].writes = digest.0[other].writes.clone(),
        10 => digest.0[t] = shape.transaction(random),
        _ => digest.0.iter_mut().for_each(|transaction| set(random, shape, &mut transaction.writes, register)),
    }
    digest
}

/// Gives one register another value among these accesses, or takes it away.
fn set(random: &mut Random, shape: Shape, accesses: &mut Vec<(u16, u32)>, register: u16) {
    accesses.retain(|access| access.0 != register);
    if random.chance(65) {
        accesses.push((register, shape.value(random)));
    }
}

/// Swaps two transactions, each of which now precedes what the other preceded, if it comes later than itself.
fn swap(digest: &mut Digest, t: usize, other: usize) {
    digest.0.swap(t, other);
    for at in [t, other] {
        digest.0[at].before = digest.0[at].before.filter(|&first| first > at);
    }
}

/// Climbs from a digest to one that costs more: so many times something is changed, and the change is kept unless it costs less.
pub fn climb(random: &mut Random, digest: Digest, shape: Shape, steps: usize, cost: impl Fn(&Digest) -> u64) -> Digest {
    let start = (cost(&digest), digest);
    let (_, climbed) = (0..steps).fold(start, |(most, best), _| {
        let next = changed(random, &best, shape);
        let costs = cost(&next);
        if costs >= most {
            (costs, next)
        } else {
            (most, best)
        }
    });
    climbed
}

#[cfg(test)]
mod tests {
    use super::*;
    use crate::schedule::at_random;
    use crate::stores::random_store;
    use reference::judgement::is_justified;

    #[test]
    fn what_ran_serially_is_justified() {
        for seed in 0..2_000 {
            let mut random = Random::new(seed);
            let transactions = 2 + random.below(3);
            let shape = Shape { precede: 50, ..Shape::small(&mut random, transactions) };
            let store = random_store(&mut random, shape.registers, shape.values as u32);
            let digest = serial(&mut random, shape, &store);
            let log = at_random(&digest, store, &mut random);
            assert!(is_justified(&store, &log.events), "{digest}");
        }
    }
}
