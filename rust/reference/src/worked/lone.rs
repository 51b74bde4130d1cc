//! Accesses outside transactions: the fifth change request, worked out by hand. What they mean is here, what is read and refused of
//! them in [`files`].

mod files;

use super::*;

/// Every example.
pub fn all() -> Vec<Worked> {
    let judged = [lone_reads(), around_a_commit(), lone_writes(), beside_transactions()].concat();
    let marked = [lowest_markings(), outcomes_and_order(), points(), straight()].concat();
    [judged, marked, tallied_alone(), files::all()].concat()
}

/// Register 3 starts with 9.
fn nine() -> Log {
    Log::starting(&[(3, 9)])
}

/// T0 writes 5 to register 3: events 0 to 2.
fn writing() -> Log {
    nine().begin(0).write(0, 3, 5)
}

/// And calls commit at event 3.
fn unanswered() -> Log {
    writing().commit_called(0)
}

/// T0 begins; T1, at event 1, writes 5 to register 3; T0 reads this value there at event 3.
fn live(value: u32) -> Log {
    nine().begin(0).lone_write(1, 3, 5).read(0, 3, value)
}

/// T0 reads the start value at event 2; T1, at event 3, writes 5; T0 reads this value at event 5.
fn between(value: u32) -> Log {
    nine().begin(0).read(0, 3, 9).lone_write(1, 3, 5).read(0, 3, value)
}

/// T0 writes 5 at event 0, and T1 reads it at event 1.
fn pair() -> Log {
    nine().lone_write(0, 3, 5).lone_read(0, 3, 5)
}

/// A lone read sees what the writers before it left, those that must be before it among them.
fn lone_reads() -> Vec<Worked> {
    let committed = writing().commit(0);
    let withdrawn = writing().aborted(0);
    vec![
        worked("a lone read of a start value", scan(&nine().lone_read(0, 3, 9)), 0, 0),
        worked("a lone read of 0 where a start value stands", scan(&nine().lone_read(0, 3, 0)), 101, 0),
        worked("a lone read of a register that starts at 0", scan(&nine().lone_read(0, 4, 0)), 0, 0),
        worked("a lone read of a start value in another register", scan(&nine().lone_read(0, 4, 9)), 101, 0),
        worked("a lone read on a thread that has committed", scan(&committed.clone().lone_read(0, 3, 5)), 0, 0),
        worked("a lone read of a committed value", scan(&committed.clone().lone_read(1, 3, 5)), 0, 0),
        worked("a lone read of a value that was overwritten", scan(&committed.lone_read(1, 3, 9)), 101, 5),
        worked("a lone read beside an aborted write", scan(&withdrawn.clone().lone_read(1, 3, 9)), 0, 0),
        worked("a lone read of an aborted value", scan(&withdrawn.lone_read(1, 3, 5)), 101, 4),
        worked("a lone read beside a live write", scan(&writing().lone_read(1, 3, 9)), 0, 0),
        worked("10 lone accesses", scan(&in_turn(10)), 0, 0),
        worked("11 lone accesses", scan(&in_turn(11)), 31, 11),
    ]
}

/// So many lone accesses on one thread, by turns a write of register 3 and a read of what it wrote.
fn in_turn(count: u32) -> Log {
    (0..count).fold(nine(), |log, t| match t % 2 {
        0 => log.lone_write(0, 3, t),
        _ => log.lone_read(0, 3, t - 1),
    })
}

/// Lone reads before and behind a transaction's commit call and its answer.
fn around_a_commit() -> Vec<Worked> {
    let seen = unanswered().lone_read(1, 3, 5);
    let early = writing().lone_read(1, 3, 5).commit(0);
    let late = writing().lone_read(1, 3, 9);
    vec![
        worked("a lone read from a pending commit", scan(&seen), 0, 0),
        worked("the commit that was read is answered", scan(&seen.clone().committed(0)), 0, 0),
        worked("the commit that was read is aborted", scan(&seen.clone().aborted(0)), 103, 5),
        worked("a lone read before the commit is called", scan(&early), 101, 3),
        lowest("that history as a whole", &early, marking(&[(0, Committed), (1, Committed)], &[(3, 1)])),
        worked("lone reads of the new and then the old value", scan(&seen.clone().lone_read(1, 3, 9)), 101, 5),
        worked("the same on two threads", scan(&seen.clone().lone_read(2, 3, 9)), 101, 5),
        worked("the same with the answer between them", scan(&seen.clone().committed(0).lone_read(1, 3, 9)), 101, 6),
        worked("the same on the writer's thread", scan(&seen.clone().committed(0).lone_read(0, 3, 9)), 101, 6),
        worked("lone reads of the new value twice", scan(&seen.lone_read(1, 3, 5)), 0, 0),
        worked("lone reads of the old and then the new value", scan(&unanswered().lone_read(1, 3, 9).lone_read(1, 3, 5)), 0, 0),
        worked("the same with the commit call between them", scan(&late.clone().commit_called(0).lone_read(1, 3, 5)), 0, 0),
        worked("the old value twice while the commit waits", scan(&late.clone().commit_called(0).lone_read(1, 3, 9)), 0, 0),
        worked("the old value again after the answer", scan(&late.commit(0).lone_read(1, 3, 9)), 101, 6),
    ]
}

/// Lone writes, and what is read beside and after them.
fn lone_writes() -> Vec<Worked> {
    let before = nine().lone_write(1, 3, 5).begin(0);
    let twice = nine().lone_write(0, 3, 5).lone_write(0, 3, 6);
    vec![
        worked("a lone write is read by a live transaction", scan(&live(5)), 0, 0),
        worked("a live transaction reads past a lone write", scan(&live(9)), 0, 0),
        worked("a live transaction reads what nobody wrote", scan(&live(0)), 101, 3),
        worked("a lone write is read by a later transaction", scan(&before.clone().read(1, 3, 5)), 0, 0),
        worked("a later transaction reads past a lone write", scan(&before.read(1, 3, 9)), 101, 3),
        worked("a lone write between reads of old and new", scan(&between(5)), 101, 5),
        worked("a lone write between reads of the old value", scan(&between(9)), 0, 0),
        worked("a reader that stands before a lone write commits", scan(&between(9).commit(0)), 0, 0),
        worked("a lone write and a lone read", scan(&pair()), 0, 0),
        worked("the later of two lone writes is read", scan(&twice.clone().lone_read(0, 3, 6)), 0, 0),
        worked("the earlier of two lone writes is read", scan(&twice.clone().lone_read(0, 3, 5)), 101, 2),
        worked("a start value under two lone writes is read", scan(&twice.lone_read(0, 3, 9)), 101, 2),
        worked("a lone write of 0 hides a start value", scan(&nine().lone_write(0, 3, 0).lone_read(0, 3, 0)), 0, 0),
        worked("a start value under a lone write of 0", scan(&nine().lone_write(0, 3, 0).lone_read(0, 3, 9)), 101, 1),
        worked("a lone write elsewhere hides nothing", scan(&nine().lone_write(0, 4, 5).lone_read(0, 3, 9)), 0, 0),
    ]
}

/// Transactions that lone accesses bind. Where T0 reads 9 it stands before the lone write of T1.
fn beside_transactions() -> Vec<Worked> {
    let own = nine().begin(0).write(0, 3, 6).lone_write(1, 3, 5);
    let lost = nine().begin(0).read(0, 3, 9).lone_write(1, 3, 5).write(0, 3, 6).commit(0);
    // T2 comes after T1 and reads a 0 that T0, before T1, would have overwritten.
    let bound = nine().begin(0).read(0, 3, 9).write(0, 4, 1).lone_write(1, 3, 5).lone_read(1, 4, 0).commit_called(0);
    vec![
        worked("an own write hides a lone one", scan(&own.clone().read(0, 3, 6)), 0, 0),
        worked("a lone write is read under an own one", scan(&own.read(0, 3, 5)), 101, 5),
        worked("a lone write over one that commits later", scan(&lost), 0, 0),
        worked("and a lone read of it", scan(&lost.clone().lone_read(1, 3, 5)), 0, 0),
        worked("and a lone read of what it overwrote", scan(&lost.lone_read(1, 3, 6)), 101, 8),
        worked("a pending commit that lone accesses rule out", scan(&bound), 0, 0),
        worked("it is aborted", scan(&bound.clone().aborted(0)), 0, 0),
        worked("it is answered after all", scan(&bound.committed(0)), 102, 8),
    ]
}

/// Lowest markings: a lone access is committed, and a lone read has a point at its place.
fn lowest_markings() -> Vec<Worked> {
    let old_new = unanswered().lone_read(1, 3, 9).lone_read(1, 3, 5);
    let new_old = unanswered().lone_read(1, 3, 5).lone_read(1, 3, 9);
    let writer_first = marking(&[(0, Committed), (1, Committed)], &[(4, 1)]);
    let writer_aborted = marking(&[(0, Aborted), (1, Committed)], &[(4, 1)]);
    let writer_between = marking(&[(1, Committed), (0, Committed), (2, Committed)], &[(4, 0), (5, 2)]);
    let write_first = marking(&[(1, Committed), (0, Aborted)], &[(3, 1)]);
    let write_last = marking(&[(0, Aborted), (1, Committed)], &[(3, 0)]);
    let write_after_both = marking(&[(0, Aborted), (1, Committed)], &[(2, 0), (5, 0)]);
    vec![
        lowest("the lowest of a lone read", &nine().lone_read(0, 3, 9), marking(&[(0, Committed)], &[(0, 0)])),
        lowest("the lowest of a lone write", &nine().lone_write(0, 3, 5), marking(&[(0, Committed)], &[])),
        lowest("the lowest of a lone write and a lone read", &pair(), marking(&[(0, Committed), (1, Committed)], &[(1, 1)])),
        lowest("the writer has committed for a lone read", &unanswered().lone_read(1, 3, 5), writer_first),
        lowest("or is aborted", &unanswered().lone_read(1, 3, 9), writer_aborted),
        lowest("or stands between two lone reads", &old_new, writer_between),
        worked("it cannot stand between new and old", find(&new_old), NONE, 0),
        lowest("a lone write before its live reader", &live(5), write_first),
        lowest("a lone write after a live reader", &live(9), write_last),
        lowest("a lone write after both reads", &between(9), write_after_both),
        worked("it cannot stand between the reads of one transaction", find(&between(5)), NONE, 0),
        worked("a lone read of 0 has no marking", find(&nine().lone_read(0, 3, 0)), NONE, 0),
    ]
}

/// Rules A and B, which name a lone access by its event.
fn outcomes_and_order() -> Vec<Worked> {
    let alone = nine().lone_read(0, 3, 9);
    let before = nine().lone_write(1, 3, 5).begin(0).read(1, 3, 9);
    let after = writing().commit(0).lone_read(1, 3, 9);
    let three = nine().lone_write(0, 3, 5).lone_write(0, 3, 6).lone_read(0, 3, 6);
    vec![
        broken("a lone read is no aborted one", check(&alone, &[(0, Aborted)], &[(0, 0)]), 'A', 0, 0),
        broken("a lone write is no aborted one", check(&live(5), &[(1, Aborted), (0, Aborted)], &[(3, 1)]), 'A', 1, 1),
        broken("the lowest of three", check(&three, &[(2, Aborted), (1, Aborted), (0, Committed)], &[(2, 0)]), 'A', 1, 1),
        broken("a lone read before a lone write", check(&pair(), &[(1, Committed), (0, Committed)], &[(1, 0)]), 'B', 1, 1),
        broken("a begin before a lone write", check(&before, &[(1, Aborted), (0, Committed)], &[(3, 0)]), 'B', 1, 1),
        broken("a lone read before a commit", check(&after, &[(1, Committed), (0, Committed)], &[(5, 0)]), 'B', 5, 1),
        broken(
            "the last of three before the others",
            check(&three, &[(2, Committed), (0, Committed), (1, Committed)], &[(2, 3)]),
            'B',
            2,
            2,
        ),
        broken("outcomes come before the order", check(&pair(), &[(1, Committed), (0, Aborted)], &[(1, 0)]), 'A', 0, 0),
    ]
}

/// Read points of lone reads, and of reads beside lone writes, at right and wrong gaps.
fn points() -> Vec<Worked> {
    let alone = |gap| check(&nine().lone_read(0, 3, 9), &[(0, Committed)], &[(0, gap)]);
    let in_order = |gap| check(&pair(), &[(0, Committed), (1, Committed)], &[(1, gap)]);
    let old = unanswered().lone_read(1, 3, 9);
    let writer_first = |gap| check(&old, &[(0, Committed), (1, Committed)], &[(4, gap)]);
    let reader_first = |gap| check(&old, &[(1, Committed), (0, Committed)], &[(4, gap)]);
    let write_last = |log: &Log, points: [(u32, u16); 2]| check(log, &[(0, Aborted), (1, Committed)], &points);
    let write_first = |log: &Log, points: [(u32, u16); 2]| check(log, &[(1, Committed), (0, Aborted)], &points);
    vec![
        worked("a lone read at its place", alone(0), 0, 0),
        worked("a lone read behind its place", alone(1), 0, 0),
        worked("a lone read at no gap", alone(2), 27, 14),
        broken("a lone read of 0", check(&nine().lone_read(0, 3, 0), &[(0, Committed)], &[(0, 0)]), 'E', 0, 0),
        worked("a lone read of a lone write", in_order(1), 0, 0),
        worked("a lone read of a lone write, behind its place", in_order(2), 0, 0),
        broken("a lone read at the gap before the writer", in_order(0), 'D', 1, 1),
        broken("a lone read past its writer", writer_first(0), 'D', 4, 1),
        broken("a lone read of another value than its writer's", writer_first(1), 'E', 4, 1),
        broken("the same behind its place", writer_first(2), 'E', 4, 1),
        worked("a lone read before the writer", reader_first(0), 0, 0),
        worked("a lone read before the writer, behind its place", reader_first(1), 0, 0),
        broken("a lone read at the gap behind the writer", reader_first(2), 'D', 4, 1),
        worked("both reads before the lone write", write_last(&between(9), [(2, 0), (5, 1)]), 0, 0),
        broken("a read behind the lone write", write_last(&between(9), [(2, 0), (5, 2)]), 'D', 5, 0),
        broken("old and new before the lone write", write_last(&between(5), [(2, 0), (5, 1)]), 'E', 5, 0),
        broken("old and new behind the lone write", write_first(&between(5), [(2, 1), (5, 1)]), 'E', 2, 0),
        broken("old and new around the lone write", write_first(&between(5), [(2, 0), (5, 1)]), 'D', 2, 0),
        worked("a lone read without a point", check(&nine().lone_read(0, 3, 9), &[(0, Committed)], &[]), 29, 14),
        worked("a lone write with a point", check(&nine().lone_write(0, 3, 9), &[(0, Committed)], &[(0, 0)]), 26, 14),
    ]
}

/// Points of lone reads, straightened.
fn straight() -> Vec<Worked> {
    let in_order = |gap| marking(&[(0, Committed), (1, Committed)], &[(1, gap)]);
    let old_new = unanswered().lone_read(1, 3, 9).lone_read(1, 3, 5);
    let writer_between = |old, new| marking(&[(1, Committed), (0, Committed), (2, Committed)], &[(4, old), (5, new)]);
    let old = unanswered().lone_read(1, 3, 9);
    let (read, write) = (nine().lone_read(0, 3, 9), nine().lone_write(0, 3, 5));
    let bare = || marking(&[(0, Committed)], &[]);
    vec![
        straightened("a lone read's point is moved", &pair(), in_order(0), in_order(1), &[1]),
        straightened("a lone read's point stays", &pair(), in_order(2), in_order(2), &[]),
        straightened("two lone reads' points are moved", &old_new, writer_between(3, 0), writer_between(0, 2), &[4, 5]),
        straightened("one of two is moved", &old_new, writer_between(1, 1), writer_between(1, 2), &[5]),
        unjustified("a lone read is not mended", &old, marking(&[(0, Committed), (1, Committed)], &[(4, 0)]), 'E', 4, 1),
        unjustified("a lone read's outcome is not mended", &old, marking(&[(0, Aborted), (1, Aborted)], &[(4, 1)]), 'A', 4, 1),
        unjustified("real time is not mended", &pair(), marking(&[(1, Committed), (0, Committed)], &[(1, 0)]), 'B', 1, 1),
        worked("a lone read needs a point", Call::Straighten(read, bare()), 29, 14),
        straightened("a lone write needs none", &write, bare(), bare(), &[]),
    ]
}

/// A lone access counts as committed.
fn tallied_alone() -> Vec<Worked> {
    let mixed = nine().lone_read(0, 3, 9).begin(0).lone_write(1, 3, 5).begin(1).commit_called(3).begin(2).aborted(4);
    vec![
        tallied("a lone read is tallied", &nine().lone_read(0, 3, 9), [1, 0, 0, 0]),
        tallied("a lone write is tallied", &nine().lone_write(0, 3, 9), [1, 0, 0, 0]),
        tallied("a lone read that nothing justifies is tallied", &nine().lone_read(0, 3, 0), [1, 0, 0, 0]),
        tallied("lone accesses beside transactions", &mixed, [2, 1, 1, 1]),
        tallied("64 lone accesses", &in_turn(64), [64, 0, 0, 0]),
        worked("a 65th lone access is not tallied", tally(&in_turn(65)), 7, 64),
        worked("a lone access in edition 1 is not tallied", tally(&Log::new().begin(0).lone_read(1, 3, 0)), 4, 1),
    ]
}
