//! What holds of a straightened marking, said of the library alone: the brute force has no part in it.

use crate::lent::{lent_count, LentColumns, LentStore};
use reference::event::Columns as Held;
use reference::log::Log;
use reference::marking_file::Marking;
use sendoshi::{answer, calls, Answer, Columns, Store};

/// Fails unless this answer to the straightening of a marking, with what was left in output and list, has all that is promised.
pub fn keeps_its_promises(held: &Held, history: &Log, marking: &Marking, answer: Answer, output: &[u8], list: &[u32]) {
    let (lent_store, lent) = (LentStore::new(&history.store), LentColumns::new(held));
    let (store, columns, count) = (lent_store.view(), lent.view(), lent_count(history.events.len()));
    let at_readers = Marking::of(&history.events, &marking.places).to_bytes();
    let verdict = calls::check(store, columns, count, &at_readers);
    if answer.code != answer::DONE {
        assert_eq!(answer, verdict, "what is broken is what stays broken with every point at its reader");
        return;
    }
    assert_eq!(verdict.code, answer::DONE, "an order is straightened that is no justification");
    let (moved, length) = answer.halves();
    let (straight, moved) = (&output[..length], &list[..moved]);
    points_are_moved(marking, &at_readers, straight, moved);
    nothing_is_left_to_move(store, columns, count, straight);
    if calls::check(store, columns, count, &marking.to_bytes()).code == answer::DONE {
        assert_eq!(moved, [0; 0], "points of a marking that is accepted are moved");
    }
}

/// Outcomes and order are kept. The points that differ are those listed, in their order, and stand at their readers.
fn points_are_moved(marking: &Marking, at_readers: &[u8], straight: &[u8], moved: &[u32]) {
    let given = marking.to_bytes();
    let first = 6 + 8 * marking.places.len(); // a head and the places come before the first point
    assert_eq!(straight.len(), given.len(), "a straightened marking is as long as the one given");
    assert_eq!(straight[..first], given[..first], "outcomes and order are kept");
    let points = |file: &[u8]| file[first..].chunks(10).map(<[u8]>::to_vec).collect::<Vec<_>>();
    let (given, straight, at_readers) = (points(&given), points(straight), points(at_readers));
    let differ: Vec<usize> = (0..given.len()).filter(|&i| given[i] != straight[i]).collect();
    let events: Vec<u32> = differ.iter().map(|&i| marking.points[i].event).collect();
    assert_eq!(moved, events, "the list names the points that differ");
    assert!(differ.iter().all(|&i| straight[i] == at_readers[i]), "a point is moved to another place than its reader's");
}

/// The checker accepts the result, and straightening it again gives the same bytes and an empty list.
fn nothing_is_left_to_move(store: Store, columns: Columns, count: u32, straight: &[u8]) {
    assert_eq!(calls::check(store, columns, count, straight).code, answer::DONE, "a straightened marking is accepted");
    let (mut again, mut list) = (vec![0; straight.len()], vec![0; count as usize]);
    let answer = calls::straighten(store, columns, count, straight, &mut again, &mut list);
    assert_eq!((answer.code, answer.halves()), (answer::DONE, (0, straight.len())), "a straightened marking is straight");
    assert_eq!(again, straight, "a straightened marking straightened again");
}
