//! Straightened read points, as the first change request asks for them.

use crate::event::*;
use crate::justification::{place_of, Place};
use crate::marking_file::{Marking, Point};
use crate::rules::{is_misread, is_overwritten};
use crate::store::Store;

/// Outcomes and order are kept, and every point that breaks neither D nor E; the others are moved to their reader's place.
pub fn straighten(store: &Store, history: &[Event], marking: &Marking) -> Marking {
    let order = &marking.places;
    let straight = |&point: &Point| match is_careless(store, history, order, &point) {
        true => Point { gap: place_of(order, history[point.event as usize].transaction) as u16, ..point },
        false => point,
    };
    Marking { places: order.clone(), points: marking.points.iter().map(straight).collect() }
}

/// The events of the points that are moved, rising as the points do.
pub fn moved(store: &Store, history: &[Event], marking: &Marking) -> Vec<u32> {
    let careless = |point: &&Point| is_careless(store, history, &marking.places, point);
    marking.points.iter().filter(careless).map(|point| point.event).collect()
}

fn is_careless(store: &Store, history: &[Event], order: &[Place], point: &Point) -> bool {
    is_overwritten(history, order, point) || is_misread(store, history, order, point)
}
