//! Marking files, read and written.

use crate::event::*;
use crate::justification::{place_of, Outcome, Place};
use crate::reads::{store_reads, transactions};
use crate::record::*;

pub const HEAD: u16 = 2;
pub const EDITION: u16 = 1;
pub const PLACE: u16 = 32;
pub const POINT: u16 = 33;

/// A read point: a store read and the gap, after the first so many places, at which it reads.
#[derive(Clone, Copy, Debug, PartialEq, Eq)]
pub struct Point {
    pub event: u32,
    pub gap: u16,
}

/// What a marking file says.
#[derive(Clone, Debug, PartialEq, Eq)]
pub struct Marking {
    pub places: Vec<Place>,
    pub points: Vec<Point>,
}

impl Marking {
    /// The marking of an order, with each read point at its reader's place.
    pub fn of(history: &[Event], order: &[Place]) -> Marking {
        let point = |read: usize| Point { event: read as u32, gap: place_of(order, history[read].transaction) as u16 };
        Marking { places: order.to_vec(), points: store_reads(history).map(point).collect() }
    }

    /// The file's bytes.
    pub fn to_bytes(&self) -> Vec<u8> {
        let mut file = record(HEAD, &EDITION.to_le_bytes());
        for place in &self.places {
            let outcome: u16 = match place.outcome {
                Outcome::Aborted => 0,
                Outcome::Committed => 1,
            };
            file.extend(record(PLACE, &[place.transaction.to_le_bytes(), outcome.to_le_bytes()].concat()));
        }
        for point in &self.points {
            file.extend(record(POINT, &[&point.event.to_le_bytes()[..], &point.gap.to_le_bytes()[..]].concat()));
        }
        file
    }

    /// A file's marking for a history, by questions 1, 2 and 21 to 29.
    pub fn read(history: &[Event], file: &[u8]) -> Result<Marking, Refusal> {
        let (_, mut byte) = head(file, HEAD, &[EDITION], 21)?;
        let mut marking = Marking { places: Vec::new(), points: Vec::new() };
        while byte < file.len() {
            let record = record_at(file, byte)?;
            let size = match record.kind {
                PLACE => 4,
                POINT => 6,
                _ => return refuse(22, byte),
            };
            if record.body.len() != size {
                return refuse(23, byte);
            }
            let refused = match record.kind {
                PLACE => marking.add_place(history, record.body),
                _ => marking.add_point(history, record.body),
            };
            if let Err(number) = refused {
                return refuse(number, byte);
            }
            byte = record.next;
        }
        marking.complete(history, byte)
    }

    /// Questions 24 and 25.
    fn add_place(&mut self, history: &[Event], body: &[u8]) -> Result<(), u8> {
        let transaction = u16_at(body, 0);
        let placed = self.places.iter().any(|p| p.transaction == transaction);
        if !self.points.is_empty() || usize::from(transaction) >= transactions(history) || placed {
            return Err(24);
        }
        let outcome = match u16_at(body, 2) {
            0 => Outcome::Aborted,
            1 => Outcome::Committed,
            _ => return Err(25),
        };
        self.places.push(Place { transaction, outcome });
        Ok(())
    }

    /// Question 28 at the first read point, then 26 and 27.
    fn add_point(&mut self, history: &[Event], body: &[u8]) -> Result<(), u8> {
        if self.points.is_empty() && self.places.len() < transactions(history) {
            return Err(28);
        }
        let point = Point { event: u32_at(body, 0), gap: u16_at(body, 4) };
        let rises = self.points.last().is_none_or(|last| point.event > last.event);
        if !rises || !store_reads(history).any(|read| read as u64 == u64::from(point.event)) {
            return Err(26);
        }
        if usize::from(point.gap) > transactions(history) {
            return Err(27);
        }
        self.points.push(point);
        Ok(())
    }

    /// Questions 28 and 29 at the end of the file.
    fn complete(self, history: &[Event], end: usize) -> Result<Marking, Refusal> {
        if self.places.len() < transactions(history) {
            return refuse(28, end);
        }
        let pointed = |read: usize| self.points.iter().any(|p| p.event as usize == read);
        if !store_reads(history).all(pointed) {
            return refuse(29, end);
        }
        Ok(self)
    }
}
