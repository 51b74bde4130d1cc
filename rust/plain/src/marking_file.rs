//! Marking files, read.

use crate::accesses::Accesses;
use crate::columns::*;
use crate::history_file::{behind_head, split, u16_at, u32_at};

/// A marking that fits its history.
pub struct Marking {
    /// The transaction at each place.
    pub order: Vec<u16>,
    /// The place of each transaction.
    pub place: [usize; TRANSACTIONS],
    pub committed: [bool; TRANSACTIONS],
    /// The gap of each store read.
    pub gaps: Vec<usize>,
}

const UNPLACED: usize = usize::MAX;

/// Questions 1, 2 and 21 to 29.
pub fn read_marking(file: &[u8], accesses: &Accesses) -> Result<Marking, Refusal> {
    let (_, mut rest) = behind_head(file, 2, 1, 21)?;
    let mut marking = Marking {
        order: Vec::with_capacity(accesses.spans.len()),
        place: [UNPLACED; TRANSACTIONS],
        committed: [false; TRANSACTIONS],
        gaps: Vec::with_capacity(accesses.store_reads.len()),
    };
    let mut points = Points { last: None, skipped: false };
    while !rest.is_empty() {
        let byte = file.len() - rest.len();
        let Some(record) = split(rest) else {
            return refuse(2, byte);
        };
        let taken = match (record.kind, record.body.len()) {
            (32, 4) => marking.add_place(record.body, &points, accesses.spans.len()),
            (33, 6) => marking.add_point(record.body, &mut points, accesses),
            (32 | 33, _) => Err(23),
            _ => Err(22),
        };
        if let Err(number) = taken {
            return refuse(number, byte);
        }
        rest = record.rest;
    }
    if marking.order.len() < accesses.spans.len() {
        return refuse(28, file.len());
    }
    if points.skipped || marking.gaps.len() < accesses.store_reads.len() {
        return refuse(29, file.len());
    }
    Ok(marking)
}

/// The event of the last read point, and whether a store read was passed over on the way to it.
struct Points {
    last: Option<usize>,
    skipped: bool,
}

impl Marking {
    fn add_place(&mut self, body: &[u8], points: &Points, transactions: usize) -> Result<(), u8> {
        let transaction = usize::from(u16_at(body, 0));
        if points.last.is_some() || transaction >= transactions || self.place[transaction] != UNPLACED {
            return Err(24);
        }
        self.committed[transaction] = match u16_at(body, 2) {
            0 => false,
            1 => true,
            _ => return Err(25),
        };
        self.place[transaction] = self.order.len();
        self.order.push(transaction as u16);
        Ok(())
    }

    fn add_point(&mut self, body: &[u8], points: &mut Points, accesses: &Accesses) -> Result<(), u8> {
        if points.last.is_none() && self.order.len() < accesses.spans.len() {
            return Err(28);
        }
        let event = u32_at(body, 0) as usize;
        if points.last.is_some_and(|last| event <= last) {
            return Err(26);
        }
        // Points rise, so the store read is looked for behind the last one; those passed over have no point.
        let left = &accesses.store_reads[self.gaps.len()..];
        let Some(found) = left.iter().position(|read| read.event >= event).filter(|&i| left[i].event == event) else {
            return Err(26);
        };
        let gap = usize::from(u16_at(body, 4));
        if gap > accesses.spans.len() {
            return Err(27);
        }
        points.skipped |= found > 0;
        self.gaps.extend(std::iter::repeat_n(gap, found + 1));
        points.last = Some(event);
        Ok(())
    }
}
