//! What the events say of reads and writes: own reads, store reads, the last write of a transaction.

use crate::event::*;

/// The number of transactions begun.
pub fn transactions(history: &[Event]) -> usize {
    history.iter().filter(|e| e.is_begin()).count()
}

/// The value of the latest write of a transaction to a register.
pub fn last_write(history: &[Event], transaction: u16, register: u16) -> Option<u32> {
    let mut writes = history.iter().rev().filter(|e| e.is_write());
    writes.find(|e| e.transaction == transaction && e.register == register).map(|e| e.value)
}

/// What the transaction of a read had written to its register before, if anything. That of a lone read had written nothing.
pub fn own_write(history: &[Event], read: usize) -> Option<u32> {
    last_write(&history[..read], history[read].transaction, history[read].register)
}

/// The reads whose transaction had written the register before.
pub fn own_reads(history: &[Event]) -> impl Iterator<Item = usize> + '_ {
    reads(history).filter(|&read| own_write(history, read).is_some())
}

/// All other reads, the lone ones among them.
pub fn store_reads(history: &[Event]) -> impl Iterator<Item = usize> + '_ {
    reads(history).filter(|&read| own_write(history, read).is_none())
}

/// An own read is right if it returns the latest of those writes.
pub fn own_read_is_right(history: &[Event], read: usize) -> bool {
    own_write(history, read) == Some(history[read].value)
}

fn reads(history: &[Event]) -> impl Iterator<Item = usize> + '_ {
    (0..history.len()).filter(|&i| history[i].is_read())
}
