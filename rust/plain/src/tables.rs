//! What the search needs to know of a prefix. The tables grow by one event at a time, so that a scan fills them once.

use crate::columns::*;

/// The most transactions that are judged.
pub const MOST: usize = 10;

#[derive(Clone, Copy)]
pub struct Transaction {
    /// The transactions that ended before this one began.
    pub after: u64,
    pub may_abort: bool,
    pub may_commit: bool,
    pub has_read: u32,
    pub read: [u32; REGISTERS],
    pub has_written: u32,
    pub written: [u32; REGISTERS],
    /// All ones where nothing is written and zero where something is, so that a commit takes a few wide steps.
    pub unwritten: [u32; REGISTERS],
}

impl Transaction {
    fn write(&mut self, event: Event) {
        self.has_written |= 1 << event.register;
        self.written[usize::from(event.register)] = event.value;
        self.unwritten[usize::from(event.register)] = 0;
    }
}

pub struct Tables {
    pub transactions: Vec<Transaction>,
    /// The store reads, by event.
    pub points: Vec<(usize, u16)>,
    /// No order can justify the prefix: an own read is wrong, or a transaction read two values of one register.
    pub hopeless: bool,
    ended: u64,
}

impl Tables {
    pub fn new() -> Tables {
        Tables { transactions: Vec::with_capacity(MOST), points: Vec::new(), hopeless: false, ended: 0 }
    }

    pub fn add(&mut self, at: usize, event: Event) {
        let Some(transaction) = self.transactions.get_mut(usize::from(event.transaction)) else {
            return self.begin(at, event); // the first that is heard of it
        };
        match event.kind {
            READ_RETURNED => self.add_read(at, event),
            WRITE_CALLED => transaction.write(event),
            COMMIT_CALLED => transaction.may_commit = true,
            COMMITTED | ABORTED => {
                transaction.may_commit = event.kind == COMMITTED;
                transaction.may_abort = event.kind == ABORTED;
                self.ended |= 1 << event.transaction;
            }
            _ => (),
        }
    }

    /// A begin, or a lone access, which is committed at once.
    #[inline(never)] // it is called once a transaction, and would crowd what is done at every event
    fn begin(&mut self, at: usize, event: Event) {
        let mut begun = Transaction {
            after: self.ended,
            may_abort: event.kind == BEGIN,
            may_commit: event.kind != BEGIN,
            has_read: 0,
            read: [0; REGISTERS],
            has_written: 0,
            written: [0; REGISTERS],
            unwritten: [u32::MAX; REGISTERS],
        };
        if event.kind == LONE_WRITE {
            begun.write(event);
        }
        self.transactions.push(begun);
        if event.kind == LONE_READ {
            self.add_read(at, event);
        }
        if event.kind != BEGIN {
            self.ended |= 1 << event.transaction;
        }
    }

    fn add_read(&mut self, at: usize, event: Event) {
        let transaction = &mut self.transactions[usize::from(event.transaction)];
        let register = usize::from(event.register);
        let bit = 1 << event.register;
        if transaction.has_written & bit != 0 {
            self.hopeless |= transaction.written[register] != event.value;
            return;
        }
        self.hopeless |= transaction.has_read & bit != 0 && transaction.read[register] != event.value;
        transaction.has_read |= bit;
        transaction.read[register] = event.value;
        self.points.push((at, event.transaction));
    }
}
