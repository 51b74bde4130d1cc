//! What the events of a valid history say of reads and writes, and when its transactions began and ended.

use crate::columns::*;

/// Where a transaction stands in the log.
#[derive(Clone, Copy, Default)]
pub struct Span {
    pub begin: usize,
    pub end: Option<usize>,
    pub last: usize,
    pub last_kind: u16,
}

/// A read that is no own read.
#[derive(Clone, Copy)]
pub struct StoreRead {
    pub event: usize,
    pub transaction: u16,
    pub register: u16,
    pub value: u32,
}

pub struct Accesses {
    pub spans: Vec<Span>,
    /// The last write of each transaction to each register.
    pub written: Vec<[Option<u32>; REGISTERS]>,
    pub store_reads: Vec<StoreRead>,
    /// The first own read that does not return the latest own write.
    pub wrong_own_read: Option<usize>,
}

impl Accesses {
    pub fn of(columns: Columns, count: usize) -> Accesses {
        let mut accesses = Accesses { spans: Vec::new(), written: Vec::new(), store_reads: Vec::new(), wrong_own_read: None };
        for (at, event) in columns.threadless(count).enumerate() {
            accesses.add(at, event);
        }
        accesses
    }

    fn add(&mut self, at: usize, event: Event) {
        let transaction = usize::from(event.transaction);
        if begins(event.kind) {
            self.spans.push(Span { begin: at, ..Span::default() });
            self.written.push([None; REGISTERS]);
        }
        let span = &mut self.spans[transaction];
        span.last = at;
        span.last_kind = event.kind;
        if matches!(event.kind, COMMITTED | ABORTED | LONE_READ | LONE_WRITE) {
            span.end = Some(at);
        }
        match event.kind {
            WRITE_CALLED | LONE_WRITE => self.written[transaction][usize::from(event.register)] = Some(event.value),
            READ_RETURNED | LONE_READ => self.add_read(at, event),
            _ => (),
        }
    }

    fn add_read(&mut self, event: usize, Event { transaction, register, value, .. }: Event) {
        match self.written[usize::from(transaction)][usize::from(register)] {
            None => self.store_reads.push(StoreRead { event, transaction, register, value }),
            Some(own) if own != value => {
                self.wrong_own_read.get_or_insert(event);
            }
            Some(_) => (),
        }
    }
}
