//! Histories written down event by event, for tests and examples.

use crate::event::*;
use crate::questions::{begins, pending};
use crate::store::Store;

/// A history under construction. Nothing is refused: a log may hold what no reader would take.
#[derive(Clone, Debug, Default, PartialEq, Eq)]
pub struct Log {
    pub store: Store,
    pub events: Vec<Event>,
}

impl Log {
    /// Edition 1, in which every register starts at 0.
    pub fn new() -> Log {
        Log::default()
    }

    /// Edition 2, in which these registers start with these values and the others with 0.
    pub fn starting(starts: &[(u16, u32)]) -> Log {
        Log { store: Store::of(starts), events: Vec::new() }
    }

    /// Adds an event as it stands.
    pub fn event(mut self, kind: u16, transaction: u16, register: u16, value: u32, thread: u16) -> Log {
        self.events.push(Event { kind, transaction, register, value, thread });
        self
    }

    /// Adds an event of a kind that has no thread.
    fn within(self, kind: u16, transaction: u16, register: u16, value: u32) -> Log {
        self.event(kind, transaction, register, value, 0)
    }

    /// Begins the next transaction.
    pub fn begin(self, thread: u16) -> Log {
        let next = begins(&self.events) as u16;
        self.event(BEGIN, next, 0, 0, thread)
    }

    /// The next transaction is a lone read.
    pub fn lone_read(self, thread: u16, register: u16, value: u32) -> Log {
        let next = begins(&self.events) as u16;
        self.event(LONE_READ, next, register, value, thread)
    }

    /// The next transaction is a lone write.
    pub fn lone_write(self, thread: u16, register: u16, value: u32) -> Log {
        let next = begins(&self.events) as u16;
        self.event(LONE_WRITE, next, register, value, thread)
    }

    pub fn read_called(self, transaction: u16, register: u16) -> Log {
        self.within(READ_CALLED, transaction, register, 0)
    }

    pub fn read_returned(self, transaction: u16, value: u32) -> Log {
        let register = pending(&self.events, transaction).map_or(0, |call| call.register);
        self.within(READ_RETURNED, transaction, register, value)
    }

    /// A read, called and returned.
    pub fn read(self, transaction: u16, register: u16, value: u32) -> Log {
        self.read_called(transaction, register).read_returned(transaction, value)
    }

    pub fn write_called(self, transaction: u16, register: u16, value: u32) -> Log {
        self.within(WRITE_CALLED, transaction, register, value)
    }

    pub fn write_returned(self, transaction: u16) -> Log {
        self.within(WRITE_RETURNED, transaction, 0, 0)
    }

    /// A write, called and returned.
    pub fn write(self, transaction: u16, register: u16, value: u32) -> Log {
        self.write_called(transaction, register, value).write_returned(transaction)
    }

    pub fn commit_called(self, transaction: u16) -> Log {
        self.within(COMMIT_CALLED, transaction, 0, 0)
    }

    pub fn committed(self, transaction: u16) -> Log {
        self.within(COMMITTED, transaction, 0, 0)
    }

    /// A commit, called and answered.
    pub fn commit(self, transaction: u16) -> Log {
        self.commit_called(transaction).committed(transaction)
    }

    pub fn aborted(self, transaction: u16) -> Log {
        self.within(ABORTED, transaction, 0, 0)
    }

    /// The paper's H0.
    pub fn h0() -> Log {
        Log::new().begin(0).write(0, 3, 7).begin(1).read(1, 3, 0).commit(0).read(1, 3, 0)
    }

    /// The paper's H7: H0 whose last read returns 7.
    pub fn h7() -> Log {
        let mut log = Log::h0();
        log.events[9].value = 7;
        log
    }

    /// A history in the short form of the sources. `B12` begins the second transaction of thread 1, `R12x=1` and `W12x=1` read and
    /// write, `C12?` calls commit, `C12` commits (and calls it first if it was not called), `A12` aborts. Transactions are
    /// renumbered by begin; x is register 0 and y register 1.
    pub fn from_short(short: &str) -> Log {
        let mut log = Log::new();
        let mut names: Vec<&str> = Vec::new();
        for word in short.split_whitespace() {
            let (action, name, rest) = (&word[..1], &word[1..3], &word[3..]);
            if action == "B" {
                names.push(name);
                log = log.begin(name[..1].parse().expect("a thread"));
                continue;
            }
            let transaction = names.iter().position(|n| *n == name).expect("a transaction that began") as u16;
            log = log.act(action, transaction, rest);
        }
        log
    }

    fn act(self, action: &str, transaction: u16, rest: &str) -> Log {
        let called = pending(&self.events, transaction).is_some_and(|call| call.kind == COMMIT_CALLED);
        match (action, rest) {
            ("R", access) => self.read(transaction, short_register(access), short_value(access)),
            ("W", access) => self.write(transaction, short_register(access), short_value(access)),
            ("C", "?") => self.commit_called(transaction),
            ("C", "") if called => self.committed(transaction),
            ("C", "") => self.commit(transaction),
            ("A", "") => self.aborted(transaction),
            _ => panic!("{action} .. {rest} is no action"),
        }
    }
}

fn short_register(access: &str) -> u16 {
    match access.split_once('=').map(|(register, _)| register) {
        Some("x") => 0,
        Some("y") => 1,
        _ => panic!("{access} names no register"),
    }
}

fn short_value(access: &str) -> u32 {
    access.split_once('=').and_then(|(_, value)| value.parse().ok()).expect("a value")
}
