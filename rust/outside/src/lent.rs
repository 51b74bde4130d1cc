//! Buffers lent to the library, with a margin on both sides that it must not touch.

use reference::event::Columns;
use reference::store::{Store, REGISTERS};

const MARGIN: usize = 16;

/// A buffer in the middle of a larger one.
#[derive(Clone, Debug)]
pub struct Lent<T> {
    whole: Vec<T>,
    length: usize,
    canary: T,
}

impl<T: Copy + PartialEq> Lent<T> {
    pub fn new(contents: &[T], canary: T) -> Lent<T> {
        let margin = [canary; MARGIN];
        Lent { whole: [&margin[..], contents, &margin[..]].concat(), length: contents.len(), canary }
    }

    pub fn slice(&self) -> &[T] {
        &self.whole[MARGIN..MARGIN + self.length]
    }

    pub fn slice_mut(&mut self) -> &mut [T] {
        &mut self.whole[MARGIN..MARGIN + self.length]
    }

    /// Are the contents these, and both margins as they were?
    pub fn holds(&self, contents: &[T]) -> bool {
        let (before, after) = (&self.whole[..MARGIN], &self.whole[MARGIN + self.length..]);
        self.slice() == contents && before.iter().chain(after).all(|&entry| entry == self.canary)
    }
}

impl Lent<u32> {
    /// The entries as an array of start values.
    pub fn starts(&self) -> &[u32; REGISTERS] {
        self.slice().try_into().expect("as many start values as registers")
    }

    pub fn starts_mut(&mut self) -> &mut [u32; REGISTERS] {
        self.slice_mut().try_into().expect("as many start values as registers")
    }

    /// The entries as the three numbers of a note.
    pub fn note_mut(&mut self) -> &mut [u32; 3] {
        self.slice_mut().try_into().expect("three numbers")
    }
}

/// A store whose start values are lent to the library.
pub struct LentStore {
    edition: u16,
    starts: Lent<u32>,
}

impl LentStore {
    pub fn new(store: &Store) -> LentStore {
        LentStore { edition: store.edition, starts: lent_starts(&store.starts) }
    }

    pub fn view(&self) -> sendoshi::Store<'_> {
        sendoshi::Store { edition: self.edition, starts: self.starts.starts() }
    }

    pub fn holds(&self, store: &Store) -> bool {
        self.starts.holds(&store.starts)
    }
}

/// Start values lent to the library.
pub fn lent_starts(starts: &[u32; REGISTERS]) -> Lent<u32> {
    Lent::new(starts, 0x5ac3_3ca5)
}

/// A number of events, as the library takes it beside columns.
pub fn lent_count(events: usize) -> u32 {
    u32::try_from(events).expect("a count of 32 bits")
}

/// Five columns lent to the library.
pub struct LentColumns {
    kinds: Lent<u16>,
    transactions: Lent<u16>,
    registers: Lent<u16>,
    values: Lent<u32>,
    threads: Lent<u16>,
}

impl LentColumns {
    pub fn new(columns: &Columns) -> LentColumns {
        LentColumns {
            kinds: Lent::new(&columns.kinds, 0xa5a5),
            transactions: Lent::new(&columns.transactions, 0x5a5a),
            registers: Lent::new(&columns.registers, 0xc3c3),
            values: Lent::new(&columns.values, 0x3c3c_3c3c),
            threads: Lent::new(&columns.threads, 0x9696),
        }
    }

    pub fn view(&self) -> sendoshi::Columns<'_> {
        sendoshi::Columns {
            kinds: self.kinds.slice(),
            transactions: self.transactions.slice(),
            registers: self.registers.slice(),
            values: self.values.slice(),
            threads: self.threads.slice(),
        }
    }

    pub fn view_mut(&mut self) -> sendoshi::ColumnsMut<'_> {
        sendoshi::ColumnsMut {
            kinds: self.kinds.slice_mut(),
            transactions: self.transactions.slice_mut(),
            registers: self.registers.slice_mut(),
            values: self.values.slice_mut(),
            threads: self.threads.slice_mut(),
        }
    }

    pub fn hold(&self, columns: &Columns) -> bool {
        self.kinds.holds(&columns.kinds)
            && self.transactions.holds(&columns.transactions)
            && self.registers.holds(&columns.registers)
            && self.values.holds(&columns.values)
            && self.threads.holds(&columns.threads)
    }
}
