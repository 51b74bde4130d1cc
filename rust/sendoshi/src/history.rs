//! A history that the library has taken.

use crate::answer::NONE;
use crate::calls::{self, Columns, ColumnsMut, Store};
use crate::judgement::{Cause, Scan, Straightening, Verdict};
use crate::question::{Place, Question, Refusal};
use crate::tally::Tally;

/// No history has more events.
const MOST_EVENTS: usize = 2_048;
/// No judged history has more transactions.
const MOST_JUDGED: usize = 10;
/// Every history has so many registers, each with a start value.
const REGISTERS: usize = 32;

/// A readable history: the library has put its questions to every event, and refused none.
///
/// ```
/// use sendoshi::{Columns, History, Scan};
///
/// // T0 writes 7 to register 3 and commits; T1 reads 0 there, before and after.
/// let history = History::from_columns(Columns {
///     kinds: &[16, 19, 20, 16, 17, 18, 21, 22, 17, 18],
///     transactions: &[0, 0, 0, 1, 1, 1, 0, 0, 1, 1],
///     registers: &[0, 3, 0, 0, 3, 3, 0, 0, 3, 3],
///     values: &[0, 7, 0, 0, 0, 0, 0, 0, 0, 0],
///     threads: &[0, 0, 0, 1, 0, 0, 0, 0, 0, 0],
/// })?;
/// assert_eq!(history.to_bytes().len(), 88);
/// assert_eq!(History::read(&history.to_bytes())?, history);
/// assert_eq!(history.scan()?, Scan::Opaque);
/// # Ok::<(), sendoshi::Refusal>(())
/// ```
#[derive(Clone, Debug, PartialEq, Eq)]
pub struct History {
    // Edition 1 with zeros, or edition 2.
    edition: u16,
    starts: [u32; REGISTERS],
    // All of one length. Every event has passed its questions, so that a prefix has too.
    kinds: Vec<u16>,
    transactions: Vec<u16>,
    registers: Vec<u16>,
    values: Vec<u32>,
    threads: Vec<u16>,
}

impl History {
    /// Reads a history file. Notes among its records are passed over; [`notes`](crate::notes()) gives them.
    ///
    /// ```
    /// let head = [4, 0, 1, 0, 1, 0];
    /// assert!(sendoshi::History::read(&head)?.is_empty());
    /// assert_eq!(sendoshi::History::read(&head[..5]).unwrap_err().question.number(), 2);
    /// # Ok::<(), sendoshi::Refusal>(())
    /// ```
    pub fn read(file: &[u8]) -> Result<History, Refusal> {
        // Columns for the most events that are read: question 14 is never answered with no.
        let mut history = History {
            edition: 0,
            starts: [0; REGISTERS],
            kinds: vec![0; MOST_EVENTS],
            transactions: vec![0; MOST_EVENTS],
            registers: vec![0; MOST_EVENTS],
            values: vec![0; MOST_EVENTS],
            threads: vec![0; MOST_EVENTS],
        };
        let columns = ColumnsMut {
            kinds: &mut history.kinds,
            transactions: &mut history.transactions,
            registers: &mut history.registers,
            values: &mut history.values,
            threads: &mut history.threads,
        };
        let answer = calls::read(file, &mut history.starts, columns);
        answer.done(Place::Byte)?;
        let (edition, count) = answer.halves();
        history.edition = edition as u16;
        history.kinds.truncate(count);
        history.transactions.truncate(count);
        history.registers.truncate(count);
        history.values.truncate(count);
        history.threads.truncate(count);
        Ok(history)
    }

    /// A copy of the history that stands in these columns, in edition 1: every register starts at 0. Columns of different lengths are
    /// refused: a column is shorter than the count, which is the longest one's length.
    pub fn from_columns(columns: Columns) -> Result<History, Refusal> {
        History::over(Store::ZERO, columns)
    }

    /// The same in edition 2: each register starts with its value, and there may be accesses outside transactions, which are of
    /// kinds 24 and 25.
    ///
    /// ```
    /// use sendoshi::{Cause, Columns, History, Scan};
    ///
    /// // Register 3 held 9 when recording began, and T0 reads it.
    /// let mut starts = [0; 32];
    /// starts[3] = 9;
    /// let columns = Columns {
    ///     kinds: &[16, 17, 18],
    ///     transactions: &[0; 3],
    ///     registers: &[0, 3, 3],
    ///     values: &[0, 0, 9],
    ///     threads: &[0; 3],
    /// };
    /// let history = History::with_starts(starts, columns)?;
    /// assert_eq!((history.edition(), history.starts()[3]), (2, 9));
    /// assert_eq!(history.scan()?, Scan::Opaque);
    ///
    /// // In a store that starts at 0 nobody wrote what it read.
    /// let scan = History::from_columns(columns)?.scan()?;
    /// assert_eq!(scan, Scan::Faulted { event: 2, cause: Cause::ReadReturned });
    ///
    /// // T0 has written 7 and called commit. A display task reads the 7 bare and then, in vain, the 9 again.
    /// let columns = Columns {
    ///     kinds: &[16, 19, 20, 21, 24, 24],
    ///     transactions: &[0, 0, 0, 0, 1, 2],
    ///     registers: &[0, 3, 0, 0, 3, 3],
    ///     values: &[0, 7, 0, 0, 7, 9],
    ///     threads: &[0, 0, 0, 0, 1, 1],
    /// };
    /// let history = History::with_starts(starts, columns)?;
    /// assert_eq!(history.tally().to_string(), "committed 2 aborted 0 pending 1 live 0");
    /// assert_eq!(history.scan()?, Scan::Faulted { event: 5, cause: Cause::ReadReturned });
    /// assert_eq!(History::from_columns(columns).unwrap_err().question.number(), 4);
    /// # Ok::<(), sendoshi::Refusal>(())
    /// ```
    pub fn with_starts(starts: [u32; REGISTERS], columns: Columns) -> Result<History, Refusal> {
        History::over(Store { edition: 2, starts: &starts }, columns)
    }

    /// A copy of the history in these columns, over a store that every call takes.
    fn over(store: Store, columns: Columns) -> Result<History, Refusal> {
        let Columns { kinds, transactions, registers, values, threads } = columns;
        let lengths = [kinds.len(), transactions.len(), registers.len(), values.len(), threads.len()];
        let longest = lengths.into_iter().max().unwrap_or(0);
        // Asked here and not by the library, because a length may have more bits than a call's count.
        if lengths.into_iter().any(|length| length < longest) {
            return Err(Refusal { question: Question::CountTooLarge, place: Place::Event(longest) });
        }
        // Of more than 2,048 events one of the first 2,049 is refused, however many there are.
        let count = longest.min(MOST_EVENTS + 1) as u32;
        calls::transactions(store, columns, count).done(Place::Event)?;
        Ok(History {
            edition: store.edition,
            starts: *store.starts,
            kinds: kinds.to_vec(),
            transactions: transactions.to_vec(),
            registers: registers.to_vec(),
            values: values.to_vec(),
            threads: threads.to_vec(),
        })
    }

    /// The columns, all as long as the history.
    pub fn columns(&self) -> Columns<'_> {
        Columns {
            kinds: &self.kinds,
            transactions: &self.transactions,
            registers: &self.registers,
            values: &self.values,
            threads: &self.threads,
        }
    }

    /// The edition: 1, or 2 if the file says so or the caller gave start values.
    pub fn edition(&self) -> u16 {
        self.edition
    }

    /// What stood in each register before any writer: zeros in edition 1.
    pub fn starts(&self) -> &[u32; REGISTERS] {
        &self.starts
    }

    /// Edition and start values, as the calls take them.
    pub fn store(&self) -> Store<'_> {
        Store { edition: self.edition, starts: &self.starts }
    }

    /// The number of events.
    pub fn len(&self) -> usize {
        self.kinds.len()
    }

    pub fn is_empty(&self) -> bool {
        self.kinds.is_empty()
    }

    /// The number of events, as the calls take it.
    fn count(&self) -> u32 {
        u32::try_from(self.len()).expect("a history has at most 2,048 events")
    }

    /// The number of transactions begun, lone accesses among them.
    pub fn transactions(&self) -> usize {
        let answer = calls::transactions(self.store(), self.columns(), self.count());
        answer.done(Place::Event).unwrap_or_else(|refusal| refused_again(refusal))
    }

    /// The number of store reads: returned reads of a register that their transaction had not written before, and lone reads.
    pub fn store_reads(&self) -> usize {
        let answer = calls::store_reads(self.store(), self.columns(), self.count());
        answer.done(Place::Event).unwrap_or_else(|refusal| refused_again(refusal))
    }

    /// What has become of the transactions. The four numbers add up to [`History::transactions`].
    ///
    /// ```
    /// use sendoshi::{Columns, History, Tally};
    ///
    /// // T0 commits, T1 is aborted after it called commit, T2 has called commit, and T3 has called a read.
    /// let history = History::from_columns(Columns {
    ///     kinds: &[16, 21, 22, 16, 21, 23, 16, 21, 16, 17],
    ///     transactions: &[0, 0, 0, 1, 1, 1, 2, 2, 3, 3],
    ///     registers: &[0, 0, 0, 0, 0, 0, 0, 0, 0, 5],
    ///     values: &[0; 10],
    ///     threads: &[0, 0, 0, 0, 0, 0, 0, 0, 1, 0],
    /// })?;
    /// assert_eq!(history.tally(), Tally { committed: 1, aborted: 1, pending: 1, live: 1 });
    /// assert_eq!(history.prefix(5).expect("ten events").tally().to_string(), "committed 1 aborted 0 pending 1 live 0");
    /// # Ok::<(), sendoshi::Refusal>(())
    /// ```
    pub fn tally(&self) -> Tally {
        let answer = calls::tally(self.store(), self.columns(), self.count());
        answer.done(Place::Event).unwrap_or_else(|refusal| refused_again(refusal));
        let [committed, aborted, pending, live] = answer.quarters();
        Tally { committed, aborted, pending, live }
    }

    /// The history of the first `length` events, if there are so many, in the same edition with the same start values.
    pub fn prefix(&self, length: usize) -> Option<History> {
        Some(History {
            edition: self.edition,
            starts: self.starts,
            kinds: self.kinds.get(..length)?.to_vec(),
            transactions: self.transactions.get(..length)?.to_vec(),
            registers: self.registers.get(..length)?.to_vec(),
            values: self.values.get(..length)?.to_vec(),
            threads: self.threads.get(..length)?.to_vec(),
        })
    }

    /// The history as a file. It has no notes.
    pub fn to_bytes(&self) -> Vec<u8> {
        // The head has 6 bytes, a start record 10 and no event more than 14: the output is never too short.
        let mut output = vec![0; 6 + 10 * REGISTERS + 14 * self.len()];
        let answer = calls::write(self.store(), self.columns(), self.count(), &mut output);
        let length = answer.done(Place::Event).unwrap_or_else(|refusal| refused_again(refusal));
        output.truncate(length);
        output
    }

    /// Judges every prefix. More than 10 transactions are refused.
    ///
    /// ```
    /// use sendoshi::{Cause, Columns, History, Scan};
    ///
    /// // T0 has written 5 and not called commit when T1 reads it.
    /// let history = History::from_columns(Columns {
    ///     kinds: &[16, 19, 20, 16, 17, 18],
    ///     transactions: &[0, 0, 0, 1, 1, 1],
    ///     registers: &[0; 6],
    ///     values: &[0, 5, 0, 0, 0, 5],
    ///     threads: &[0, 0, 0, 1, 0, 0],
    /// })?;
    /// let scan = history.scan()?;
    /// assert_eq!(scan, Scan::Faulted { event: 5, cause: Cause::ReadReturned });
    /// assert_eq!(scan.to_string(), "opaque no event 5 cause 1");
    /// # Ok::<(), sendoshi::Refusal>(())
    /// ```
    pub fn scan(&self) -> Result<Scan, Refusal> {
        let answer = calls::scan(self.store(), self.columns(), self.count());
        match Cause::from_code(answer.code) {
            Some(cause) => Ok(Scan::Faulted { event: answer.place as usize, cause }),
            None => answer.done(Place::Event).map(|_| Scan::Opaque),
        }
    }

    /// The lowest marking of the first `prefix` events, or `None` where no order justifies them. A prefix longer than the
    /// history is refused, and so is one with more than 10 transactions.
    ///
    /// ```
    /// use sendoshi::{Columns, History, Verdict};
    ///
    /// let history = History::from_columns(Columns {
    ///     kinds: &[16, 17, 18],
    ///     transactions: &[0, 0, 0],
    ///     registers: &[0, 0, 0],
    ///     values: &[0, 0, 9],
    ///     threads: &[0, 0, 0],
    /// })?;
    /// let before = history.prefix(2).expect("three events have a prefix of two");
    /// let marking = history.lowest_marking(2)?.expect("nothing has been read yet");
    /// assert_eq!(before.check(&marking)?, Verdict::Accepted);
    /// assert_eq!(history.lowest_marking(3)?, None); // nobody wrote 9
    /// assert_eq!(history.lowest_marking(4).unwrap_err().question.number(), 18);
    /// # Ok::<(), sendoshi::Refusal>(())
    /// ```
    pub fn lowest_marking(&self, prefix: usize) -> Result<Option<Vec<u8>>, Refusal> {
        // Room for a place of every transaction and a read point at every event: the output is never too short.
        let mut output = vec![0; 6 + 8 * MOST_JUDGED + 10 * prefix.min(self.len())];
        // A prefix of more than 32 bits is longer than the history, and so is the largest of 32 bits.
        let prefix = u32::try_from(prefix).unwrap_or(u32::MAX);
        let answer = calls::find(self.store(), self.columns(), self.count(), prefix, &mut output);
        if answer.code == NONE {
            return Ok(None);
        }
        let length = answer.done(Place::Event)?;
        output.truncate(length);
        Ok(Some(output))
    }

    /// Checks a marking file of the whole history; for a prefix, see [`History::prefix`].
    ///
    /// ```
    /// use sendoshi::{Columns, History, Place, Rule, Verdict};
    ///
    /// // One transaction, which has not ended.
    /// let columns = Columns { kinds: &[16], transactions: &[0], registers: &[0], values: &[0], threads: &[0] };
    /// let history = History::from_columns(columns)?;
    /// let mut marking = vec![4, 0, 2, 0, 1, 0];
    /// assert_eq!(history.check(&marking).unwrap_err().place, Place::Byte(6)); // T0 has no place
    /// marking.extend([6, 0, 32, 0, 0, 0, 1, 0]);
    /// let verdict = history.check(&marking)?;
    /// assert_eq!(verdict, Verdict::Broken { rule: Rule::A, event: 0, transaction: 0 }); // it cannot have committed
    /// assert_eq!(verdict.to_string(), "marking rule A event 0 transaction 0");
    /// # Ok::<(), sendoshi::Refusal>(())
    /// ```
    pub fn check(&self, marking: &[u8]) -> Result<Verdict, Refusal> {
        let answer = calls::check(self.store(), self.columns(), self.count(), marking);
        match answer.broken() {
            Some((rule, event, transaction)) => Ok(Verdict::Broken { rule, event, transaction }),
            // The events have passed their questions, so what is refused is the file.
            None => answer.done(Place::Byte).map(|_| Verdict::Accepted),
        }
    }

    /// Straightens the read points of a marking file of the whole history: outcomes, order and every point that breaks neither rule
    /// D nor rule E are kept, and each other point is moved to its reader's place. What is refused is what [`History::check`]
    /// refuses.
    ///
    /// ```
    /// use sendoshi::{Columns, History, Rule, Straightening, Verdict};
    ///
    /// // T0 writes 7 to register 3 and commits; T1 reads 0 there, before and after.
    /// let history = History::from_columns(Columns {
    ///     kinds: &[16, 19, 20, 16, 17, 18, 21, 22, 17, 18],
    ///     transactions: &[0, 0, 0, 1, 1, 1, 0, 0, 1, 1],
    ///     registers: &[0, 3, 0, 0, 3, 3, 0, 0, 3, 3],
    ///     values: &[0, 7, 0, 0, 0, 0, 0, 0, 0, 0],
    ///     threads: &[0, 0, 0, 1, 0, 0, 0, 0, 0, 0],
    /// })?;
    /// // T1, aborted, is placed before T0, but the point of event 9 stands at gap 2, behind T0's write.
    /// let mut careless = history.lowest_marking(10)?.expect("H0 is opaque");
    /// careless[40] = 2;
    /// assert_eq!(history.check(&careless)?, Verdict::Broken { rule: Rule::D, event: 9, transaction: 1 });
    ///
    /// let Straightening::Straightened { marking, moved } = history.straighten(&careless)? else { panic!("the order is good") };
    /// assert_eq!(moved, [9]);
    /// assert_eq!(marking[40], 0); // gap 0: T1's place
    /// assert_eq!(history.check(&marking)?, Verdict::Accepted);
    /// # Ok::<(), sendoshi::Refusal>(())
    /// ```
    pub fn straighten(&self, marking: &[u8]) -> Result<Straightening, Refusal> {
        // The result is as long as the marking, and a list with an entry for every event has one for every store read.
        let (mut output, mut moved) = (vec![0; marking.len()], vec![0; self.len()]);
        let answer = calls::straighten(self.store(), self.columns(), self.count(), marking, &mut output, &mut moved);
        if let Some((rule, event, transaction)) = answer.broken() {
            return Ok(Straightening::Broken { rule, event, transaction });
        }
        answer.done(Place::Byte)?;
        let (points, length) = answer.halves();
        output.truncate(length);
        Ok(Straightening::Straightened { marking: output, moved: moved[..points].iter().map(|&event| event as usize).collect() })
    }
}

/// The questions that the library put when the history was taken are answered the same way each time.
fn refused_again(refusal: Refusal) -> ! {
    panic!("the library took this history before: {refusal}")
}
