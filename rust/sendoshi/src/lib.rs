//! Opacity of recorded transactional histories: a safe wrapper over the proved static library.
//!
//! A [`History`] is read from a file or taken from columns, in edition 1, in which every register starts at 0, or in edition 2 with
//! start values and with accesses outside transactions, each of which is a transaction of its own. It can be written back, tallied by
//! what has become of its transactions, scanned for the first prefix that no order of them justifies, given its lowest marking, and
//! compared with a marking from elsewhere, whose read points it can straighten. [`notes()`] gives what technicians have typed into a file
//! between its events; a history has none of it.
//!
//! ```
//! use sendoshi::History;
//!
//! let capture = [
//!     4, 0, 1, 0, 1, 0, // the head
//!     6, 0, 16, 0, 0, 0, 0, 0, // T0 begins on thread 0
//!     6, 0, 17, 0, 0, 0, 3, 0, // it calls a read of register 3
//!     8, 0, 18, 0, 0, 0, 0, 0, 0, 0, // which returns 0
//! ];
//! let history = History::read(&capture)?;
//! println!("events {} transactions {} reads {}", history.len(), history.transactions(), history.store_reads());
//! println!("{}", history.tally());
//! println!("{}", history.scan()?);
//! # assert_eq!((history.len(), history.transactions(), history.store_reads()), (3, 1, 1));
//! # assert_eq!(history.tally().to_string(), "committed 0 aborted 0 pending 0 live 1");
//! # assert_eq!(history.scan()?.to_string(), "opaque yes");
//! # Ok::<(), sendoshi::Refusal>(())
//! ```
//!
//! # What is tested before a call
//!
//! Nothing needs to be. The library's functions have no condition on the numbers or the contents that they are given: what does
//! not fit is refused with a [`Question`] and a [`Place`], and a refusal leaves every lent buffer as it was. What the library
//! cannot test is given by Rust: a slice is good for its length, and a buffer that is written is borrowed by the call alone. The
//! wrapper only sees to it that the buffers it allocates itself are long enough, so that [`History`] never meets the questions
//! about lent buffers (14, 15, 32), that it holds no edition but 1 and 2, so that question 3 is about a file, and that no length is
//! cut to the 32 bits of a call's count, for which it asks question 17 itself. [`calls`] has the functions on the caller's own buffers.
//!
//! # Linking
//!
//! The build script looks for `libsendoshi.a` in the folder named by the environment variable `SENDOSHI_LIB_DIR`, or else in the
//! repository's `target/staticlib`, where `./staticlib` puts it.

pub mod answer;
pub mod calls;
pub mod ffi;
mod history;
mod judgement;
mod notes;
mod question;
mod tally;

pub use answer::Answer;
pub use calls::{Columns, ColumnsMut, Store};
pub use history::History;
pub use judgement::{Cause, Rule, Scan, Straightening, Verdict};
pub use notes::{notes, Note, Notes};
pub use question::{Place, Question, Refusal};
pub use tally::Tally;
