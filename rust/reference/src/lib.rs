//! The paper's definitions, written down word by word and evaluated by brute force.
//!
//! Nothing here is fast and nothing is shared with the library under test. A question is answered by looking through all events
//! before the one asked about; a justification is looked for among every order of the transactions with every outcome of each,
//! and the lowest is the least of all that are found. There are no tables, no search and no early end of a bad order.
//!
//! [`entries`] has a function for each entry of the library, with the same answers and the same effect on lent buffers.

pub mod entries;
pub mod event;
pub mod history_file;
pub mod judgement;
pub mod justification;
pub mod log;
pub mod marking_file;
pub mod notes;
pub mod orders;
pub mod questions;
pub mod reads;
pub mod record;
pub mod report;
pub mod rules;
pub mod store;
pub mod straighten;
pub mod tally;
pub mod worked;
