//! The library seen from outside: what the comparisons, the memory checks and the benchmarks share.
//!
//! [`compare`] puts one call to the library and to the brute force and wants the same answer and the same buffers. Inputs come
//! from [`walk`] (random readable histories), [`simulate`] (a transactional memory), [`limits`] (histories at each limit),
//! [`marks`] (markings) and [`damage`] (files, columns and markings that are not quite right). [`rounds`] runs many of them, each
//! from a seed of its own. [`stores`] has the editions and start values that go with them. [`lent`] and [`guarded`] are the
//! buffers that the calls are lent, [`views`] those of a log that is lent as it stands, [`vast`] some with more entries than a count can
//! say. [`straight`] has what is promised of a straightened marking, and [`tallies`] what is promised of a tally. [`lone`] writes accesses
//! outside transactions out as the transactions that they stand for, and [`notes`] puts notes into files.
//!
//! Searches have inputs of their own: [`digest`] is what a search goes by, [`random_digest`] makes some, [`hard`] makes some that
//! are hard, and [`schedule`] makes histories of them. [`tables_by_force`] knows their lowest order without searching.

pub mod compare;
pub mod coverage;
pub mod damage;
pub mod digest;
pub mod guarded;
pub mod hard;
pub mod lent;
pub mod limits;
pub mod lone;
pub mod marks;
pub mod notes;
pub mod random;
pub mod random_digest;
pub mod rounds;
pub mod schedule;
pub mod shapes;
pub mod simulate;
pub mod stores;
pub mod straight;
pub mod tables_by_force;
pub mod tallies;
pub mod vast;
pub mod views;
pub mod walk;
