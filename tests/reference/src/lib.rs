//! The calls of docs/FORMAT.md by their definitions alone.
//!
//! It decodes the bytes, checks the rules, enumerates the candidates, tests and charges each one,
//! groups the secure ones by option in a map, keeps the first of every group, sorts, and sums up the
//! amounts of each row. It knows none of the engine's algorithms, so that agreement between the two
//! means something.

pub mod calls;
pub mod description;
pub mod label;
pub mod options;
pub mod picture;
pub mod random;
pub mod rules;
