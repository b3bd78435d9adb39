//! Random calls of this crate's maps and of those of slotmap 1.1.1: the same results, keys, order and text.
//!
//! `CALLS` says how many calls each test makes (100,000 without it). Left out is what the crate documents as different: capacities,
//! `Debug` of maps and iterators, pairs at index 0 of a `SecondaryMap`, null keys with a version, and versions that wrap around.
mod pair;
mod primary;
mod serde;
mod side;
