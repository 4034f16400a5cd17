//! The proved index, called from Rust and compared with the model's own.
//!
//! `doors` has the functions of the crate `testing_index`, on the model's values; `beside` makes each
//! change in both indexes and compares all their bytes; `changes` picks what to do next.

pub mod beside;
pub mod changes;
pub mod doors;
