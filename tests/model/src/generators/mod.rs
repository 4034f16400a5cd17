//! Seeded generators for tests: requests, whole pictures that need not be at rest, and damages.

pub mod damages;
pub mod pictures;
pub mod random;
pub mod requests;
