//! Reads the page `docs/FORMAT.md`, and what it is held against: the definitions' width tables and
//! limits, and the constants of the C header.
//!
//! Read `page` for how the page is taken apart, `drawing` for how a table is drawn, `definitions` for
//! the texts of the proofs, `header` for C.

pub mod definitions;
pub mod drawing;
pub mod header;
pub mod page;

use std::fs;
use std::path::Path;

/// A file of the repository, by its path from the root.
pub fn file(path: &str) -> String {
    let here = Path::new(env!("CARGO_MANIFEST_DIR"));
    let root = here.ancestors().nth(2).expect("the repository's root is two levels up");
    fs::read_to_string(root.join(path)).unwrap_or_else(|error| panic!("{path}: {error}"))
}
