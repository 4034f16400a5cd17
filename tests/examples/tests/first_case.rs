//! Document 01's first case, asked from C and from Rust: "The commit writes, whole: `14 00 07 00 01
//! 00 00 00`, twelve zeros, `14 00 07 00 02 00 01 00 64 00 00 00 00 00 00 00 07 00 00 00`".

use examples::{cargo_run, compiled_c, written_by};
use std::path::Path;

const COMMIT_WRITES: &str = "\
14 00 07 00 01 00 00 00 00 00 00 00 00 00 00 00 00 00 00 00
14 00 07 00 02 00 01 00 64 00 00 00 00 00 00 00 07 00 00 00
";

#[test]
fn from_c() {
    let program = compiled_c("first.c", Path::new(env!("CARGO_TARGET_TMPDIR")));
    assert_eq!(written_by(&mut linking::started(program)), COMMIT_WRITES);
}

#[test]
fn from_rust() {
    assert_eq!(written_by(&mut cargo_run()), COMMIT_WRITES);
}
