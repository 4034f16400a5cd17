//! Programs of the repository's `examples/`, built as their readers would build them.

use std::path::{Path, PathBuf};
use std::process::Command;

/// The repository's root, two levels above this package.
pub fn root() -> &'static Path {
    let tests = Path::new(env!("CARGO_MANIFEST_DIR"));
    tests.ancestors().nth(2).expect("the repository's root is two levels up")
}

/// What a command writes; it must end well, and what it says of errors is shown if it doesn't.
pub fn written_by(command: &mut Command) -> String {
    let ended = command.output().expect("the command can be started");
    let said = String::from_utf8_lossy(&ended.stderr);
    assert!(ended.status.success(), "{command:?}: {said}");
    String::from_utf8(ended.stdout).expect("a text")
}

/// What a command says of errors; it must end badly, and write nothing.
pub fn refused_by(command: &mut Command) -> String {
    let ended = command.output().expect("the command can be started");
    let said = String::from_utf8(ended.stderr).expect("a text");
    assert!(!ended.status.success(), "{command:?}: {said}");
    assert_eq!(ended.stdout, [], "{command:?}: {said}");
    said
}

/// Compiles a C program of `examples/c` over `include/keydesk.h` and the static library into a
/// directory. Gives the program.
pub fn compiled_c(source: &str, into: &Path) -> PathBuf {
    let program = into.join(source).with_extension("");
    let library = Path::new(env!("DESK_LIBRARY")).join("libdesk.a");
    let mut cc = Command::new("cc");
    cc.args(["-std=c99", "-Wall", "-Wextra", "-Werror", "-pedantic"]);
    cc.arg("-I").arg(root().join("include"));
    cc.arg(root().join("examples/c").join(source)).arg(library).arg("-o").arg(&program);
    written_by(&mut cc);
    program
}

/// The command that builds and runs the first Rust program of `examples/rust`, or another with
/// `--bin`, under the profile that the tests are built with, so that the library is not built once
/// more.
pub fn cargo_run() -> Command {
    let mut cargo = Command::new(env!("CARGO"));
    cargo.args(["run", "--offline", "--quiet", "--profile", "test", "--manifest-path"]);
    cargo.arg(root().join("examples/rust/Cargo.toml"));
    cargo
}
