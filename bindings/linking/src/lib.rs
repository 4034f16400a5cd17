//! For build scripts: has `tools/make` prove a crate and make its static library, which is then
//! linked, or its program; where what was made before is still good, nothing is proved. For tests:
//! starts a program.

use std::ffi::OsStr;
use std::fs::{self, File};
use std::path::{Path, PathBuf};
use std::process::{Command, Stdio};
use std::{env, io};

/// Builds and links a static library, and gives the directory that it is linked from: a copy, since
/// what is made next stands in the same place. The script runs again when a crate that the library is
/// made from changes.
pub fn link(name: &str) -> PathBuf {
    let library = format!("lib{name}.a");
    let out = build(name, &Path::new("target/staticlib").join(&library));
    println!("cargo::rustc-link-search=native={}", out.display());
    println!("cargo::rustc-link-lib=static={name}");
    out
}

/// Builds a program, and gives the path of a copy.
pub fn program(name: &str) -> PathBuf {
    build(name, &Path::new("target/bin").join(name)).join(name)
}

/// The command that starts a program for x86-64: itself or, where `.ci/x86` has named an emulator,
/// that one.
pub fn started(program: impl AsRef<OsStr>) -> Command {
    match env::var_os("X86_EMULATOR") {
        Some(emulator) => {
            let mut command = Command::new(emulator);
            command.arg(program);
            command
        }
        None => Command::new(program),
    }
}

/// Has `tools/make` make something where that is due, and copies it into the script's own directory.
fn build(name: &str, made: &Path) -> PathBuf {
    let out = PathBuf::from(env::var("OUT_DIR").expect("cargo names the directory"));
    let here = Path::new(env!("CARGO_MANIFEST_DIR"));
    let root = here.ancestors().nth(2).expect("the repository's root is two levels up");
    let made = root.join(made);
    let sources = sources(root, name);
    let turn = wait_for_turn(root).expect("a lock can be taken under target/");
    if is_due(&made, &sources).expect("the sources can be looked at") {
        eprintln!("tools/make {name}: proves and compiles it, some minutes the first time");
        make(root, &[name], Stdio::inherit());
    }
    let file = made.file_name().expect("a file is made");
    fs::copy(&made, out.join(file)).expect("tools/make has put it there");
    drop(turn);
    for source in sources {
        println!("cargo::rerun-if-changed={}", source.display());
    }
    out
}

/// Runs `tools/make`, which must end well, and gives what it has said where that was kept.
fn make(root: &Path, words: &[&str], said: Stdio) -> String {
    let mut command = Command::new(root.join("tools/make"));
    let ended = command.args(words).stdout(said).stderr(Stdio::inherit()).output();
    let ended = ended.expect("tools/make can be started");
    assert!(ended.status.success(), "{command:?} failed");
    String::from_utf8(ended.stdout).expect("names of files are plain text")
}

/// What something is made from: the list of the crates, and the folders of those that it reaches.
fn sources(root: &Path, name: &str) -> Vec<PathBuf> {
    let listed = make(root, &["--sources", name], Stdio::piped());
    listed.lines().map(|source| root.join(source)).collect()
}

/// Whether a file is missing, or older than something that it is made from. A folder is newer when a
/// file has been put into it or taken out.
pub fn is_due(made: &Path, sources: &[PathBuf]) -> io::Result<bool> {
    let made = match fs::metadata(made) {
        Err(missing) if missing.kind() == io::ErrorKind::NotFound => return Ok(true),
        found => found?.modified()?,
    };
    let mut rest = sources.to_vec();
    while let Some(source) = rest.pop() {
        let found = fs::metadata(&source)?;
        if found.modified()? > made {
            return Ok(true);
        }
        if found.is_dir() {
            for inside in fs::read_dir(source)? {
                rest.push(inside?.path());
            }
        }
    }
    Ok(false)
}

/// Cargo runs build scripts side by side, and `rt` must not prove one crate twice at a time.
fn wait_for_turn(root: &Path) -> io::Result<File> {
    fs::create_dir_all(root.join("target"))?;
    let turn = File::create(root.join("target/linking.lock"))?;
    turn.lock()?;
    Ok(turn)
}
