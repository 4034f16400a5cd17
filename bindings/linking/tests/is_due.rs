//! When something has to be made again. The times are set, not waited for.

use linking::is_due;
use std::fs::{self, File};
use std::path::{Path, PathBuf};
use std::time::{Duration, SystemTime};

/// A folder of this test alone, with a source in a folder and what was made from it. No file is called
/// `.rt`: `rt ci` refuses such a file outside of a crate, below target/ too.
fn folder(name: &str) -> PathBuf {
    let folder = Path::new(env!("CARGO_TARGET_TMPDIR")).join(name);
    let _ = fs::remove_dir_all(&folder);
    fs::create_dir_all(folder.join("crates/one")).expect("a folder can be made");
    fs::write(folder.join("crates/one/source"), "").expect("a file can be written");
    fs::write(folder.join("made"), "").expect("a file can be written");
    for old in ["crates/one/source", "crates/one", "crates"] {
        dated(&folder.join(old), 1);
    }
    dated(&folder.join("made"), 2);
    folder
}

/// Gives a file or folder a time.
fn dated(path: &Path, seconds: u64) {
    let time = SystemTime::UNIX_EPOCH + Duration::from_secs(seconds);
    File::open(path).and_then(|file| file.set_modified(time)).expect("it can be dated");
}

fn due(folder: &Path) -> bool {
    is_due(&folder.join("made"), &[folder.join("crates")]).expect("all can be looked at")
}

#[test]
fn nothing_is_due_while_no_source_is_newer() {
    let folder = folder("settled");
    assert!(!due(&folder));
    dated(&folder.join("crates/one/source"), 2);
    assert!(!due(&folder), "as old is not newer");
}

#[test]
fn what_is_missing_is_due() {
    let folder = folder("missing");
    fs::remove_file(folder.join("made")).expect("it is there");
    assert!(due(&folder));
}

#[test]
fn a_newer_source_makes_it_due() {
    let folder = folder("newer");
    dated(&folder.join("crates/one/source"), 3);
    assert!(due(&folder));
}

#[test]
fn a_source_put_in_or_taken_out_makes_it_due() {
    let changed = folder("put-in");
    fs::write(changed.join("crates/one/another"), "").expect("a file can be written");
    dated(&changed.join("crates/one/another"), 1);
    assert!(due(&changed), "the folder is newer");
    let changed = folder("taken-out");
    fs::remove_file(changed.join("crates/one/source")).expect("it is there");
    assert!(due(&changed));
}

#[test]
fn a_source_that_cannot_be_looked_at_is_an_error() {
    let folder = folder("unreadable");
    assert!(is_due(&folder.join("made"), &[folder.join("nowhere")]).is_err());
}
