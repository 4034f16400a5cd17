//! Where a session comes from, and what can be said of files before anything is played.

use std::fs::{self, File};
use std::io::{self, Read};
use std::path::{Path, PathBuf};

/// Where a session comes from.
#[derive(Clone, Debug, PartialEq, Eq)]
pub enum Source {
    /// The story of the namesake.
    Story,
    /// Standard input.
    Input,
    File(PathBuf),
}

/// What `./play` plays without a file.
const STORY: &str = include_str!("../../examples/namesake.txt");

impl Source {
    /// The name to call the session by.
    pub fn name(&self) -> String {
        match self {
            Source::Story => "the story".to_string(),
            Source::Input => "standard input".to_string(),
            Source::File(path) => path.display().to_string(),
        }
    }

    /// The session's text, or why it can't be read.
    pub fn text(&self) -> Result<String, String> {
        let mut bytes = Vec::new();
        let read = match self {
            Source::Story => return Ok(STORY.to_string()),
            Source::Input => io::stdin().read_to_end(&mut bytes).map(drop),
            Source::File(path) => fs::read(path).map(|read| bytes = read),
        };
        read.map_err(|error| format!("{} can't be read: {error}", self.name()))?;
        Ok(String::from_utf8_lossy(&bytes).into_owned())
    }

    /// The session's text where it can be read more than once, and so not from a pipe; or why it
    /// can't be read.
    pub fn at_hand(&self) -> Result<Option<String>, String> {
        match self {
            Source::Input => Ok(None),
            Source::File(path) if fs::metadata(path).is_ok_and(|found| passes_by(&found)) => {
                Ok(None)
            }
            _ => self.text().map(Some),
        }
    }
}

/// Whether it is neither a file nor a folder: what is read from it or written to it has gone by.
fn passes_by(found: &fs::Metadata) -> bool {
    !found.is_file() && !found.is_dir()
}

/// Whether a file can be written, without writing it; or why it can't.
pub fn can_be_written(out: &Path) -> Result<(), String> {
    let looked = match fs::metadata(out) {
        Ok(found) if passes_by(&found) => Ok(()),
        Ok(_) => File::options().append(true).open(out).map(drop),
        Err(missing) => match out.parent() {
            Some(folder) => fs::metadata(folder.join(".")).map(drop),
            None => Err(missing),
        },
    };
    looked.map_err(|error| not_written(out, &error))
}

/// Writes a file, or says why it can't be written.
pub fn write(out: &Path, text: &str) -> Result<(), String> {
    fs::write(out, text).map_err(|error| not_written(out, &error))
}

fn not_written(out: &Path, error: &io::Error) -> String {
    format!("{} can't be written: {error}", out.display())
}
