//! `./play` looks at its arguments with this before it proves anything: the program's own code for
//! them, and std alone, so that the script compiles it without the desk. The status is 0, or 2 with
//! the words that `play` has for it.

#![allow(dead_code, reason = "the modules are the program's, and this needs a part of each")]

mod digits;
mod plain;
mod sources;
mod usage;

use std::env;
use std::process::ExitCode;

fn main() -> ExitCode {
    let arguments: Vec<_> = env::args_os().skip(1).collect();
    match usage::command(&arguments).and_then(|command| command.check()) {
        Ok(()) => ExitCode::SUCCESS,
        Err(wrong) => {
            eprintln!("play: {}", plain::plain(&wrong));
            ExitCode::from(2)
        }
    }
}
