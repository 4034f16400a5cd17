//! What the figures were taken on.

use crate::timing::{ROUNDS, SESSION_ROUNDS};
use std::fs;
use std::process::Command;

/// The machine, the compiler and the command, in Markdown.
pub fn description() -> String {
    let processors = fs::read_to_string("/proc/cpuinfo").unwrap_or_default();
    let names: Vec<&str> = processors
        .lines()
        .filter_map(|line| line.strip_prefix("model name"))
        .map(|name| name.trim_start_matches([' ', '\t', ':']))
        .collect();
    let name = names.first().copied().unwrap_or("an unknown processor");
    let rustc = Command::new("rustc").arg("--version").output();
    let rustc = rustc.map(|output| String::from_utf8_lossy(&output.stdout).trim().to_string());
    let rustc = rustc.unwrap_or_else(|_| "an unknown rustc".to_string());
    format!(
        "Machine: {name}, {} processors; {rustc}.\n\
         Command: `cargo run --release --offline --manifest-path tests/Cargo.toml -p bench`.\n\
         One call: the median of {ROUNDS} rounds of many. Sessions: {SESSION_ROUNDS} times, the sum \
         of each call's median.",
        names.len(),
    )
}
