//! The first case of document 01: 1 begins and inserts 100 with record 7; 2 begins and reads
//! 50..150, which waits; 1 commits, and the commit answers both. Prints the commit's answer records
//! in hex, one to a line. Run with `cargo run --offline --manifest-path examples/rust/Cargo.toml`.

use keydesk::{Desk, Refusal, Request};

fn main() -> Result<(), Refusal> {
    let mut desk = Desk::fresh();
    desk.ask(Request::begin(1))?;
    desk.ask(Request::insert(1, 100, 7))?;
    desk.ask(Request::begin(2))?;
    desk.ask(Request::read(2, 50, 150))?;
    for record in desk.ask(Request::commit(1))?.records() {
        let hex: Vec<String> = record.iter().map(|byte| format!("{byte:02x}")).collect();
        println!("{}", hex.join(" "));
    }
    Ok(())
}
