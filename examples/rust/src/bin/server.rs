//! A small tablet server. It owns the picture, numbers the transactions, takes turns over the
//! tablets, sends one request at a time, and hands every answer to the tablet whose transaction it
//! names. Who has to wait is told whose tablet is in the way. At the end of the day it saves the
//! picture in FILE and loads it again, and a last tablet reads what is there. A FILE that is there
//! already is loaded instead, without the day. `examples/c/server.c` is the same in C. Run with
//! `cargo run --offline --manifest-path examples/rust/Cargo.toml --bin server -- FILE`.

use keydesk::{Asks, Desk, Key, Number, Request, TRANSACTIONS};
use std::fs::{self, File};
use std::io::{ErrorKind, Write};
use std::process::ExitCode;

/// The works, each a transaction, all of them on the balls of pupil 7.
const COACH: &[Asks] = &[Asks::Begin, insert(10, 501), insert(20, 502), Asks::Commit];
const SECOND_COACH: &[Asks] = &[Asks::Begin, walk(u32::MAX), insert(30, 503), Asks::Commit];
const NIGHT_JOB: &[Asks] =
    &[Asks::Begin, walk(u32::MAX), insert(40, 504), insert(20, 777), delete(10), Asks::Commit];
const READER: &[Asks] = &[Asks::Begin, walk(40), Asks::Commit];

/// A read in a work is a walk: it is asked again from higher up until all up to hi was found.
const fn walk(last: u32) -> Asks {
    Asks::Read { lo: Key::of(7, 0), hi: Key::of(7, last) }
}

const fn insert(delivery: u32, record: u32) -> Asks {
    Asks::Insert { key: Key::of(7, delivery), record }
}

const fn delete(delivery: u32) -> Asks {
    Asks::Delete { key: Key::of(7, delivery) }
}

/// How often a work is begun before it is given up.
const TRIES: u32 = 5;

/// What a tablet does when its turn comes.
enum Turn {
    /// Asks the next step of its work; nothing when there is none left.
    Asks,
    /// Nothing: it was told 3, and its answer comes in another tablet's call.
    Waits,
    /// Rolls back, and then begins its work again.
    Retries,
    /// Rolls back, and then leaves its work undone.
    GivesUp,
}

struct Tablet {
    number: usize,
    work: &'static [Asks],
    /// How many steps of its work are behind it.
    step: usize,
    /// Where its walk goes on, once it has found something.
    lo: Option<Key>,
    /// The number of its transaction; 0 while it has none.
    transaction: u16,
    turn: Turn,
    tries: u32,
}

impl Tablet {
    fn with(number: usize, work: &'static [Asks]) -> Tablet {
        Tablet { number, work, step: 0, lo: None, transaction: 0, turn: Turn::Asks, tries: 1 }
    }

    /// What it asks when its turn comes; none where it sends nothing.
    fn asks(&self) -> Option<Asks> {
        match self.turn {
            Turn::Waits => None,
            Turn::Retries | Turn::GivesUp => Some(Asks::Rollback),
            Turn::Asks => match *self.work.get(self.step)? {
                Asks::Read { lo, hi } => Some(Asks::Read { lo: self.lo.unwrap_or(lo), hi }),
                asks => Some(asks),
            },
        }
    }

    /// Takes an answer, and gives the words for it; an error where the server has lost track.
    fn told(&mut self, says: Number) -> Result<String, String> {
        match says {
            Number::Done => return Ok(self.done()),
            Number::Found { key, .. } => self.walk_on(key),
            Number::Nothing | Number::KeyPresent { .. } => self.go_to(self.step + 1),
            Number::StillQueued { .. } => {
                self.turn = Turn::Waits;
                return Ok("waits".to_string());
            }
            Number::LocksInUse | Number::Circle => self.try_again(),
            Number::PagesShort => self.turn = Turn::GivesUp,
            Number::AlreadyRunning | Number::NotRunning | Number::IsWaiting => {
                return Err(format!("lost track of tablet {}: {says}", self.number));
            }
        }
        Ok(says.to_string())
    }

    /// What was asked is done: the words for it, and on to the next step.
    fn done(&mut self) -> String {
        let words = match (&self.turn, self.work[self.step]) {
            (Turn::Retries, _) => "rolled back, and begins its work again".to_string(),
            (Turn::GivesUp, _) => "rolled back, and gives up".to_string(),
            (_, Asks::Begin) => format!("begun as transaction {}", self.transaction),
            (_, Asks::Insert { key, record }) => format!("inserted {key} with record {record}"),
            (_, Asks::Delete { key }) => format!("deleted {key}"),
            (_, Asks::Commit) => "committed".to_string(),
            (_, Asks::Read { .. } | Asks::Rollback) => Number::Done.to_string(),
        };
        match self.turn {
            Turn::Retries => self.go_to(0),
            Turn::GivesUp => self.go_to(self.work.len()),
            Turn::Asks | Turn::Waits => self.go_to(self.step + 1),
        }
        words
    }

    /// Goes on with a step of the work. Before the first and after the last one it has no
    /// transaction: what it had is committed or rolled back, and the number is free again.
    fn go_to(&mut self, step: usize) {
        (self.step, self.lo, self.turn) = (step, None, Turn::Asks);
        if step == 0 || step == self.work.len() {
            self.transaction = 0;
        }
    }

    /// A walk goes on above the key found; where that was hi, it has seen all.
    fn walk_on(&mut self, found: Key) {
        match self.work[self.step] {
            Asks::Read { hi, .. } if found == hi => self.go_to(self.step + 1),
            _ => (self.lo, self.turn) = (found.next(), Turn::Asks),
        }
    }

    /// Rolls back, so that others can go on, and tries again after them, but not for ever.
    fn try_again(&mut self) {
        self.tries += 1;
        self.turn = if self.tries <= TRIES { Turn::Retries } else { Turn::GivesUp };
    }
}

/// Takes turns until nobody asks any more. All works have ended then, since nobody waits in a
/// circle: whoever waits, waits for one who can ask.
fn take_turns(desk: &mut Desk, tablets: &mut [Tablet]) -> Result<(), String> {
    let mut asked = true;
    while asked {
        asked = false;
        for caller in 0..tablets.len() {
            if let Some(asks) = tablets[caller].asks() {
                call(desk, tablets, caller, asks)?;
                asked = true;
            }
        }
    }
    let ended = tablets.iter().all(|tablet| tablet.step == tablet.work.len());
    ended.then_some(()).ok_or("lost track of a tablet: it waits for ever".to_string())
}

/// Asks for one tablet, and hands every answer to the tablet whose transaction it names.
fn call(desk: &mut Desk, tablets: &mut [Tablet], caller: usize, asks: Asks) -> Result<(), String> {
    if asks == Asks::Begin {
        tablets[caller].transaction = free_number(tablets)?;
    }
    let request = Request { transaction: tablets[caller].transaction, asks };
    let answers = desk.ask(request);
    for answer in answers.map_err(|refusal| format!("the desk refused a call: {refusal}"))? {
        let named = with_transaction(tablets, answer.transaction)?;
        let words = tablets[named].told(answer.says)?;
        print!("tablet {}: {words}", tablets[named].number);
        if let Number::StillQueued { behind } = answer.says {
            print!(" behind tablet {}", tablets[with_transaction(tablets, behind)?].number);
        }
        if named != caller {
            print!(", in tablet {}'s call", tablets[caller].number);
        }
        println!();
    }
    Ok(())
}

/// The place of the tablet whose transaction an answer names.
fn with_transaction(tablets: &[Tablet], transaction: u16) -> Result<usize, String> {
    let named = tablets.iter().position(|tablet| tablet.transaction == transaction);
    named.ok_or("an answer names nobody".to_string())
}

/// The lowest transaction number that no tablet has.
fn free_number(tablets: &[Tablet]) -> Result<u16, String> {
    let free = |number: &u16| tablets.iter().all(|tablet| tablet.transaction != *number);
    (1..=TRANSACTIONS).find(free).ok_or("no number is free: all transactions run".to_string())
}

/// Writes the picture to a new file, and then puts that in the place of the old one.
fn save(path: &str, desk: &Desk) -> std::io::Result<()> {
    let new_path = format!("{path}.new");
    let mut file = File::create(&new_path)?;
    file.write_all(&desk.saved())?;
    file.sync_all()?;
    fs::rename(new_path, path)?;
    println!("saved");
    Ok(())
}

/// The desk that was saved; none where there is no file. What is not a whole picture is refused.
fn load(path: &str) -> Result<Option<Desk>, String> {
    let saved = match fs::read(path) {
        Err(error) if error.kind() == ErrorKind::NotFound => return Ok(None),
        read => read.map_err(|error| format!("the saved picture can't be read: {error}"))?,
    };
    let desk = Desk::load(&saved);
    let desk = desk.map_err(|refusal| format!("the saved picture is refused: {refusal}"))?;
    println!("loaded: the picture is whole");
    Ok(Some(desk))
}

/// The day: three tablets on a fresh desk, which is then saved.
fn day(path: &str) -> Result<(), String> {
    let mut desk = Desk::fresh();
    let mut tablets =
        [Tablet::with(1, COACH), Tablet::with(2, SECOND_COACH), Tablet::with(3, NIGHT_JOB)];
    take_turns(&mut desk, &mut tablets)?;
    save(path, &desk).map_err(|error| format!("the picture can't be saved: {error}"))
}

fn served(path: &str) -> Result<(), String> {
    let mut desk = load(path)?;
    if desk.is_none() {
        day(path)?;
        desk = load(path)?;
    }
    let mut desk = desk.ok_or("the saved picture is gone")?;
    take_turns(&mut desk, &mut [Tablet::with(4, READER)])
}

fn main() -> ExitCode {
    let path = std::env::args().nth(1).ok_or("usage: server FILE".to_string());
    match path.and_then(|path| served(&path)) {
        Ok(()) => ExitCode::SUCCESS,
        Err(why) => {
            eprintln!("server: {why}");
            ExitCode::FAILURE
        }
    }
}
