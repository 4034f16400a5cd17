//! The text of a session: one line as a request, or the reason why it can't be read. What is well
//! written may still be refused by the desk (5..4, the end as key, a transaction 17): that is the
//! desk's to say.

use crate::digits::number;
use crate::keys::Written;
use crate::plain::cut;
use std::fmt;

/// A request as a line writes it.
#[derive(Clone, Copy, Debug, PartialEq, Eq)]
pub struct Request {
    pub transaction: u16,
    pub asks: Asks,
}

impl Request {
    /// The request as the desk is asked it.
    pub fn for_the_desk(&self) -> keydesk::Request {
        let by = self.transaction;
        match self.asks {
            Asks::Begin => keydesk::Request::begin(by),
            Asks::Commit => keydesk::Request::commit(by),
            Asks::Rollback => keydesk::Request::rollback(by),
            Asks::Read { lo, hi } => keydesk::Request::read(by, lo.key, hi.key),
            Asks::Insert { key, record } => keydesk::Request::insert(by, key.key, record),
            Asks::Delete { key } => keydesk::Request::delete(by, key.key),
        }
    }
}

/// What a request asks for.
#[derive(Clone, Copy, Debug, PartialEq, Eq)]
pub enum Asks {
    Begin,
    Commit,
    Rollback,
    Read { lo: Written, hi: Written },
    Insert { key: Written, record: u32 },
    Delete { key: Written },
}

impl Asks {
    /// The keys that the line names.
    pub fn keys(&self) -> Vec<Written> {
        match *self {
            Asks::Begin | Asks::Commit | Asks::Rollback => vec![],
            Asks::Read { lo, hi } => vec![lo, hi],
            Asks::Insert { key, .. } | Asks::Delete { key } => vec![key],
        }
    }
}

/// As a line writes it.
impl fmt::Display for Asks {
    fn fmt(&self, to: &mut fmt::Formatter) -> fmt::Result {
        match self {
            Asks::Begin => write!(to, "begin"),
            Asks::Commit => write!(to, "commit"),
            Asks::Rollback => write!(to, "rollback"),
            Asks::Read { lo, hi } => write!(to, "read {lo}..{hi}"),
            Asks::Insert { key, record } => write!(to, "insert {key} record {record}"),
            Asks::Delete { key } => write!(to, "delete {key}"),
        }
    }
}

/// Why a line can't be read. The text in it is the line's own.
#[derive(Clone, Debug, PartialEq, Eq)]
pub enum Slip {
    NoTransaction(String),
    NothingAsked,
    UnknownRequest(String),
    NoRange,
    NoKeyToInsert,
    NoKeyToDelete,
    NoRecord,
    BadKey(String),
    BadRecord(String),
    TooMuch(String),
}

/// The reason in words, fit to be printed: a very long word is cut.
impl fmt::Display for Slip {
    fn fmt(&self, to: &mut fmt::Formatter) -> fmt::Result {
        let quoted = |text: &str| format!("'{}'", cut(text, QUOTED));
        match self {
            Slip::NoTransaction(text) => {
                let text = quoted(text);
                write!(to, "a line starts with a transaction's number, 1 to 16, and {text} is none")
            }
            Slip::NothingAsked => write!(to, "a request is missing: {REQUESTS}"),
            Slip::UnknownRequest(text) => write!(to, "{} is no request: {REQUESTS}", quoted(text)),
            Slip::NoRange => write!(to, "a read names its range, as in: 1 read 50..150"),
            Slip::NoKeyToInsert => {
                write!(to, "an insert names its key and record, as in: 2 insert 100 record 7")
            }
            Slip::NoKeyToDelete => write!(to, "a delete names its key, as in: 2 delete 100"),
            Slip::NoRecord => {
                write!(to, "an insert names its record, as in: 2 insert 100 record 7")
            }
            Slip::BadKey(text) => write!(
                to,
                "{} is no key: a key is a number below 2^64, or pupil/delivery, each below 2^32",
                quoted(text)
            ),
            Slip::BadRecord(text) => {
                write!(to, "{} is no record: a record is a number below 2^32", quoted(text))
            }
            Slip::TooMuch(text) => {
                write!(to, "{} is too much: the request ends before it", quoted(text))
            }
        }
    }
}

const REQUESTS: &str = "begin, commit, rollback, read, insert or delete";
/// So many columns of a line's own text are quoted: every key that is nearly right fits.
const QUOTED: usize = 24;

/// A line without the white space around it, and without the byte order mark that some editors put
/// in front of a file.
pub fn trimmed(line: &str) -> &str {
    line.trim_start_matches('\u{feff}').trim()
}

/// A line as a request. Nothing for a line without one: a blank, or a comment only.
pub fn parse(line: &str) -> Result<Option<Request>, Slip> {
    let line = trimmed(line);
    let written = line.split_once('#').map_or(line, |(written, _comment)| written).trim();
    if written.is_empty() {
        return Ok(None);
    }
    let (transaction, rest) = first_word(written);
    let transaction =
        number(transaction).ok_or_else(|| Slip::NoTransaction(transaction.to_string()))?;
    let (request, rest) = first_word(rest);
    let asks = match request {
        "" => Err(Slip::NothingAsked),
        "begin" => ended(Asks::Begin, rest),
        "commit" => ended(Asks::Commit, rest),
        "rollback" => ended(Asks::Rollback, rest),
        "read" => read(rest),
        "insert" => insert(rest),
        "delete" => delete(rest),
        other => Err(Slip::UnknownRequest(other.to_string())),
    };
    Ok(Some(Request { transaction, asks: asks? }))
}

/// The first word of a text and what comes after it, both trimmed.
fn first_word(text: &str) -> (&str, &str) {
    let (word, rest) = text.split_once(char::is_whitespace).unwrap_or((text, ""));
    (word, rest.trim())
}

/// What is asked, if nothing more is written.
fn ended(asks: Asks, rest: &str) -> Result<Asks, Slip> {
    if rest.is_empty() { Ok(asks) } else { Err(Slip::TooMuch(rest.to_string())) }
}

fn key(text: &str) -> Result<Written, Slip> {
    Written::parse(text).ok_or_else(|| Slip::BadKey(text.to_string()))
}

/// LO..HI, with or without blanks around the dots.
fn read(rest: &str) -> Result<Asks, Slip> {
    let (lo, after) = rest.split_once("..").ok_or(Slip::NoRange)?;
    let (hi, rest) = first_word(after.trim());
    if lo.trim().is_empty() || hi.is_empty() {
        return Err(Slip::NoRange);
    }
    ended(Asks::Read { lo: key(lo.trim())?, hi: key(hi)? }, rest)
}

/// KEY record RECORD.
fn insert(rest: &str) -> Result<Asks, Slip> {
    let (named, rest) = first_word(rest);
    if named.is_empty() {
        return Err(Slip::NoKeyToInsert);
    }
    let key = key(named)?;
    let (word, rest) = first_word(rest);
    let (record, rest) = first_word(rest);
    if word != "record" || record.is_empty() {
        return Err(Slip::NoRecord);
    }
    let record = number(record).ok_or_else(|| Slip::BadRecord(record.to_string()))?;
    ended(Asks::Insert { key, record }, rest)
}

/// KEY.
fn delete(rest: &str) -> Result<Asks, Slip> {
    let (named, rest) = first_word(rest);
    if named.is_empty() {
        return Err(Slip::NoKeyToDelete);
    }
    ended(Asks::Delete { key: key(named)? }, rest)
}
