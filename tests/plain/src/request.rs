//! Request records, and the key requests that wait in the desk.

use crate::bytes::{END, u16_at, u32_at, u64_at};

/// A read, insert or delete, with its fields as they stand in a transaction's record: delete and
/// insert use lo.
#[derive(Clone, Copy)]
pub struct Keys {
    pub kind: u16,
    pub record: u32,
    pub lo: u64,
    pub hi: u64,
}

pub const READ: u16 = 4;
pub const INSERT: u16 = 5;
pub const DELETE: u16 = 6;

#[derive(Clone, Copy)]
pub enum Kind {
    Begin,
    Commit,
    Rollback,
    Keys(Keys),
}

#[derive(Clone, Copy)]
pub struct Request {
    pub transaction: u16,
    pub kind: Kind,
}

impl Request {
    /// The request of a record, or nothing where number 12 is due.
    pub fn read(record: &[u8]) -> Option<Request> {
        if record.len() < 8 || usize::from(u16_at(record, 0)) != record.len() {
            return None;
        }
        let transaction = u16_at(record, 4);
        if u16_at(record, 6) != 0 || !(1..=16).contains(&transaction) {
            return None;
        }
        let kind = match (u16_at(record, 2), record.len()) {
            (1, 8) => Kind::Begin,
            (2, 8) => Kind::Commit,
            (3, 8) => Kind::Rollback,
            (READ, 24) => keys(READ, 0, u64_at(record, 8), u64_at(record, 16))?,
            (INSERT, 24) if u32_at(record, 20) == 0 => {
                keys(INSERT, u32_at(record, 16), u64_at(record, 8), 0)?
            }
            (DELETE, 16) => keys(DELETE, 0, u64_at(record, 8), 0)?,
            _ => return None,
        };
        Some(Request { transaction, kind })
    }
}

fn keys(kind: u16, record: u32, lo: u64, hi: u64) -> Option<Kind> {
    let keys = Keys { kind, record, lo, hi };
    keys.are_legal().then_some(Kind::Keys(keys))
}

impl Keys {
    /// Whether number 12 finds no fault in the keys.
    pub fn are_legal(&self) -> bool {
        self.lo != END && (self.kind != READ || (self.hi != END && self.lo <= self.hi))
    }
}
