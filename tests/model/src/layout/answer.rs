//! Answer records (document 01, What the desk says; Records and pages).

use super::little_endian::{key_at, u16_at, u32_at};
use crate::key::Key;

pub const ANSWER_LENGTH: usize = 20;

/// The numbers the desk says, each with its cause in document 01, "What the desk says".
pub mod number {
    pub const DONE: u16 = 0;
    pub const FOUND: u16 = 1;
    pub const NOTHING: u16 = 2;
    pub const STILL_QUEUED: u16 = 3;
    pub const WRONG_LENGTHS: u16 = 10;
    pub const NOT_WHOLE: u16 = 11;
    pub const BAD_REQUEST: u16 = 12;
    pub const ALREADY_RUNNING: u16 = 13;
    pub const NOT_RUNNING: u16 = 14;
    pub const IS_WAITING: u16 = 15;
    pub const KEY_PRESENT: u16 = 16;
    pub const LOCKS_IN_USE: u16 = 17;
    pub const PAGES_SHORT: u16 = 18;
    pub const CIRCLE: u16 = 19;
}

#[derive(Clone, Copy, Debug, PartialEq, Eq)]
pub struct Answer {
    pub transaction: u16,
    pub number: u16,
    pub key: Key,
    pub record: u32,
}

impl Answer {
    /// An answer that shows nothing: "key and record are zero except in 1 and 16", and since document
    /// 02, [4], the record in 3.
    pub fn plain(transaction: u16, number: u16) -> Answer {
        Answer { transaction, number, key: Key(0), record: 0 }
    }

    /// An answer that shows a key and its record: 1 or 16.
    pub fn showing(transaction: u16, number: u16, key: Key, record: u32) -> Answer {
        Answer { transaction, number, key, record }
    }

    /// The answer 3: it "carries that number in its record field", the lowest of those who block
    /// (document 02, [4]). The key stays zero.
    pub fn waiting(transaction: u16, behind: u16) -> Answer {
        let number = number::STILL_QUEUED;
        Answer { transaction, number, key: Key(0), record: behind.into() }
    }

    /// Length 20, kind 7, transaction, number, key, record.
    pub fn encode(&self) -> Vec<u8> {
        let mut bytes = Vec::new();
        bytes.extend((ANSWER_LENGTH as u16).to_le_bytes());
        bytes.extend(7u16.to_le_bytes());
        bytes.extend(self.transaction.to_le_bytes());
        bytes.extend(self.number.to_le_bytes());
        bytes.extend(self.key.0.to_le_bytes());
        bytes.extend(self.record.to_le_bytes());
        bytes
    }

    pub fn decode(bytes: &[u8]) -> Option<Answer> {
        if bytes.len() != ANSWER_LENGTH {
            return None;
        }
        let answer = Answer {
            transaction: u16_at(bytes, 4),
            number: u16_at(bytes, 6),
            key: key_at(bytes, 8),
            record: u32_at(bytes, 16),
        };
        (answer.encode() == bytes).then_some(answer)
    }
}
