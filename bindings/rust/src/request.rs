//! Requests and their records (document 01, Records and pages).

use crate::{Key, REQUEST};
use std::ops::Deref;

/// What a transaction asks of the desk. Nothing is judged here: the desk refuses a transaction
/// outside 1 to 16, the end as a key, and lo above hi.
///
/// ```
/// use keydesk::{Asks, Key, Request};
///
/// let request = Request::read(2, 50, 150);
/// assert_eq!(request.asks, Asks::Read { lo: Key(50), hi: Key(150) });
/// assert_eq!(request.record()[..8], [24, 0, 4, 0, 2, 0, 0, 0]);
/// ```
#[derive(Clone, Copy, Debug, PartialEq, Eq)]
pub struct Request {
    /// Who asks, 1 to 16.
    pub transaction: u16,
    /// What is asked.
    pub asks: Asks,
}

/// The six things that can be asked.
#[derive(Clone, Copy, Debug, PartialEq, Eq)]
pub enum Asks {
    /// Begins the transaction.
    Begin,
    /// Keeps what the transaction has changed, and ends it.
    Commit,
    /// Takes back what the transaction has changed, and ends it.
    Rollback,
    /// The first entry from lo to hi.
    Read {
        /// The lowest key that is asked for.
        lo: Key,
        /// The highest; lo is not above it.
        hi: Key,
    },
    /// Puts a key in, with its record.
    Insert {
        /// The key to put in.
        key: Key,
        /// Its record, any number of 32 bits.
        record: u32,
    },
    /// Takes a key out.
    Delete {
        /// The key to take out.
        key: Key,
    },
}

impl Request {
    /// The transaction begins.
    pub fn begin(transaction: u16) -> Request {
        Request { transaction, asks: Asks::Begin }
    }

    /// The transaction commits.
    pub fn commit(transaction: u16) -> Request {
        Request { transaction, asks: Asks::Commit }
    }

    /// The transaction rolls back.
    pub fn rollback(transaction: u16) -> Request {
        Request { transaction, asks: Asks::Rollback }
    }

    /// The transaction reads the first entry from lo to hi.
    pub fn read(transaction: u16, lo: impl Into<Key>, hi: impl Into<Key>) -> Request {
        Request { transaction, asks: Asks::Read { lo: lo.into(), hi: hi.into() } }
    }

    /// The transaction inserts a key with its record.
    pub fn insert(transaction: u16, key: impl Into<Key>, record: u32) -> Request {
        Request { transaction, asks: Asks::Insert { key: key.into(), record } }
    }

    /// The transaction deletes a key.
    pub fn delete(transaction: u16, key: impl Into<Key>) -> Request {
        Request { transaction, asks: Asks::Delete { key: key.into() } }
    }

    /// The request as the bytes that the desk takes.
    pub fn record(&self) -> Record {
        match self.asks {
            Asks::Begin => Record::of(8, 1, self.transaction, [0, 0]),
            Asks::Commit => Record::of(8, 2, self.transaction, [0, 0]),
            Asks::Rollback => Record::of(8, 3, self.transaction, [0, 0]),
            Asks::Read { lo, hi } => Record::of(24, 4, self.transaction, [lo.0, hi.0]),
            Asks::Insert { key, record } => {
                Record::of(24, 5, self.transaction, [key.0, u64::from(record)])
            }
            Asks::Delete { key } => Record::of(16, 6, self.transaction, [key.0, 0]),
        }
    }
}

/// A request record: 8, 16 or 24 bytes. It is used as the slice of them.
#[derive(Clone, Copy, Debug, PartialEq, Eq)]
pub struct Record {
    length: u16,
    bytes: [u8; REQUEST],
}

impl Record {
    /// Length, kind, transaction, two zero bytes; then two numbers of eight bytes, of which the
    /// length keeps none, one or both. An insert's record and its four zero bytes are one of them.
    fn of(length: u16, kind: u16, transaction: u16, rest: [u64; 2]) -> Record {
        let mut bytes = [0; REQUEST];
        bytes[0..2].copy_from_slice(&length.to_le_bytes());
        bytes[2..4].copy_from_slice(&kind.to_le_bytes());
        bytes[4..6].copy_from_slice(&transaction.to_le_bytes());
        bytes[8..16].copy_from_slice(&rest[0].to_le_bytes());
        bytes[16..24].copy_from_slice(&rest[1].to_le_bytes());
        Record { length, bytes }
    }
}

impl Deref for Record {
    type Target = [u8];

    fn deref(&self) -> &[u8] {
        &self.bytes[..usize::from(self.length)]
    }
}
