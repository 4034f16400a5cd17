//! Request records (document 01, Records and pages).

use super::little_endian::{key_at, u16_at, u32_at};
use crate::key::Key;

/// A request that names keys. It may have to wait; meanwhile its transaction's record keeps it.
#[derive(Clone, Copy, Debug, PartialEq, Eq)]
pub enum KeyRequest {
    Read { lo: Key, hi: Key },
    Insert { key: Key, record: u32 },
    Delete { key: Key },
}

impl KeyRequest {
    /// Its kind, the same number in a request record and as the waiting kind.
    pub fn number(self) -> u16 {
        match self {
            KeyRequest::Read { .. } => 4,
            KeyRequest::Insert { .. } => 5,
            KeyRequest::Delete { .. } => 6,
        }
    }

    /// Whether number 12 finds no fault in the keys: none is the end, and lo isn't above hi.
    pub fn is_legal(self) -> bool {
        match self {
            KeyRequest::Read { lo, hi } => lo != Key::END && hi != Key::END && lo <= hi,
            KeyRequest::Insert { key, .. } | KeyRequest::Delete { key } => key != Key::END,
        }
    }
}

#[derive(Clone, Copy, Debug, PartialEq, Eq)]
pub enum RequestKind {
    Begin,
    Commit,
    Rollback,
    Keys(KeyRequest),
}

#[derive(Clone, Copy, Debug, PartialEq, Eq)]
pub struct Request {
    pub transaction: u16,
    pub kind: RequestKind,
}

impl RequestKind {
    pub fn number(self) -> u16 {
        match self {
            RequestKind::Begin => 1,
            RequestKind::Commit => 2,
            RequestKind::Rollback => 3,
            RequestKind::Keys(request) => request.number(),
        }
    }
}

impl Request {
    /// Length, kind, transaction, two zero bytes; then what the kind adds.
    pub fn encode(&self) -> Vec<u8> {
        let mut bytes = vec![0; 2];
        bytes.extend(self.kind.number().to_le_bytes());
        bytes.extend(self.transaction.to_le_bytes());
        bytes.extend([0; 2]);
        match self.kind {
            RequestKind::Begin | RequestKind::Commit | RequestKind::Rollback => {}
            RequestKind::Keys(KeyRequest::Read { lo, hi }) => {
                bytes.extend(lo.0.to_le_bytes());
                bytes.extend(hi.0.to_le_bytes());
            }
            RequestKind::Keys(KeyRequest::Insert { key, record }) => {
                bytes.extend(key.0.to_le_bytes());
                bytes.extend(record.to_le_bytes());
                bytes.extend([0; 4]);
            }
            RequestKind::Keys(KeyRequest::Delete { key }) => bytes.extend(key.0.to_le_bytes()),
        }
        let length = bytes.len() as u16;
        bytes[..2].copy_from_slice(&length.to_le_bytes());
        bytes
    }

    /// The request, or nothing where number 12 is due: a slice under 8 bytes, a length unlike
    /// slice or kind, an unknown kind, nonzero filler, a transaction outside 1..16, the end as
    /// key, lo or hi, or lo above hi.
    pub fn decode(bytes: &[u8]) -> Option<Request> {
        if bytes.len() < 8 {
            return None;
        }
        let kind = match (u16_at(bytes, 2), bytes.len()) {
            (1, 8) => RequestKind::Begin,
            (2, 8) => RequestKind::Commit,
            (3, 8) => RequestKind::Rollback,
            (4, 24) => {
                RequestKind::Keys(KeyRequest::Read { lo: key_at(bytes, 8), hi: key_at(bytes, 16) })
            }
            (5, 24) => RequestKind::Keys(KeyRequest::Insert {
                key: key_at(bytes, 8),
                record: u32_at(bytes, 16),
            }),
            (6, 16) => RequestKind::Keys(KeyRequest::Delete { key: key_at(bytes, 8) }),
            _ => return None,
        };
        let request = Request { transaction: u16_at(bytes, 4), kind };
        (request.encode() == bytes && request.is_legal()).then_some(request)
    }

    fn is_legal(&self) -> bool {
        let keys_are_legal = match self.kind {
            RequestKind::Keys(request) => request.is_legal(),
            _ => true,
        };
        (1..=16).contains(&self.transaction) && keys_are_legal
    }
}
