//! The desk: queue, transactions and locks (document 01, Records and pages).

use super::little_endian::{key_at, u16_at, u32_at};
use super::request::KeyRequest;
use crate::key::Key;

pub const DESK_LENGTH: usize = 4672;
pub const DESK_HEAD_LENGTH: usize = 32;
/// Where the queue's count stands in the desk.
pub const QUEUE_COUNT_AT: usize = 4;
pub const TRANSACTION_COUNT: u16 = 16;
pub const TRANSACTION_LENGTH: usize = 32;
pub const LOCK_COUNT: usize = 256;
pub const LOCK_LENGTH: usize = 16;

/// Where a place of the queue (0 to 15) starts in the desk.
pub fn queue_at(place: usize) -> usize {
    DESK_HEAD_LENGTH + 2 * place
}

/// Where the record of a transaction (1 to 16) starts in the desk.
pub fn transaction_at(transaction: u16) -> usize {
    queue_at(usize::from(TRANSACTION_COUNT)) + usize::from(transaction - 1) * TRANSACTION_LENGTH
}

/// Where a lock slot (0 to 255) starts in the desk.
pub fn slot_at(slot: usize) -> usize {
    transaction_at(TRANSACTION_COUNT) + TRANSACTION_LENGTH + slot * LOCK_LENGTH
}

/// A transaction. One that isn't running has a record of all zeros, so one that waits is running.
#[derive(Clone, Copy, Debug, PartialEq, Eq)]
pub enum Transaction {
    NotRunning,
    Running,
    Waiting(KeyRequest),
}

#[derive(Clone, Copy, Debug, PartialEq, Eq)]
pub enum Mode {
    S,
    X,
}

impl Mode {
    /// "S goes with S, everything else conflicts" (document 01, Locks).
    pub fn conflicts(self, other: Mode) -> bool {
        !(self == Mode::S && other == Mode::S)
    }
}

/// A lock on an entry's key or on the end.
#[derive(Clone, Copy, Debug, PartialEq, Eq)]
pub struct Lock {
    pub name: Key,
    pub holder: u16,
    pub mode: Mode,
}

#[derive(Clone, Copy, Debug, PartialEq, Eq)]
pub enum Slot {
    Free,
    Taken(Lock),
}

#[derive(Clone, Debug, PartialEq, Eq)]
pub struct Desk {
    /// The waiting transactions, oldest request first.
    pub queue: Vec<u16>,
    /// Transactions 1 to 16, transaction t at t - 1.
    pub transactions: Vec<Transaction>,
    /// The 256 lock slots.
    pub slots: Vec<Slot>,
}

impl Transaction {
    /// Running, waiting kind, record, lo, hi, eight zeros; delete and insert use lo.
    pub fn encode(&self) -> Vec<u8> {
        let (running, kind, record, lo, hi) = match *self {
            Transaction::NotRunning => (0u16, 0, 0, 0, 0),
            Transaction::Running => (1, 0, 0, 0, 0),
            Transaction::Waiting(request) => match request {
                KeyRequest::Read { lo, hi } => (1, request.number(), 0, lo.0, hi.0),
                KeyRequest::Insert { key, record } => (1, request.number(), record, key.0, 0),
                KeyRequest::Delete { key } => (1, request.number(), 0, key.0, 0),
            },
        };
        let mut bytes = Vec::with_capacity(TRANSACTION_LENGTH);
        bytes.extend(running.to_le_bytes());
        bytes.extend(kind.to_le_bytes());
        bytes.extend(record.to_le_bytes());
        bytes.extend(lo.to_le_bytes());
        bytes.extend(hi.to_le_bytes());
        bytes.extend([0; 8]);
        bytes
    }

    pub fn decode(bytes: &[u8]) -> Option<Transaction> {
        if bytes.len() != TRANSACTION_LENGTH {
            return None;
        }
        let (record, lo, hi) = (u32_at(bytes, 4), key_at(bytes, 8), key_at(bytes, 16));
        let transaction = match (u16_at(bytes, 0), u16_at(bytes, 2)) {
            (0, 0) => Transaction::NotRunning,
            (1, 0) => Transaction::Running,
            (1, 4) => Transaction::Waiting(KeyRequest::Read { lo, hi }),
            (1, 5) => Transaction::Waiting(KeyRequest::Insert { key: lo, record }),
            (1, 6) => Transaction::Waiting(KeyRequest::Delete { key: lo }),
            _ => return None,
        };
        (transaction.encode() == bytes).then_some(transaction)
    }
}

impl Slot {
    /// Key, transaction, mode (1 S, 2 X), four zeros; all zero where free.
    pub fn encode(&self) -> Vec<u8> {
        let Slot::Taken(lock) = self else { return vec![0; LOCK_LENGTH] };
        let mode: u16 = match lock.mode {
            Mode::S => 1,
            Mode::X => 2,
        };
        let mut bytes = Vec::with_capacity(LOCK_LENGTH);
        bytes.extend(lock.name.0.to_le_bytes());
        bytes.extend(lock.holder.to_le_bytes());
        bytes.extend(mode.to_le_bytes());
        bytes.extend([0; 4]);
        bytes
    }

    pub fn decode(bytes: &[u8]) -> Option<Slot> {
        if bytes.len() != LOCK_LENGTH {
            return None;
        }
        let (name, holder) = (key_at(bytes, 0), u16_at(bytes, 8));
        let slot = match u16_at(bytes, 10) {
            0 => Slot::Free,
            1 => Slot::Taken(Lock { name, holder, mode: Mode::S }),
            2 => Slot::Taken(Lock { name, holder, mode: Mode::X }),
            _ => return None,
        };
        (slot.encode() == bytes).then_some(slot)
    }
}

impl Desk {
    /// Nobody runs, nobody waits, no locks.
    pub fn empty() -> Desk {
        Desk {
            queue: Vec::new(),
            transactions: vec![Transaction::NotRunning; usize::from(TRANSACTION_COUNT)],
            slots: vec![Slot::Free; LOCK_COUNT],
        }
    }

    /// Head (length, kind 8, queue count, 26 zeros), queue, transactions, locks.
    pub fn encode(&self) -> Vec<u8> {
        let mut bytes = Vec::with_capacity(DESK_LENGTH);
        bytes.extend((DESK_LENGTH as u16).to_le_bytes());
        bytes.extend(8u16.to_le_bytes());
        bytes.extend((self.queue.len() as u16).to_le_bytes());
        bytes.resize(DESK_HEAD_LENGTH, 0);
        bytes.extend(self.queue.iter().flat_map(|transaction| transaction.to_le_bytes()));
        bytes.resize(transaction_at(1), 0);
        bytes.extend(self.transactions.iter().flat_map(Transaction::encode));
        bytes.extend(self.slots.iter().flat_map(Slot::encode));
        assert!(bytes.len() == DESK_LENGTH, "a desk has {DESK_LENGTH} bytes");
        bytes
    }

    /// The desk, whoever holds and waits for what: `whole` judges that.
    pub fn decode(bytes: &[u8]) -> Option<Desk> {
        if bytes.len() != DESK_LENGTH {
            return None;
        }
        let count = usize::from(u16_at(bytes, QUEUE_COUNT_AT));
        if count > usize::from(TRANSACTION_COUNT) {
            return None;
        }
        let queue = (0..count).map(|place| u16_at(bytes, queue_at(place))).collect();
        let transactions = bytes[transaction_at(1)..slot_at(0)]
            .chunks_exact(TRANSACTION_LENGTH)
            .map(Transaction::decode)
            .collect::<Option<_>>()?;
        let slots = bytes[slot_at(0)..]
            .chunks_exact(LOCK_LENGTH)
            .map(Slot::decode)
            .collect::<Option<_>>()?;
        let desk = Desk { queue, transactions, slots };
        (desk.encode() == bytes).then_some(desk)
    }

    /// What a transaction is doing. No transaction but 1 to 16 is ever running.
    pub fn transaction(&self, transaction: u16) -> Transaction {
        match transaction {
            1..=TRANSACTION_COUNT => self.transactions[usize::from(transaction - 1)],
            _ => Transaction::NotRunning,
        }
    }

    pub fn set_transaction(&mut self, transaction: u16, to: Transaction) {
        self.transactions[usize::from(transaction - 1)] = to;
    }

    pub fn is_running(&self, transaction: u16) -> bool {
        self.transaction(transaction) != Transaction::NotRunning
    }

    /// The request that a transaction waits with, if it waits.
    pub fn waiting_request(&self, transaction: u16) -> Option<KeyRequest> {
        match self.transaction(transaction) {
            Transaction::Waiting(request) => Some(request),
            _ => None,
        }
    }

    /// The locks held, in the order of their slots.
    pub fn locks(&self) -> impl Iterator<Item = Lock> + '_ {
        self.slots.iter().filter_map(|slot| match slot {
            Slot::Free => None,
            Slot::Taken(lock) => Some(*lock),
        })
    }
}
