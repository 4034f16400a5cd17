//! The desk's head, queue and transactions.

use crate::bytes::{DeskBytes, put_u16, put_u32, put_u64, u16_at, u32_at, u64_at};
use crate::request::Keys;
use keydesk::DESK;

pub const COUNT_AT: usize = 4;
pub const QUEUE_AT: usize = 32;
pub const TRANSACTIONS_AT: usize = 64;
pub const TRANSACTION: usize = 32;
pub const LOCKS_AT: usize = TRANSACTIONS_AT + 16 * TRANSACTION;

pub fn make_fresh(desk: &mut DeskBytes) {
    desk.fill(0);
    put_u16(desk, 0, DESK as u16);
    put_u16(desk, 2, 8);
}

/// Where the record of a transaction stands.
pub fn record_at(transaction: u16) -> usize {
    TRANSACTIONS_AT + usize::from(transaction - 1) * TRANSACTION
}

pub fn is_running(desk: &DeskBytes, transaction: u16) -> bool {
    u16_at(desk, record_at(transaction)) != 0
}

pub fn is_waiting(desk: &DeskBytes, transaction: u16) -> bool {
    u16_at(desk, record_at(transaction) + 2) != 0
}

pub fn set_running(desk: &mut DeskBytes, transaction: u16, running: bool) {
    let at = record_at(transaction);
    desk[at..at + TRANSACTION].fill(0);
    desk[at] = u8::from(running);
}

/// The request that a waiting transaction waits with.
pub fn waiting(desk: &DeskBytes, transaction: u16) -> Keys {
    let at = record_at(transaction);
    Keys {
        kind: u16_at(desk, at + 2),
        record: u32_at(desk, at + 4),
        lo: u64_at(desk, at + 8),
        hi: u64_at(desk, at + 16),
    }
}

pub fn queue_length(desk: &DeskBytes) -> usize {
    usize::from(u16_at(desk, COUNT_AT))
}

pub fn queued(desk: &DeskBytes, place: usize) -> u16 {
    u16_at(desk, QUEUE_AT + 2 * place)
}

pub fn join_queue(desk: &mut DeskBytes, transaction: u16, keys: Keys) {
    let length = queue_length(desk);
    put_u16(desk, QUEUE_AT + 2 * length, transaction);
    put_u16(desk, COUNT_AT, length as u16 + 1);
    let at = record_at(transaction);
    put_u16(desk, at + 2, keys.kind);
    put_u32(desk, at + 4, keys.record);
    put_u64(desk, at + 8, keys.lo);
    put_u64(desk, at + 16, keys.hi);
}

/// Takes the transaction at a place out of the queue; it runs on.
pub fn leave_queue(desk: &mut DeskBytes, place: usize) {
    let transaction = queued(desk, place);
    let length = queue_length(desk);
    desk.copy_within(QUEUE_AT + 2 * (place + 1)..QUEUE_AT + 2 * length, QUEUE_AT + 2 * place);
    put_u16(desk, QUEUE_AT + 2 * (length - 1), 0);
    put_u16(desk, COUNT_AT, length as u16 - 1);
    set_running(desk, transaction, true);
}

/// The place of a transaction in the queue, if it waits.
pub fn place_of(desk: &DeskBytes, transaction: u16) -> Option<usize> {
    (0..queue_length(desk)).find(|place| queued(desk, *place) == transaction)
}
