//! A whole picture as plain values, for drawing (document 01, Records and pages).

use crate::bytes::{u16_at, u32_at, u64_at};
use crate::keys::{Forms, Key, Written};
use crate::text::Asks;
use std::fmt;

/// Where things stand: the tree of pages, who runs, who waits, who holds what.
#[derive(Clone, Debug)]
pub struct Standing {
    pub root: Page,
    /// Pages used, page 0 among them.
    pub used: u16,
    pub height: u16,
    pub running: Vec<u16>,
    /// The queued requests, oldest first.
    pub queue: Vec<Waiting>,
    pub locks: Vec<Lock>,
    forms: Forms,
}

#[derive(Clone, Debug, PartialEq, Eq)]
pub struct Page {
    pub number: u16,
    pub holds: Holds,
}

#[derive(Clone, Debug, PartialEq, Eq)]
pub enum Holds {
    Entries(Vec<Entry>),
    Children { level: u16, children: Vec<Child> },
}

#[derive(Clone, Debug, PartialEq, Eq)]
pub struct Child {
    pub separator: Key,
    pub page: Page,
}

/// An entry. `None` is "absent", `Some` is "present with this record".
#[derive(Clone, Copy, Debug, PartialEq, Eq)]
pub struct Entry {
    pub key: Key,
    pub now: Option<u32>,
    pub before: Option<u32>,
    /// 0, or the transaction that has changed the entry and not yet ended.
    pub owner: u16,
}

impl Entry {
    /// "An entry that is absent now is a ghost."
    pub fn is_ghost(&self) -> bool {
        self.now.is_none()
    }
}

#[derive(Clone, Copy, Debug, PartialEq, Eq)]
pub struct Waiting {
    pub transaction: u16,
    pub asks: Asks,
}

#[derive(Clone, Copy, Debug, PartialEq, Eq, PartialOrd, Ord)]
pub enum Mode {
    S,
    X,
}

impl fmt::Display for Mode {
    fn fmt(&self, to: &mut fmt::Formatter) -> fmt::Result {
        to.write_str(match self {
            Mode::S => "S",
            Mode::X => "X",
        })
    }
}

/// A lock on an entry's key or on the end.
#[derive(Clone, Copy, Debug, PartialEq, Eq)]
pub struct Lock {
    pub name: Key,
    pub holder: u16,
    pub mode: Mode,
}

pub const PAGE_COUNT: u16 = 64;
pub const LEAF_FULL: usize = 24;
pub const INNER_FULL: usize = 30;
pub const LOCK_COUNT: usize = 256;
const PAGE_LENGTH: usize = 512;
const PAGE_HEAD: usize = 16;
const ENTRY_LENGTH: usize = 20;
const CHILD_LENGTH: usize = 16;
const TRANSACTIONS: u16 = 16;
const QUEUE_AT: usize = 32;
const TRANSACTIONS_AT: usize = 64;
const TRANSACTION_LENGTH: usize = 32;
const LOCKS_AT: usize = 576;
const LOCK_LENGTH: usize = 16;

impl Standing {
    /// The values of a desk's picture; keys are written as the session wrote them.
    pub fn of(desk: &keydesk::Desk, forms: &Forms) -> Standing {
        let (pages, desk) = (desk.pages(), desk.desk());
        let (root, used, height) = (u16_at(pages, 16), u16_at(pages, 18), u16_at(pages, 20));
        let queued = 0..usize::from(u16_at(desk, 4));
        let queued = queued.map(|place| u16_at(desk, QUEUE_AT + 2 * place));
        Standing {
            root: page(pages, root, height),
            used,
            height,
            running: (1..=TRANSACTIONS).filter(|t| u16_at(desk, transaction_at(*t)) == 1).collect(),
            queue: queued.map(|transaction| waiting(desk, transaction, forms)).collect(),
            locks: (0..LOCK_COUNT).filter_map(|slot| lock(desk, slot)).collect(),
            forms: forms.clone(),
        }
    }

    /// All entries in the order of their keys.
    pub fn entries(&self) -> Vec<Entry> {
        self.leaves().into_iter().flat_map(|(_, entries)| entries.iter().copied()).collect()
    }

    /// The leaves in the order of their keys: page number and entries.
    pub fn leaves(&self) -> Vec<(u16, &[Entry])> {
        let mut leaves = Vec::new();
        self.root.add_leaves(&mut leaves);
        leaves
    }

    /// The request that a transaction waits with, if it waits.
    pub fn waiting(&self, transaction: u16) -> Option<&Waiting> {
        self.queue.iter().find(|waiting| waiting.transaction == transaction)
    }

    /// A key in the form in which the session last wrote it.
    pub fn written(&self, key: Key) -> Written {
        self.forms.written(key)
    }

    /// The lowest key that a lock on this name covers: a lock covers its key "with the gap below it
    /// down to the next lower entry".
    pub fn covered_from(&self, name: Key) -> Written {
        let below = self.entries().into_iter().map(|entry| entry.key).filter(|key| *key < name);
        match below.max() {
            None => Written { key: Key::LOWEST, ..self.written(name) },
            Some(next_lower) => Written { key: Key(next_lower.0 + 1), ..self.written(next_lower) },
        }
    }

    /// The name of a lock in words: a key, or the end.
    pub fn name(&self, name: Key) -> String {
        match name {
            Key::END => "the end".to_string(),
            key => self.written(key).to_string(),
        }
    }
}

impl Page {
    fn add_leaves<'a>(&'a self, leaves: &mut Vec<(u16, &'a [Entry])>) {
        match &self.holds {
            Holds::Entries(entries) => leaves.push((self.number, entries)),
            Holds::Children { children, .. } => {
                children.iter().for_each(|child| child.page.add_leaves(leaves));
            }
        }
    }
}

/// A page with everything below it, the number of levels left falling by one at each step.
fn page(pages: &[u8], number: u16, levels: u16) -> Page {
    let bytes = &pages[usize::from(number) * PAGE_LENGTH..][..PAGE_LENGTH];
    let (count, level) = (usize::from(u16_at(bytes, 4)), u16_at(bytes, 6));
    let places = &bytes[PAGE_HEAD..];
    let holds = if levels <= 1 {
        Holds::Entries(places.chunks(ENTRY_LENGTH).take(count).map(entry).collect())
    } else {
        let child = |bytes: &[u8]| Child {
            separator: Key(u64_at(bytes, 0)),
            page: page(pages, u16_at(bytes, 8), levels - 1),
        };
        Holds::Children {
            level,
            children: places.chunks(CHILD_LENGTH).take(count).map(child).collect(),
        }
    };
    Page { number, holds }
}

/// Key, record now, record before, owner, presence with bit 0 now and bit 1 before.
fn entry(bytes: &[u8]) -> Entry {
    let presence = bytes[18];
    Entry {
        key: Key(u64_at(bytes, 0)),
        now: (presence & 1 != 0).then_some(u32_at(bytes, 8)),
        before: (presence & 2 != 0).then_some(u32_at(bytes, 12)),
        owner: u16_at(bytes, 16),
    }
}

/// Where the record of a transaction, 1 to 16, starts in the desk.
fn transaction_at(transaction: u16) -> usize {
    TRANSACTIONS_AT + usize::from(transaction - 1) * TRANSACTION_LENGTH
}

/// The request of a queued transaction: its record's kind, record, lo and hi.
fn waiting(desk: &[u8], transaction: u16, forms: &Forms) -> Waiting {
    let bytes = &desk[transaction_at(transaction)..][..TRANSACTION_LENGTH];
    let lo = forms.written(Key(u64_at(bytes, 8)));
    let asks = match u16_at(bytes, 2) {
        4 => Asks::Read { lo, hi: forms.written(Key(u64_at(bytes, 16))) },
        5 => Asks::Insert { key: lo, record: u32_at(bytes, 4) },
        _ => Asks::Delete { key: lo },
    };
    Waiting { transaction, asks }
}

/// The lock in a slot, if one is there.
fn lock(desk: &[u8], slot: usize) -> Option<Lock> {
    let bytes = &desk[LOCKS_AT + slot * LOCK_LENGTH..][..LOCK_LENGTH];
    let mode = match u16_at(bytes, 10) {
        1 => Mode::S,
        2 => Mode::X,
        _ => return None,
    };
    Some(Lock { name: Key(u64_at(bytes, 0)), holder: u16_at(bytes, 8), mode })
}
