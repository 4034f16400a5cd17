//! Entries (document 01, Keys and entries).

use crate::key::Key;

/// An entry of the index. `None` is "absent", `Some` is "present with this record".
#[derive(Clone, Copy, Debug, PartialEq, Eq)]
pub struct Entry {
    pub key: Key,
    /// 0, or the transaction that has changed the entry and not yet ended.
    pub owner: u16,
    pub now: Option<u32>,
    pub before: Option<u32>,
}

impl Entry {
    /// What a first insert makes: present now, absent before.
    pub fn inserted(key: Key, record: u32, owner: u16) -> Entry {
        Entry { key, owner, now: Some(record), before: None }
    }

    /// An entry that nobody is changing.
    pub fn settled(key: Key, record: u32) -> Entry {
        Entry { key, owner: 0, now: Some(record), before: Some(record) }
    }

    /// Absent now: kept in its place until its owner ends, so that rollback needs no page.
    pub fn is_ghost(&self) -> bool {
        self.now.is_none()
    }

    /// The entry after an insert over its owner's own ghost; before stays.
    pub fn inserted_again(self, record: u32) -> Entry {
        Entry { now: Some(record), ..self }
    }

    /// The entry after a delete: a ghost of the one who deleted.
    pub fn deleted(self, owner: u16) -> Entry {
        Entry { owner, now: None, ..self }
    }

    /// What its owner's commit leaves of the entry: now copied to before, or nothing.
    pub fn committed(self) -> Option<Entry> {
        self.now.map(|record| Entry::settled(self.key, record))
    }

    /// What its owner's rollback leaves of the entry: before copied to now, or nothing.
    pub fn rolled_back(self) -> Option<Entry> {
        self.before.map(|record| Entry::settled(self.key, record))
    }
}
