//! What to do next: inserts, deletes, revivals and ends of several owners, as a desk would do them.

use crate::beside::{Beside, OWNERS};
use model::entry::Entry;
use model::generators::random::Random;
use model::key::Key;

/// How often a change is an insert, a delete, a delete of many neighbours, a revival, and an end, in
/// percent; the rest puts an entry over a key that isn't there. And how often an end is a commit.
#[derive(Clone, Copy)]
pub struct Mix {
    pub inserts: u64,
    pub deletes: u64,
    pub runs: u64,
    pub revivals: u64,
    pub ends: u64,
    pub commits: u64,
}

/// One of the owners.
pub fn any_owner(random: &mut Random) -> u16 {
    random.pick(&OWNERS).expect("there are owners")
}

/// A record; often a mark of its range.
pub fn any_record(random: &mut Random) -> u32 {
    match random.below(6) {
        0 => 0,
        1 => u32::MAX,
        _ => random.bits() as u32,
    }
}

/// An entry with this key: settled, or as one of the owners' inserts and deletes leave it.
pub fn any_entry(random: &mut Random, key: Key) -> Entry {
    let (record, owner) = (any_record(random), any_owner(random));
    let settled = Entry::settled(key, record);
    let inserted = Entry::inserted(key, record, owner);
    match random.below(5) {
        0 => settled,
        1 => settled.deleted(owner),
        2 => settled.deleted(owner).inserted_again(any_record(random)),
        3 => inserted,
        _ => inserted.deleted(owner),
    }
}

/// One of `count` keys that are spread over all keys; sometimes a mark.
pub fn any_key(random: &mut Random, count: u64) -> Key {
    match random.below(100) {
        0 => Key::LOWEST,
        1 => Key::HIGHEST,
        _ => Key(random.below(count) * (u64::MAX / count)),
    }
}

/// Makes one change by this mix, on one of so many keys.
pub fn change(beside: &mut Beside, random: &mut Random, mix: Mix, count: u64) {
    let mut kind = random.below(100);
    let mut is = |share: u64| {
        let chosen = kind < share;
        kind = kind.saturating_sub(share);
        chosen
    };
    if is(mix.inserts) {
        let key = any_key(random, count);
        insert(beside, random, key);
    } else if is(mix.deletes) {
        delete(beside, random, 1);
    } else if is(mix.runs) {
        delete(beside, random, 40);
    } else if is(mix.revivals) {
        revive(beside, random);
    } else if is(mix.ends) {
        let (owner, commits) = (any_owner(random), random.chance(mix.commits));
        beside.settle(owner, commits);
    } else {
        let key = any_key(random, count);
        if beside.index.entry(key).is_none() {
            beside.replace(Entry::settled(key, any_record(random)));
        }
    }
}

/// Inserts a key by some owner, if it is missing.
fn insert(beside: &mut Beside, random: &mut Random, key: Key) {
    if beside.index.entry(key).is_none() {
        let (record, owner) = (any_record(random), any_owner(random));
        beside.add(Entry::inserted(key, record, owner));
    }
}

/// Inserts over one of the ghosts, by its owner, if there is any.
fn revive(beside: &mut Beside, random: &mut Random) {
    let ghosts: Vec<Entry> =
        beside.index.entries().filter(|entry| entry.is_ghost()).copied().collect();
    if let Some(ghost) = random.pick(&ghosts) {
        beside.replace(ghost.inserted_again(any_record(random)));
    }
}

/// Deletes so many entries from any key on, by one owner: those of others stay, and so do ghosts.
fn delete(beside: &mut Beside, random: &mut Random, many: usize) {
    let mut from = Key(random.bits()).min(Key::HIGHEST);
    let owner = any_owner(random);
    for _ in 0..many {
        let Some(entry) = beside.index.first_at_or_above(from) else { return };
        if !entry.is_ghost() && (entry.owner == 0 || entry.owner == owner) {
            beside.replace(entry.deleted(owner));
        }
        from = entry.key.up(1);
    }
}
