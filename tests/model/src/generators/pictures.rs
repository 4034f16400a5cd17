//! Whole pictures that need not be at rest: unblocked queued requests, circles, up to sixteen
//! waiting, X on the end or on settled entries, holes in the lock table, empty leaves, any page
//! numbering. They are built from the **Whole** paragraph of document 01, not by running the desk.

use super::random::Random;
use crate::entry::Entry;
use crate::key::Key;
use crate::layout::desk::{Desk, LOCK_COUNT, Lock, Mode, Slot, TRANSACTION_COUNT, Transaction};
use crate::layout::pages::{Child, Index, LEAF_FULL, Page};
use crate::layout::request::KeyRequest;
use crate::picture::{Picture, Tables};
use std::collections::{BTreeMap, BTreeSet};

/// How wide a leaf's range is. Keys are this close so that requests often meet.
const LEAF_SPAN: u64 = 50;

/// A whole picture, mostly not at rest.
pub fn picture(random: &mut Random) -> Picture {
    let mut tables = Tables { index: index(random), desk: Desk::empty() };
    let running = run_some(random, &mut tables.desk);
    if !running.is_empty() {
        lock_entries(random, &mut tables, &running);
        queue_requests(random, &mut tables, &running);
    }
    tables.encode()
}

/// A tree of one, two or three levels with settled entries. Three levels are a root over two or
/// three inner pages, within the 63 pages there are for them.
fn index(random: &mut Random) -> Index {
    match random.below(8) {
        0..5 => tree(random, &[]),
        5..7 => {
            let children = random.between(2, 30);
            tree(random, &[vec![children]])
        }
        _ => {
            let inner_pages = random.between(2, 3);
            let most = if inner_pages == 2 { 30 } else { 19 };
            let counts = (0..inner_pages).map(|_| random.between(15, most)).collect();
            tree(random, &[counts, vec![inner_pages]])
        }
    }
}

/// A tree with these numbers of children in the inner pages of each level, lowest level first, and
/// its pages numbered in some order.
fn tree(random: &mut Random, levels: &[Vec<usize>]) -> Index {
    let leaves: usize = levels.first().map_or(1, |counts| counts.iter().sum());
    let page_count = leaves + levels.iter().map(Vec::len).sum::<usize>();
    let mut numbers = random.order(1, page_count).into_iter().map(|number| number as u16);
    let mut pages = BTreeMap::new();
    let mut below: Vec<Child> = Vec::new();
    for leaf in 0..leaves as u64 {
        let low = leaf * LEAF_SPAN;
        let page = numbers.next().expect("a number for each page");
        pages.insert(page, Page::Leaf(settled_entries(random, low)));
        below.push(Child { separator: Key(low), page });
    }
    for (counts, level) in levels.iter().zip(1..) {
        let mut above = Vec::new();
        for count in counts {
            let mut children: Vec<Child> = below.drain(..*count).collect();
            let page = numbers.next().expect("a number for each page");
            above.push(Child { separator: children[0].separator, page });
            children[0].separator = Key::LOWEST;
            pages.insert(page, Page::Inner { level, children });
        }
        below = above;
    }
    Index { root: below[0].page, height: levels.len() as u16 + 1, pages }
}

/// Settled entries of one leaf in ascending order: few, any number, or as many as fit.
fn settled_entries(random: &mut Random, low: u64) -> Vec<Entry> {
    let count = match random.below(4) {
        0 => random.between(0, LEAF_FULL),
        1 => LEAF_FULL,
        _ => random.between(0, 4),
    };
    let places = random.order(0, LEAF_SPAN as usize - 1).into_iter().take(count);
    let keys: BTreeSet<Key> = places.map(|place| Key(low + place as u64)).collect();
    keys.into_iter().map(|key| Entry::settled(key, random.bits() as u32)).collect()
}

/// Lets some transactions run, and gives them.
fn run_some(random: &mut Random, desk: &mut Desk) -> Vec<u16> {
    let share = [20, 60, 100][random.between(0, 2)];
    let running: Vec<u16> = (1..=TRANSACTION_COUNT).filter(|_| random.chance(share)).collect();
    for transaction in &running {
        desk.set_transaction(*transaction, Transaction::Running);
    }
    running
}

/// Gives locks to running transactions, on entries and on the end, and some of the entries locked
/// X to their holders, until the slots run out. Slots are taken in any order.
fn lock_entries(random: &mut Random, tables: &mut Tables, running: &[u16]) {
    let mut free_slots = random.order(0, LOCK_COUNT - 1);
    for entry in tables.index.pages.values_mut().flat_map(entries_mut) {
        let holder = lock_name(random, &mut tables.desk, running, entry.key, &mut free_slots);
        if let Some(owner) = holder.filter(|_| random.chance(60)) {
            *entry = owned_entry(random, entry.key, owner);
        }
    }
    lock_name(random, &mut tables.desk, running, Key::END, &mut free_slots);
}

fn entries_mut(page: &mut Page) -> &mut [Entry] {
    match page {
        Page::Leaf(entries) => entries,
        Page::Inner { .. } => &mut [],
    }
}

/// Nothing, S for several or X for one on a name. Gives the one who got X.
fn lock_name(
    random: &mut Random,
    desk: &mut Desk,
    running: &[u16],
    name: Key,
    free_slots: &mut Vec<usize>,
) -> Option<u16> {
    let holder = random.pick(running)?;
    match random.below(3) {
        0 => None,
        1 => {
            let holders: BTreeSet<u16> = (0..3).filter_map(|_| random.pick(running)).collect();
            for holder in holders {
                let slot = free_slots.pop()?;
                desk.slots[slot] = Slot::Taken(Lock { name, holder, mode: Mode::S });
            }
            None
        }
        _ => {
            let slot = free_slots.pop()?;
            desk.slots[slot] = Slot::Taken(Lock { name, holder, mode: Mode::X });
            Some(holder)
        }
    }
}

/// An owned entry with any now and any before.
fn owned_entry(random: &mut Random, key: Key, owner: u16) -> Entry {
    let now = random.chance(50).then(|| random.bits() as u32);
    let before = random.chance(50).then(|| random.bits() as u32);
    Entry { key, owner, now, before }
}

/// Lets some or all of the running wait, in any order, each with any legal request.
fn queue_requests(random: &mut Random, tables: &mut Tables, running: &[u16]) {
    let share = [0, 50, 100][random.between(0, 2)];
    for place in random.order(0, running.len() - 1) {
        if random.chance(share) {
            let request = key_request(random, &tables.index);
            tables.desk.set_transaction(running[place], Transaction::Waiting(request));
            tables.desk.queue.push(running[place]);
        }
    }
}

/// Any legal request on or around the keys of the index.
fn key_request(random: &mut Random, index: &Index) -> KeyRequest {
    let keys: Vec<Key> = index.entries().map(|entry| entry.key).collect();
    let near = Key(random.below(LEAF_SPAN * u64::from(index.used())));
    let any = if random.chance(4) { Key::HIGHEST } else { near };
    let key = random.pick(&keys).filter(|_| random.chance(60)).unwrap_or(any);
    match random.below(3) {
        0 => KeyRequest::Read { lo: key, hi: key.up(random.below(20)) },
        1 => KeyRequest::Insert { key, record: random.bits() as u32 },
        _ => KeyRequest::Delete { key },
    }
}
