//! Whether a picture is whole: the tables first, then one walk over the tree in the order of the
//! keys, with the locks put in that order too.

use crate::bytes::{DeskBytes, END, PagesBytes, are_zero, u16_at, u32_at, u64_at};
use crate::locks::{SLOTS, X, held_as, slots};
use crate::request::{INSERT, Keys, READ};
use crate::transactions::{COUNT_AT, LOCKS_AT, QUEUE_AT, TRANSACTION, TRANSACTIONS_AT};
use crate::tree::{CHILD, ENTRY, HEAD, INNER, INNER_FULL, LEAF, LEAF_FULL, PAGE};
use keydesk::DESK;

pub fn is_whole(pages: &PagesBytes, desk: &DeskBytes) -> bool {
    let Some(running) = running_of(desk) else { return false };
    let mut in_order = [0; SLOTS];
    match locks_in_order(desk, running, &mut in_order) {
        Some(locks) => is_tree(pages, locks),
        None => false,
    }
}

/// The running transactions, a bit each, where head, queue and transactions are as they must be.
fn running_of(desk: &DeskBytes) -> Option<u32> {
    let count = usize::from(u16_at(desk, COUNT_AT));
    let is_head = u16_at(desk, 0) == DESK as u16 && u16_at(desk, 2) == 8 && count <= 16;
    if !is_head || !are_zero(&desk[COUNT_AT + 2..QUEUE_AT]) {
        return None;
    }
    let (mut running, mut waiting) = (0u32, 0u32);
    let records = desk[TRANSACTIONS_AT..LOCKS_AT].as_chunks::<TRANSACTION>().0;
    for (record, transaction) in records.iter().zip(1..) {
        if are_zero(record) {
            continue;
        }
        running |= 1 << transaction;
        waiting |= u32::from(is_waiting(record)?) << transaction;
    }
    let mut queued = 0u32;
    for place in 0..count {
        let bit = 1u32.checked_shl(u16_at(desk, QUEUE_AT + 2 * place).into())?;
        if queued & bit != 0 {
            return None;
        }
        queued |= bit;
    }
    let is_exact = queued == waiting && are_zero(&desk[QUEUE_AT + 2 * count..TRANSACTIONS_AT]);
    is_exact.then_some(running)
}

/// Whether a running transaction waits; nothing where its record isn't as it must be.
fn is_waiting(record: &[u8; TRANSACTION]) -> Option<bool> {
    let (record_number, lo, hi) = (u32_at(record, 4), u64_at(record, 8), u64_at(record, 16));
    let kind = u16_at(record, 2);
    let unused_are_zero = match kind {
        0 => record_number == 0 && lo == 0 && hi == 0,
        READ => record_number == 0,
        INSERT => hi == 0,
        6 => record_number == 0 && hi == 0,
        _ => false,
    };
    let is_legal = kind == 0 || Keys { kind, record: record_number, lo, hi }.are_legal();
    let is_good = u16_at(record, 0) == 1 && u64_at(record, 24) == 0 && unused_are_zero && is_legal;
    is_good.then_some(kind != 0)
}

/// The locks by name, then mode, then holder, each as one number; nothing where one is malformed,
/// held by someone not running, twice there or in conflict with another.
fn locks_in_order<'a>(
    desk: &DeskBytes,
    running: u32,
    in_order: &'a mut [u128; SLOTS],
) -> Option<&'a [u128]> {
    let mut count = 0;
    for (name, held) in slots(desk) {
        if (name, held) == (0, 0) {
            continue;
        }
        let (holder, mode) = (held as u16, held >> 16);
        if !(1..=2).contains(&mode) || holder > 16 || running >> holder & 1 == 0 {
            return None;
        }
        in_order[count] = u128::from(name) << 64 | u128::from(held);
        count += 1;
    }
    let locks = &mut in_order[..count];
    locks.sort_unstable();
    let is_good = locks.windows(2).all(|pair| {
        let same_name = name_of(pair[0]) == name_of(pair[1]);
        let has_x = (pair[1] as u64) >> 16 == u64::from(X);
        pair[0] != pair[1] && !(same_name && has_x)
    });
    is_good.then_some(locks)
}

fn name_of(lock: u128) -> u64 {
    (lock >> 64) as u64
}

/// The walk: which pages it has met, and the locks whose entries it hasn't.
struct Walk<'a> {
    pages: &'a PagesBytes,
    used: u16,
    met: u64,
    locks: &'a [u128],
}

fn is_tree(pages: &PagesBytes, locks: &[u128]) -> bool {
    let head = [0, 2, 1, 0, 0, 0, 0, 0, 0, 0, 0, 0, 0, 0, 0, 0];
    let (root, used, height) = (u16_at(pages, 16), u16_at(pages, 18), u16_at(pages, 20));
    if pages[..HEAD] != head
        || !are_zero(&pages[22..PAGE])
        || !(2..=64).contains(&used)
        || height == 0
    {
        return false;
    }
    let mut walk = Walk { pages, used, met: 0, locks };
    walk.page(root, height - 1, 0, END, 2)
        && walk.met.count_ones() == u32::from(used) - 1
        && walk.locks.iter().all(|lock| name_of(*lock) == END)
        && are_zero(&pages[usize::from(used) * PAGE..])
}

impl Walk<'_> {
    /// A page that should have this level, at least so many children, and keys from `low` to below
    /// `next`. No page is met twice, so this ends whatever the pages say.
    fn page(&mut self, number: u16, level: u16, low: u64, next: u64, fewest: usize) -> bool {
        if number == 0 || number >= self.used || self.met >> number & 1 != 0 {
            return false;
        }
        self.met |= 1 << number;
        let page = &self.pages.as_chunks::<PAGE>().0[usize::from(number)];
        let (kind, count) = (u16_at(page, 2), usize::from(u16_at(page, 4)));
        let is_head = u16_at(page, 0) == PAGE as u16 && u64_at(page, 8) == 0;
        if !is_head || u16_at(page, 6) != level {
            return false;
        }
        if level == 0 {
            kind == LEAF && count <= LEAF_FULL && self.leaf(page, count, low, next)
        } else {
            let is_count = (fewest..=INNER_FULL).contains(&count);
            kind == INNER && is_count && self.inner(page, count, level, low, next)
        }
    }

    fn inner(&mut self, page: &[u8; PAGE], count: usize, level: u16, low: u64, next: u64) -> bool {
        let children = &page[HEAD..].as_chunks::<CHILD>().0[..count];
        let separator = |place: usize| u64_at(&children[place], 0);
        if separator(0) != 0 || !are_zero(&page[HEAD + count * CHILD..]) {
            return false;
        }
        let mut own_low = low;
        for (place, child) in children.iter().enumerate() {
            let own_next = if place + 1 < count { separator(place + 1) } else { next };
            let child = u64_at(child, 8);
            let is_child = child <= u64::from(u16::MAX) && own_low < own_next && own_next <= next;
            if !is_child || !self.page(child as u16, level - 1, own_low, own_next, 15) {
                return false;
            }
            own_low = own_next;
        }
        true
    }

    fn leaf(&mut self, page: &[u8; PAGE], count: usize, low: u64, next: u64) -> bool {
        let mut lowest = low;
        for entry in &page[HEAD..].as_chunks::<ENTRY>().0[..count] {
            let key = u64_at(entry, 0);
            if key < lowest || key >= next || !self.entry(key, entry) {
                return false;
            }
            lowest = key + 1;
        }
        are_zero(&page[HEAD + count * ENTRY..])
    }

    /// An entry by the entry rules, and the locks on it: the first not yet met can't be below it.
    fn entry(&mut self, key: u64, entry: &[u8; ENTRY]) -> bool {
        let (now, before, tail) = (u32_at(entry, 8), u32_at(entry, 12), u32_at(entry, 16));
        let (owner, presence) = (tail as u16, tail >> 16);
        let is_entry = match presence {
            0 => now == 0 && before == 0,
            1 => before == 0,
            2 => now == 0,
            3 => true,
            _ => false,
        };
        let is_settled = presence == 3 && now == before;
        if !is_entry || (owner == 0 && !is_settled) {
            return false;
        }
        let Some(first) = self.locks.first().copied().filter(|lock| name_of(*lock) <= key) else {
            return owner == 0;
        };
        let on_it = self.locks.iter().take_while(|lock| name_of(**lock) == key).count();
        self.locks = &self.locks[on_it..];
        on_it > 0 && (owner == 0 || first as u64 == held_as(owner, X))
    }
}
