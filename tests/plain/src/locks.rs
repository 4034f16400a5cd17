//! The desk's lock table.

use crate::bytes::{DeskBytes, u64_at};
use crate::transactions::LOCKS_AT;

pub const S: u16 = 1;
pub const X: u16 = 2;
pub const SLOTS: usize = 256;
const SLOT: usize = 16;

/// A slot's second half, which says who holds the name in which mode; zero where the slot is free.
pub fn held_as(holder: u16, mode: u16) -> u64 {
    u64::from(holder) | u64::from(mode) << 16
}

/// Every slot as its name and its second half.
pub fn slots(desk: &DeskBytes) -> impl Iterator<Item = (u64, u64)> {
    desk[LOCKS_AT..].as_chunks::<SLOT>().0.iter().map(|slot| (u64_at(slot, 0), u64_at(slot, 8)))
}

fn put(desk: &mut DeskBytes, slot: usize, name: u64, held: u64) {
    let at = LOCKS_AT + slot * SLOT;
    desk[at..at + 8].copy_from_slice(&name.to_le_bytes());
    desk[at + 8..at + 16].copy_from_slice(&held.to_le_bytes());
}

/// Who holds a name: everyone who does in a mode that conflicts with the wanted one, a bit each,
/// less the asker, and whether the asker holds it itself.
pub fn conflicts(desk: &DeskBytes, asker: u16, name: u64, mode: u16) -> (u32, bool) {
    let (mut others, mut holds) = (0, false);
    for (held_name, held) in slots(desk) {
        if held_name == name && held != 0 {
            let (holder, held_mode) = (held as u16, (held >> 16) as u16);
            if holder == asker {
                holds = true;
            } else if mode == X || held_mode == X {
                others |= 1 << holder;
            }
        }
    }
    (others, holds)
}

/// How many locks each transaction holds; at 0, how many slots are free.
pub fn held_by_each(desk: &DeskBytes) -> [u16; 17] {
    let mut held_by = [0; 17];
    for (_, held) in slots(desk) {
        held_by[usize::from(held as u16)] += 1;
    }
    held_by
}

/// Where a lasting lock goes.
pub enum Place {
    /// The asker holds the name as it wants, or more.
    Held,
    /// The asker's slot of that name, or the lowest free one.
    Slot(usize),
    /// A new lock is needed and all slots are in use.
    None,
}

pub fn place_for(desk: &DeskBytes, asker: u16, name: u64, mode: u16) -> Place {
    let mut free = None;
    for (slot, (held_name, held)) in slots(desk).enumerate() {
        if held == 0 {
            free = free.or(Some(slot));
        } else if held_name == name && held as u16 == asker {
            let is_enough = mode == S || held == held_as(asker, X);
            return if is_enough { Place::Held } else { Place::Slot(slot) };
        }
    }
    free.map_or(Place::None, Place::Slot)
}

/// Takes the lock at its place.
pub fn take(desk: &mut DeskBytes, place: Place, asker: u16, name: u64, mode: u16) {
    if let Place::Slot(slot) = place {
        put(desk, slot, name, held_as(asker, mode));
    }
}

/// Releases all locks of a transaction and says whether one of them was X.
pub fn release(desk: &mut DeskBytes, holder: u16) -> bool {
    let mut any_x = false;
    for slot in desk[LOCKS_AT..].as_chunks_mut::<SLOT>().0 {
        let held = u64_at(slot, 8);
        if held as u16 == holder {
            any_x |= held == held_as(holder, X);
            slot.fill(0);
        }
    }
    any_x
}
