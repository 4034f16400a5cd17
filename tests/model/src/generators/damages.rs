//! Damages to a picture. Most leave it not whole; a changed bit of a key, say, may not.

use super::random::Random;
use crate::layout::desk::{LOCK_COUNT, LOCK_LENGTH, TRANSACTION_COUNT, TRANSACTION_LENGTH};
use crate::layout::desk::{QUEUE_COUNT_AT, Slot, queue_at, slot_at, transaction_at};
use crate::layout::little_endian::u64_at;
use crate::layout::pages::{CHILD_LENGTH, PAGE_HEAD_LENGTH, PAGE_LENGTH};
use crate::layout::pages::{child_at, entry_at, page_at};
use crate::picture::{Picture, Tables};

#[derive(Clone, Copy, Debug, PartialEq, Eq, PartialOrd, Ord)]
pub enum Damage {
    /// One bit changed, anywhere in the pages or the desk.
    Bit,
    /// One byte set to some value, anywhere in the pages or the desk.
    Byte,
    /// A two-byte field in the head of a used page, or in page 0, set to some value.
    PageHead,
    /// Two used pages exchanged.
    SwappedPages,
    /// A used page written over another.
    CopiedPage,
    /// A separator changed a little or a lot.
    MovedSeparator,
    /// A child's page number changed: cycles, shared pages, numbers out of range.
    MovedChild,
    /// A lock written a second time into another slot.
    DuplicatedLock,
    /// The name, the holder or the mode of a lock changed.
    ChangedLock,
    /// The owner of an entry changed.
    StaleOwner,
    /// A place of the queue or its count changed.
    Queue,
    /// A field of a transaction's record changed.
    Transaction,
}

impl Damage {
    pub const ALL: [Damage; 12] = [
        Damage::Bit,
        Damage::Byte,
        Damage::PageHead,
        Damage::SwappedPages,
        Damage::CopiedPage,
        Damage::MovedSeparator,
        Damage::MovedChild,
        Damage::DuplicatedLock,
        Damage::ChangedLock,
        Damage::StaleOwner,
        Damage::Queue,
        Damage::Transaction,
    ];

    /// A whole picture with this damage done to it, or nothing where there is nothing to damage
    /// (no lock to duplicate, no inner page) or nothing has changed.
    pub fn to(self, random: &mut Random, picture: &Picture) -> Option<Picture> {
        self.to_decoded(random, picture, &picture.decode()?)
    }

    /// The same for a picture whose plain values are at hand: for many damages to one picture.
    pub fn to_decoded(
        self,
        random: &mut Random,
        picture: &Picture,
        tables: &Tables,
    ) -> Option<Picture> {
        let mut damaged = picture.clone();
        match self {
            Damage::Bit => bit(random, &mut damaged),
            Damage::Byte => byte(random, &mut damaged),
            Damage::PageHead => page_head(random, tables, &mut damaged),
            Damage::SwappedPages => swap_pages(random, tables, &mut damaged),
            Damage::CopiedPage => copy_page(random, tables, &mut damaged),
            Damage::MovedSeparator => move_separator(random, tables, &mut damaged)?,
            Damage::MovedChild => move_child(random, tables, &mut damaged)?,
            Damage::DuplicatedLock => duplicate_lock(random, tables, &mut damaged)?,
            Damage::ChangedLock => change_lock(random, tables, &mut damaged)?,
            Damage::StaleOwner => change_owner(random, tables, &mut damaged)?,
            Damage::Queue => change_queue(random, &mut damaged),
            Damage::Transaction => change_transaction(random, &mut damaged),
        }
        (damaged != *picture).then_some(damaged)
    }
}

/// Some byte of the pages or, as often, of the desk.
fn any_byte<'a>(random: &mut Random, picture: &'a mut Picture) -> &'a mut u8 {
    let part = if random.chance(50) { &mut picture.pages } else { &mut picture.desk };
    let at = random.between(0, part.len() - 1);
    &mut part[at]
}

fn bit(random: &mut Random, picture: &mut Picture) {
    *any_byte(random, picture) ^= 1 << random.below(8);
}

fn byte(random: &mut Random, picture: &mut Picture) {
    *any_byte(random, picture) = random.bits() as u8;
}

/// A two-byte number: a small one, the highest, or any.
fn small_or_wild(random: &mut Random) -> u16 {
    match random.below(4) {
        0 => random.bits() as u16,
        1 => u16::MAX,
        _ => random.below(70) as u16,
    }
}

fn put_u16(bytes: &mut [u8], at: usize, value: u16) {
    bytes[at..at + 2].copy_from_slice(&value.to_le_bytes());
}

fn used_page(random: &mut Random, tables: &Tables) -> u16 {
    random.between(1, usize::from(tables.index.used()) - 1) as u16
}

fn page_head(random: &mut Random, tables: &Tables, picture: &mut Picture) {
    let at = if random.chance(40) {
        page_at(0) + 2 * random.between(0, 10)
    } else {
        page_at(used_page(random, tables)) + 2 * random.between(0, 7)
    };
    put_u16(&mut picture.pages, at, small_or_wild(random));
}

fn swap_pages(random: &mut Random, tables: &Tables, picture: &mut Picture) {
    let one = page_at(used_page(random, tables));
    let other = page_at(used_page(random, tables));
    for byte in 0..PAGE_LENGTH {
        picture.pages.swap(one + byte, other + byte);
    }
}

fn copy_page(random: &mut Random, tables: &Tables, picture: &mut Picture) {
    let from = page_at(used_page(random, tables));
    let to = page_at(used_page(random, tables));
    picture.pages.copy_within(from..from + PAGE_LENGTH, to);
}

/// Where some child of some inner page stands, if there is an inner page.
fn any_child(random: &mut Random, tables: &Tables) -> Option<usize> {
    let mut places = Vec::new();
    for (number, page) in &tables.index.pages {
        places.extend((0..page.children().len()).map(|place| child_at(*number, place)));
    }
    random.pick(&places)
}

/// One up, one down, anything, the end, or the separator before it; the first has none before it.
fn move_separator(random: &mut Random, tables: &Tables, picture: &mut Picture) -> Option<()> {
    let at = any_child(random, tables)?;
    let separator = u64_at(&picture.pages, at);
    let moved = match random.below(5) {
        0 => separator.wrapping_add(1),
        1 => separator.wrapping_sub(1),
        2 => random.bits(),
        3 => u64::MAX,
        _ if at % PAGE_LENGTH == PAGE_HEAD_LENGTH => separator ^ 1,
        _ => u64_at(&picture.pages, at - CHILD_LENGTH),
    };
    picture.pages[at..at + 8].copy_from_slice(&moved.to_le_bytes());
    Some(())
}

fn move_child(random: &mut Random, tables: &Tables, picture: &mut Picture) -> Option<()> {
    let at = any_child(random, tables)?;
    put_u16(&mut picture.pages, at + 8, small_or_wild(random));
    Some(())
}

/// Where some taken lock slot stands, if there is one.
fn any_lock(random: &mut Random, tables: &Tables) -> Option<usize> {
    let slots = tables.desk.slots.iter().enumerate();
    let taken = slots.filter(|(_, slot)| **slot != Slot::Free);
    let places: Vec<usize> = taken.map(|(place, _)| slot_at(place)).collect();
    random.pick(&places)
}

fn duplicate_lock(random: &mut Random, tables: &Tables, picture: &mut Picture) -> Option<()> {
    let from = any_lock(random, tables)?;
    let to = slot_at(random.between(0, LOCK_COUNT - 1));
    picture.desk.copy_within(from..from + LOCK_LENGTH, to);
    Some(())
}

fn change_lock(random: &mut Random, tables: &Tables, picture: &mut Picture) -> Option<()> {
    let at = any_lock(random, tables)?;
    match random.below(3) {
        0 => picture.desk[at] ^= 1 << random.below(6),
        1 => put_u16(&mut picture.desk, at + 8, random.below(18) as u16),
        _ => put_u16(&mut picture.desk, at + 10, random.below(4) as u16),
    }
    Some(())
}

fn change_owner(random: &mut Random, tables: &Tables, picture: &mut Picture) -> Option<()> {
    let mut places = Vec::new();
    for (number, page) in &tables.index.pages {
        places.extend((0..page.entries().len()).map(|place| entry_at(*number, place)));
    }
    let at = random.pick(&places)?;
    put_u16(&mut picture.pages, at + 16, random.below(18) as u16);
    Some(())
}

fn change_queue(random: &mut Random, picture: &mut Picture) {
    let any_place = queue_at(random.between(0, usize::from(TRANSACTION_COUNT) - 1));
    let at = if random.chance(30) { QUEUE_COUNT_AT } else { any_place };
    put_u16(&mut picture.desk, at, random.below(18) as u16);
}

fn change_transaction(random: &mut Random, picture: &mut Picture) {
    let start = transaction_at(random.between(1, usize::from(TRANSACTION_COUNT)) as u16);
    let at = start + 2 * random.between(0, TRANSACTION_LENGTH / 2 - 1);
    put_u16(&mut picture.desk, at, random.below(8) as u16);
}
