//! The index on its pages: search, insert with splits, change and settling. For whole pictures.

use crate::bytes::{PagesBytes, put_u16, put_u32, put_u64, u16_at, u32_at, u64_at};

pub const PAGE: usize = 512;
pub const HEAD: usize = 16;
pub const ENTRY: usize = 20;
pub const CHILD: usize = 16;
pub const LEAF: u16 = 2;
pub const INNER: u16 = 3;
pub const LEAF_FULL: usize = 24;
pub const INNER_FULL: usize = 30;
const LEAF_STAY: usize = 13;
const INNER_STAY: usize = 16;
const PAGE_COUNT: usize = 64;

const ROOT_AT: usize = 16;
const USED_AT: usize = 18;
const HEIGHT_AT: usize = 20;

/// Bits of an entry's presence.
const NOW: u8 = 1;
const BEFORE: u8 = 2;

pub fn make_fresh(pages: &mut PagesBytes) {
    pages.fill(0);
    put_head(pages, 0, 1, 0, 0);
    put_head(pages, 1, LEAF, 0, 0);
    put_u16(pages, ROOT_AT, 1);
    put_u16(pages, USED_AT, 2);
    put_u16(pages, HEIGHT_AT, 1);
}

fn put_head(pages: &mut PagesBytes, page: usize, kind: u16, count: usize, level: u16) {
    let at = page * PAGE;
    put_u16(pages, at, PAGE as u16);
    put_u16(pages, at + 2, kind);
    put_u16(pages, at + 4, count as u16);
    put_u16(pages, at + 6, level);
}

fn root(pages: &PagesBytes) -> usize {
    u16_at(pages, ROOT_AT).into()
}

fn used(pages: &PagesBytes) -> usize {
    u16_at(pages, USED_AT).into()
}

fn count(pages: &PagesBytes, page: usize) -> usize {
    u16_at(pages, page * PAGE + 4).into()
}

fn level(pages: &PagesBytes, page: usize) -> u16 {
    u16_at(pages, page * PAGE + 6)
}

fn entry_at(page: usize, place: usize) -> usize {
    page * PAGE + HEAD + place * ENTRY
}

fn child_at(page: usize, place: usize) -> usize {
    page * PAGE + HEAD + place * CHILD
}

/// The number of the first places of a page that satisfy a condition which no later ones do.
fn first_places(count: usize, holds: impl Fn(usize) -> bool) -> usize {
    let (mut low, mut high) = (0, count);
    while low < high {
        let middle = (low + high) / 2;
        if holds(middle) {
            low = middle + 1;
        } else {
            high = middle;
        }
    }
    low
}

/// The way from the root down to the leaf that holds a key's place: pages, and in each the place of
/// the child that was taken.
struct Path {
    pages: [u8; PAGE_COUNT],
    places: [u8; PAGE_COUNT],
    length: usize,
    leaf: usize,
}

impl Path {
    fn to(pages: &PagesBytes, key: u64) -> Path {
        let start = [0; PAGE_COUNT];
        let mut path = Path { pages: start, places: start, length: 0, leaf: root(pages) };
        path.down(pages, |page| {
            let is_at_most = |place| u64_at(pages, child_at(page, place + 1)) <= key;
            first_places(count(pages, page) - 1, is_at_most)
        });
        path
    }

    /// Goes down from the page reached to a leaf, by the places that are chosen.
    fn down(&mut self, pages: &PagesBytes, place_in: impl Fn(usize) -> usize) {
        while level(pages, self.leaf) > 0 {
            let place = place_in(self.leaf);
            self.pages[self.length] = self.leaf as u8;
            self.places[self.length] = place as u8;
            self.length += 1;
            self.leaf = u16_at(pages, child_at(self.leaf, place) + 8).into();
        }
    }

    /// Goes on to the next leaf, if there is one.
    fn on(&mut self, pages: &PagesBytes) -> bool {
        while let Some(above) = self.length.checked_sub(1) {
            let (page, place) =
                (usize::from(self.pages[above]), usize::from(self.places[above]) + 1);
            if place < count(pages, page) {
                self.places[above] = place as u8;
                self.leaf = u16_at(pages, child_at(page, place) + 8).into();
                self.down(pages, |_| 0);
                return true;
            }
            self.length = above;
        }
        false
    }
}

/// An entry where it stands in its leaf.
#[derive(Clone, Copy)]
pub struct Found {
    at: usize,
    pub key: u64,
}

impl Found {
    pub fn is_ghost(&self, pages: &PagesBytes) -> bool {
        pages[self.at + 18] & NOW == 0
    }

    pub fn is_owned_by(&self, pages: &PagesBytes, transaction: u16) -> bool {
        u16_at(pages, self.at + 16) == transaction
    }

    pub fn record(&self, pages: &PagesBytes) -> u32 {
        u32_at(pages, self.at + 8)
    }

    /// Makes one's own ghost present again.
    pub fn insert_again(&self, pages: &mut PagesBytes, record: u32) {
        put_u32(pages, self.at + 8, record);
        pages[self.at + 18] |= NOW;
    }

    /// Makes a ghost of it.
    pub fn delete(&self, pages: &mut PagesBytes, owner: u16) {
        put_u32(pages, self.at + 8, 0);
        put_u16(pages, self.at + 16, owner);
        pages[self.at + 18] &= !NOW;
    }
}

/// The first entry at or above a key.
pub fn first_at_or_above(pages: &PagesBytes, key: u64) -> Option<Found> {
    let mut path = Path::to(pages, key);
    loop {
        let is_below = |place| u64_at(pages, entry_at(path.leaf, place)) < key;
        let count = count(pages, path.leaf);
        let place = first_places(count, is_below);
        if place < count {
            let at = entry_at(path.leaf, place);
            return Some(Found { at, key: u64_at(pages, at) });
        }
        if !path.on(pages) {
            return None;
        }
    }
}

/// Adds a key that isn't there, with its record, as its owner's. Says whether there were pages for
/// it; where not, nothing has changed.
pub fn add(pages: &mut PagesBytes, key: u64, record: u32, owner: u16) -> bool {
    let path = Path::to(pages, key);
    if used(pages) + pages_needed(pages, &path) > PAGE_COUNT {
        return false;
    }
    let mut entry = [0; ENTRY];
    put_u64(&mut entry, 0, key);
    put_u32(&mut entry, 8, record);
    put_u16(&mut entry, 16, owner);
    entry[18] = NOW;

    let leaf_count = count(pages, path.leaf);
    let place = first_places(leaf_count, |place| u64_at(pages, entry_at(path.leaf, place)) < key);
    if leaf_count < LEAF_FULL {
        put_row(pages, path.leaf, leaf_count, place, entry);
        return true;
    }
    let moved = split(pages, path.leaf, LEAF_STAY, place, entry);
    let mut separator = u64_at(pages, entry_at(moved, 0));
    let mut new_page = moved;
    for above in (0..path.length).rev() {
        let (page, place) = (usize::from(path.pages[above]), usize::from(path.places[above]) + 1);
        let child = child(separator, new_page);
        let inner_count = count(pages, page);
        if inner_count < INNER_FULL {
            put_row(pages, page, inner_count, place, child);
            return true;
        }
        new_page = split(pages, page, INNER_STAY, place, child);
        separator = u64_at(pages, child_at(new_page, 0));
        put_u64(pages, child_at(new_page, 0), 0);
    }
    grow(pages, child(separator, new_page));
    true
}

fn child(separator: u64, page: usize) -> [u8; CHILD] {
    let mut child = [0; CHILD];
    put_u64(&mut child, 0, separator);
    put_u16(&mut child, 8, page as u16);
    child
}

/// One for each full page in an unbroken run from the leaf upward, and one more if the root is in it.
fn pages_needed(pages: &PagesBytes, path: &Path) -> usize {
    if count(pages, path.leaf) < LEAF_FULL {
        return 0;
    }
    let above = path.pages[..path.length].iter().rev();
    let full = above.take_while(|page| count(pages, usize::from(**page)) == INNER_FULL).count();
    1 + full + usize::from(full == path.length)
}

/// Puts a row into a page with so many, at a place.
fn put_row<const N: usize>(
    pages: &mut PagesBytes,
    page: usize,
    count: usize,
    place: usize,
    row: [u8; N],
) {
    let rows = page * PAGE + HEAD;
    let at = rows + place * N;
    pages.copy_within(at..rows + count * N, at + N);
    pages[at..at + N].copy_from_slice(&row);
    put_u16(pages, page * PAGE + 4, count as u16 + 1);
}

/// Splits a full page that gets one row more: so many stay, the others move to a new page, whose
/// number it gives.
fn split<const N: usize>(
    pages: &mut PagesBytes,
    page: usize,
    stay: usize,
    place: usize,
    row: [u8; N],
) -> usize {
    let new_page = used(pages);
    put_u16(pages, USED_AT, new_page as u16 + 1);
    let full = count(pages, page);
    let (kind, level) = (u16_at(pages, page * PAGE + 2), level(pages, page));
    put_head(pages, new_page, kind, 0, level);
    let stay_before = if place < stay { stay - 1 } else { stay };
    let (rows, new_rows) = (page * PAGE + HEAD, new_page * PAGE + HEAD);
    let moved = rows + stay_before * N..rows + full * N;
    pages.copy_within(moved.clone(), new_rows);
    pages[moved].fill(0);
    put_u16(pages, new_page * PAGE + 4, (full - stay_before) as u16);
    put_u16(pages, page * PAGE + 4, stay_before as u16);
    if place < stay {
        put_row(pages, page, stay_before, place, row);
    } else {
        put_row(pages, new_page, full - stay_before, place - stay, row);
    }
    new_page
}

/// Puts a new root over the old one and the page that it split off.
fn grow(pages: &mut PagesBytes, right: [u8; CHILD]) {
    let (old_root, new_root, height) = (root(pages), used(pages), u16_at(pages, HEIGHT_AT));
    put_head(pages, new_root, INNER, 2, height);
    put_u16(pages, child_at(new_root, 0) + 8, old_root as u16);
    let at = child_at(new_root, 1);
    pages[at..at + CHILD].copy_from_slice(&right);
    put_u16(pages, ROOT_AT, new_root as u16);
    put_u16(pages, USED_AT, new_root as u16 + 1);
    put_u16(pages, HEIGHT_AT, height + 1);
}

/// Ends every entry of an owner: commit copies now to before, rollback before to now, and what is
/// left absent is taken out.
pub fn settle(pages: &mut PagesBytes, owner: u16, commits: bool) {
    let used = used(pages);
    for page in pages.as_chunks_mut::<PAGE>().0[1..used].iter_mut() {
        if u16_at(page, 2) == LEAF {
            settle_leaf(page, owner, commits);
        }
    }
}

fn settle_leaf(page: &mut [u8; PAGE], owner: u16, commits: bool) {
    let count = usize::from(u16_at(page, 4));
    let (kept, lasting) = if commits { (NOW, 8) } else { (BEFORE, 12) };
    let mut left = 0;
    for place in 0..count {
        let at = HEAD + place * ENTRY;
        if u16_at(page, at + 16) == owner {
            if page[at + 18] & kept == 0 {
                continue;
            }
            let record = u32_at(page, at + lasting);
            put_u32(page, at + 8, record);
            put_u32(page, at + 12, record);
            put_u16(page, at + 16, 0);
            page[at + 18] = NOW | BEFORE;
        }
        if left < place {
            page.copy_within(at..at + ENTRY, HEAD + left * ENTRY);
        }
        left += 1;
    }
    page[HEAD + left * ENTRY..HEAD + count * ENTRY].fill(0);
    put_u16(page, 4, left as u16);
}
