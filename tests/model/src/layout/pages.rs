//! The 64 pages (document 01, Records and pages).

use super::little_endian::{key_at, u16_at, u32_at};
use crate::entry::Entry;
use crate::key::Key;
use std::collections::BTreeMap;

pub const PAGE_COUNT: u16 = 64;
pub const PAGE_LENGTH: usize = 512;
pub const PAGES_LENGTH: usize = PAGE_COUNT as usize * PAGE_LENGTH;
pub const PAGE_HEAD_LENGTH: usize = 16;
pub const ENTRY_LENGTH: usize = 20;
pub const CHILD_LENGTH: usize = 16;
/// A leaf holds up to 24 entries.
pub const LEAF_FULL: usize = 24;
/// An inner page holds up to 30 children.
pub const INNER_FULL: usize = 30;

/// Where a page starts among the pages.
pub fn page_at(page: u16) -> usize {
    usize::from(page) * PAGE_LENGTH
}

/// Where the entry at a place of a leaf starts among the pages.
pub fn entry_at(page: u16, place: usize) -> usize {
    page_at(page) + PAGE_HEAD_LENGTH + place * ENTRY_LENGTH
}

/// Where the child at a place of an inner page starts among the pages.
pub fn child_at(page: u16, place: usize) -> usize {
    page_at(page) + PAGE_HEAD_LENGTH + place * CHILD_LENGTH
}

/// Page 0, less its fixed head.
#[derive(Clone, Copy, Debug, PartialEq, Eq)]
pub struct PageZero {
    pub root: u16,
    pub used: u16,
    pub height: u16,
}

#[derive(Clone, Copy, Debug, PartialEq, Eq)]
pub struct Child {
    pub separator: Key,
    pub page: u16,
}

/// A page of the tree.
#[derive(Clone, Debug, PartialEq, Eq)]
pub enum Page {
    Leaf(Vec<Entry>),
    Inner { level: u16, children: Vec<Child> },
}

/// All 64 pages: what page 0 says, and the pages from 1 to used-1 by their numbers.
#[derive(Clone, Debug, PartialEq, Eq)]
pub struct Index {
    pub root: u16,
    pub height: u16,
    pub pages: BTreeMap<u16, Page>,
}

/// A page's head: length 512, kind, count, level, eight zeros.
fn encode_page_head(kind: u16, count: u16, level: u16) -> Vec<u8> {
    let mut bytes = Vec::with_capacity(PAGE_LENGTH);
    bytes.extend((PAGE_LENGTH as u16).to_le_bytes());
    bytes.extend(kind.to_le_bytes());
    bytes.extend(count.to_le_bytes());
    bytes.extend(level.to_le_bytes());
    bytes.extend([0; 8]);
    bytes
}

impl PageZero {
    pub fn encode(&self) -> Vec<u8> {
        let mut bytes = encode_page_head(1, 0, 0);
        bytes.extend(self.root.to_le_bytes());
        bytes.extend(self.used.to_le_bytes());
        bytes.extend(self.height.to_le_bytes());
        bytes.resize(PAGE_LENGTH, 0);
        bytes
    }

    pub fn decode(bytes: &[u8]) -> Option<PageZero> {
        if bytes.len() != PAGE_LENGTH {
            return None;
        }
        let root = u16_at(bytes, 16);
        let used = u16_at(bytes, 18);
        let height = u16_at(bytes, 20);
        let zero = PageZero { root, used, height };
        (zero.encode() == bytes).then_some(zero)
    }
}

/// Key, record now, record before, owner, presence with bit 0 now and bit 1 before, one zero.
pub fn encode_entry(entry: &Entry) -> Vec<u8> {
    let presence = u8::from(entry.now.is_some()) | u8::from(entry.before.is_some()) << 1;
    let mut bytes = Vec::with_capacity(ENTRY_LENGTH);
    bytes.extend(entry.key.0.to_le_bytes());
    bytes.extend(entry.now.unwrap_or(0).to_le_bytes());
    bytes.extend(entry.before.unwrap_or(0).to_le_bytes());
    bytes.extend(entry.owner.to_le_bytes());
    bytes.extend([presence, 0]);
    bytes
}

pub fn decode_entry(bytes: &[u8]) -> Option<Entry> {
    if bytes.len() != ENTRY_LENGTH {
        return None;
    }
    let entry = read_entry(bytes);
    (encode_entry(&entry) == bytes).then_some(entry)
}

/// The fields of an entry, from bytes that may hold more than those.
fn read_entry(bytes: &[u8]) -> Entry {
    let presence = bytes[18];
    Entry {
        key: key_at(bytes, 0),
        now: (presence & 1 != 0).then_some(u32_at(bytes, 8)),
        before: (presence & 2 != 0).then_some(u32_at(bytes, 12)),
        owner: u16_at(bytes, 16),
    }
}

impl Child {
    /// Separator, page, six zeros.
    pub fn encode(&self) -> Vec<u8> {
        let mut bytes = Vec::with_capacity(CHILD_LENGTH);
        bytes.extend(self.separator.0.to_le_bytes());
        bytes.extend(self.page.to_le_bytes());
        bytes.extend([0; 6]);
        bytes
    }

    pub fn decode(bytes: &[u8]) -> Option<Child> {
        if bytes.len() != CHILD_LENGTH {
            return None;
        }
        let child = Child::read(bytes);
        (child.encode() == bytes).then_some(child)
    }

    /// The fields of a child, from bytes that may hold more than those.
    fn read(bytes: &[u8]) -> Child {
        Child { separator: key_at(bytes, 0), page: u16_at(bytes, 8) }
    }
}

impl Page {
    pub fn level(&self) -> u16 {
        match self {
            Page::Leaf(_) => 0,
            Page::Inner { level, .. } => *level,
        }
    }

    /// The page's children; a leaf has none.
    pub fn children(&self) -> &[Child] {
        match self {
            Page::Leaf(_) => &[],
            Page::Inner { children, .. } => children,
        }
    }

    /// The page's entries; an inner page has none.
    pub fn entries(&self) -> &[Entry] {
        match self {
            Page::Leaf(entries) => entries,
            Page::Inner { .. } => &[],
        }
    }

    pub fn is_full(&self) -> bool {
        match self {
            Page::Leaf(entries) => entries.len() == LEAF_FULL,
            Page::Inner { children, .. } => children.len() == INNER_FULL,
        }
    }

    pub fn encode(&self) -> Vec<u8> {
        let mut bytes = match self {
            Page::Leaf(entries) => encode_page_head(2, entries.len() as u16, 0),
            Page::Inner { level, children } => encode_page_head(3, children.len() as u16, *level),
        };
        bytes.extend(self.entries().iter().flat_map(encode_entry));
        bytes.extend(self.children().iter().flat_map(Child::encode));
        assert!(bytes.len() <= PAGE_LENGTH, "a page holds no more than {PAGE_LENGTH} bytes");
        bytes.resize(PAGE_LENGTH, 0);
        bytes
    }

    pub fn decode(bytes: &[u8]) -> Option<Page> {
        if bytes.len() != PAGE_LENGTH {
            return None;
        }
        let page = match u16_at(bytes, 2) {
            2 => read_leaf(bytes)?,
            3 => read_inner(bytes)?,
            _ => return None,
        };
        (page.encode() == bytes).then_some(page)
    }
}

fn read_leaf(bytes: &[u8]) -> Option<Page> {
    let count = usize::from(u16_at(bytes, 4));
    if count > LEAF_FULL {
        return None;
    }
    let places = bytes[PAGE_HEAD_LENGTH..].chunks_exact(ENTRY_LENGTH);
    Some(Page::Leaf(places.take(count).map(read_entry).collect()))
}

/// "The first separator is 0" (document 01, Records and pages), also where the page's own low end
/// is higher: that comes from its parent.
fn read_inner(bytes: &[u8]) -> Option<Page> {
    let count = usize::from(u16_at(bytes, 4));
    if count > INNER_FULL {
        return None;
    }
    let places = bytes[PAGE_HEAD_LENGTH..].chunks_exact(CHILD_LENGTH);
    let children: Vec<Child> = places.take(count).map(Child::read).collect();
    if children.first().is_some_and(|first| first.separator != Key::LOWEST) {
        return None;
    }
    Some(Page::Inner { level: u16_at(bytes, 6), children })
}

impl Index {
    /// Pages used, page 0 included; so this is also the next unused number.
    pub fn used(&self) -> u16 {
        self.pages.len() as u16 + 1
    }

    /// The entries of all leaves, in the order of the page numbers.
    pub fn entries(&self) -> impl Iterator<Item = &Entry> {
        self.pages.values().flat_map(Page::entries)
    }

    /// The 64 pages. Pages from used on are all zero, their heads too.
    pub fn encode(&self) -> Vec<u8> {
        assert!(self.pages.keys().copied().eq(1..self.used()), "pages go from 1 to used-1");
        let zero = PageZero { root: self.root, used: self.used(), height: self.height };
        let mut bytes = zero.encode();
        bytes.extend(self.pages.values().flat_map(Page::encode));
        bytes.resize(PAGES_LENGTH, 0);
        bytes
    }

    /// The index, whatever its tree is like: `whole` judges that.
    pub fn decode(bytes: &[u8]) -> Option<Index> {
        if bytes.len() != PAGES_LENGTH {
            return None;
        }
        let PageZero { root, used, height } = PageZero::decode(&bytes[..PAGE_LENGTH])?;
        if !(1..=PAGE_COUNT).contains(&used) {
            return None;
        }
        let mut pages = BTreeMap::new();
        for number in 1..used {
            let page = Page::decode(&bytes[page_at(number)..][..PAGE_LENGTH])?;
            pages.insert(number, page);
        }
        let unused = &bytes[page_at(used)..];
        unused.iter().all(|byte| *byte == 0).then_some(Index { root, height, pages })
    }
}
