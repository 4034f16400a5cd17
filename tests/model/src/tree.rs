//! The pages as a tree: search, insert with splits, settling (document 01, Records and pages).
//! Everything here is for whole pictures, in which going down always ends at a leaf.

use crate::entry::Entry;
use crate::key::Key;
use crate::layout::pages::{Child, INNER_FULL, Index, LEAF_FULL, Page};

/// "A full leaf with one more (25): the lowest 13 stay".
const LEAF_STAY: usize = 13;
/// "Inner (31): 16 stay".
const INNER_STAY: usize = 16;

/// The place of the child that holds the key: the last whose separator is at or below it. The
/// first separator is 0, so there always is one.
fn place_of_child(children: &[Child], key: Key) -> usize {
    children.partition_point(|child| child.separator <= key) - 1
}

impl Index {
    /// The first entry at or above a key, if there is one.
    pub fn first_at_or_above(&self, key: Key) -> Option<Entry> {
        self.first_under(self.root, key)
    }

    /// The same among the entries under one page. Where the child that should hold the key has
    /// nothing at or above it, the search goes into the next child: a leaf may be empty.
    fn first_under(&self, page: u16, key: Key) -> Option<Entry> {
        match &self.pages[&page] {
            Page::Leaf(entries) => entries.iter().find(|entry| entry.key >= key).copied(),
            Page::Inner { children, .. } => children[place_of_child(children, key)..]
                .iter()
                .find_map(|child| self.first_under(child.page, key)),
        }
    }

    /// The entry with this very key, if there is one.
    pub fn entry(&self, key: Key) -> Option<Entry> {
        self.first_at_or_above(key).filter(|entry| entry.key == key)
    }

    /// The pages from the root down to the leaf whose range holds the key.
    fn path(&self, key: Key) -> Vec<u16> {
        let mut path = vec![self.root];
        loop {
            let children = self.pages[&path[path.len() - 1]].children();
            if children.is_empty() {
                return path;
            }
            path.push(children[place_of_child(children, key)].page);
        }
    }

    /// How many new pages it takes to add a key: "one for each full page in an unbroken run from
    /// the leaf upward, and one more if the root is in it".
    pub fn pages_needed(&self, key: Key) -> u16 {
        let path = self.path(key);
        let full_run = path.iter().rev().take_while(|page| self.pages[page].is_full()).count();
        let root_is_in_it = full_run == path.len();
        full_run as u16 + u16::from(root_is_in_it)
    }

    /// Adds an entry whose key isn't in the index yet. A root that splits gets a new root over it,
    /// whose page number comes after those of all other new pages.
    pub fn add(&mut self, entry: Entry) {
        let Some(new_child) = self.add_under(self.root, entry) else { return };
        let old_root = Child { separator: Key::LOWEST, page: self.root };
        let level = self.height;
        self.root = self.new_page(Page::Inner { level, children: vec![old_root, new_child] });
        self.height += 1;
    }

    /// Adds the entry under one page. Where that page had to split, gives the child that its
    /// parent must take in next to it.
    fn add_under(&mut self, page: u16, entry: Entry) -> Option<Child> {
        match self.pages[&page].clone() {
            Page::Leaf(mut entries) => {
                let place = entries.partition_point(|other| other.key < entry.key);
                entries.insert(place, entry);
                self.store_leaf(page, entries)
            }
            Page::Inner { level, mut children } => {
                let place = place_of_child(&children, entry.key);
                let new_child = self.add_under(children[place].page, entry)?;
                children.insert(place + 1, new_child);
                self.store_inner(page, level, children)
            }
        }
    }

    /// Writes a leaf, splitting it where the entries are one too many. "The new separator is the
    /// right page's lowest key".
    fn store_leaf(&mut self, page: u16, mut entries: Vec<Entry>) -> Option<Child> {
        if entries.len() <= LEAF_FULL {
            self.pages.insert(page, Page::Leaf(entries));
            return None;
        }
        let moved = entries.split_off(LEAF_STAY);
        let separator = moved[0].key;
        self.pages.insert(page, Page::Leaf(entries));
        Some(Child { separator, page: self.new_page(Page::Leaf(moved)) })
    }

    /// Writes an inner page, splitting it where the children are one too many. "From an inner page
    /// it is the moved first separator", in whose place the new page has 0.
    fn store_inner(&mut self, page: u16, level: u16, mut children: Vec<Child>) -> Option<Child> {
        if children.len() <= INNER_FULL {
            self.pages.insert(page, Page::Inner { level, children });
            return None;
        }
        let mut moved = children.split_off(INNER_STAY);
        let separator = moved[0].separator;
        moved[0].separator = Key::LOWEST;
        self.pages.insert(page, Page::Inner { level, children });
        Some(Child { separator, page: self.new_page(Page::Inner { level, children: moved }) })
    }

    /// Puts a page at the next unused number, and gives that number.
    fn new_page(&mut self, page: Page) -> u16 {
        let number = self.used();
        self.pages.insert(number, page);
        number
    }

    /// Puts an entry in the place of the one with its key.
    pub fn replace(&mut self, entry: Entry) {
        let same_key = self
            .entries_mut()
            .flatten()
            .find(|other| other.key == entry.key)
            .expect("only an entry of the index is replaced");
        *same_key = entry;
    }

    /// Ends every entry of one owner by `ended`, which is commit's or rollback's rule; what that
    /// leaves absent is taken out. "Emptied leaves keep their page and range".
    pub fn settle(&mut self, owner: u16, ended: fn(Entry) -> Option<Entry>) {
        for entries in self.entries_mut() {
            let what_is_left =
                |entry: &Entry| if entry.owner == owner { ended(*entry) } else { Some(*entry) };
            *entries = entries.iter().filter_map(what_is_left).collect();
        }
    }

    /// The entries of each leaf, to be changed in place.
    fn entries_mut(&mut self) -> impl Iterator<Item = &mut Vec<Entry>> {
        self.pages.values_mut().filter_map(|page| match page {
            Page::Leaf(entries) => Some(entries),
            Page::Inner { .. } => None,
        })
    }
}
