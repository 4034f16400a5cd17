//! The proved index and the model's, side by side: each change is made in both, and all 32,768
//! bytes are compared after it. What is expected comes from the model alone.

use crate::doors;
use model::entry::Entry;
use model::generators::random::Random;
use model::key::Key;
use model::layout::pages::{Index, PAGE_COUNT, PAGE_LENGTH, PAGES_LENGTH, Page};
use model::picture::Tables;

/// Transactions that change entries, and nobody.
pub const OWNERS: [u16; 4] = [1, 2, 7, 16];
const ASKERS: [u16; 5] = [0, 1, 2, 7, 16];

pub struct Beside {
    pub bytes: Vec<u8>,
    pub index: Index,
    pub reached: Reached,
    probes: Random,
}

/// What a run has come to, so that a test can ask for it.
#[derive(Clone, Copy, Debug, Default, PartialEq, Eq)]
pub struct Reached {
    /// The highest tree, and the most pages used.
    pub height: u16,
    pub used: u16,
    /// How often an insert found too few pages, by the pages that were still unused.
    pub short_with_none: u32,
    pub short_with_some: u32,
    /// The most leaves that were empty at once beside others that were not.
    pub empty_leaves: usize,
    /// How often a search went past an empty leaf, past the asker's own ghosts, and found nothing.
    pub past_empty_leaf: u32,
    pub past_own_ghost: u32,
    pub found_nothing: u32,
    pub revived: u32,
    pub replaced_nothing: u32,
}

impl Beside {
    /// Fresh, from bytes that are anything.
    pub fn fresh(seed: u64) -> Beside {
        let mut probes = Random::new(seed);
        let mut bytes: Vec<u8> = (0..PAGES_LENGTH).map(|_| probes.bits() as u8).collect();
        assert_eq!(doors::fresh(&mut bytes), Ok(()));
        Beside::at(bytes, Tables::fresh().index, probes)
    }

    /// From an index of the model's; the seed is for the searches.
    pub fn from(seed: u64, index: Index) -> Beside {
        Beside::at(index.encode(), index, Random::new(seed))
    }

    fn at(bytes: Vec<u8>, index: Index, probes: Random) -> Beside {
        let mut beside = Beside { bytes, index, reached: Reached::default(), probes };
        beside.compare();
        beside
    }

    /// Puts in an entry whose key is missing, if there is room for it: "18 if used plus needed is
    /// over 64". Gives whether there was.
    pub fn add(&mut self, entry: Entry) -> bool {
        assert_eq!(self.index.entry(entry.key), None, "only a missing key is put in");
        let fits = self.index.used() + self.index.pages_needed(entry.key) <= PAGE_COUNT;
        if fits {
            self.index.add(entry);
        } else if self.index.used() == PAGE_COUNT {
            self.reached.short_with_none += 1;
        } else {
            self.reached.short_with_some += 1;
        }
        assert_eq!(doors::add(&mut self.bytes, entry), Ok(fits), "room for {entry:?}");
        self.compare();
        fits
    }

    /// Puts an entry in the place of the one with its key; where there is none, nothing changes.
    pub fn replace(&mut self, entry: Entry) {
        match self.index.entry(entry.key) {
            Some(old) if old.is_ghost() && !entry.is_ghost() => self.reached.revived += 1,
            Some(_) => (),
            None => self.reached.replaced_nothing += 1,
        }
        if self.index.entry(entry.key).is_some() {
            self.index.replace(entry);
        }
        assert_eq!(doors::replace(&mut self.bytes, entry), Ok(()));
        self.compare();
    }

    pub fn settle(&mut self, owner: u16, commits: bool) {
        self.index.settle(owner, if commits { Entry::committed } else { Entry::rolled_back });
        assert_eq!(doors::settle(&mut self.bytes, owner, commits), Ok(()));
        self.compare();
    }

    fn compare(&mut self) {
        let expected = self.index.encode();
        if let Some(at) = (0..PAGES_LENGTH).find(|at| self.bytes[*at] != expected[*at]) {
            let (page, byte) = (at / PAGE_LENGTH, at % PAGE_LENGTH);
            let (is, should) = (self.bytes[at], expected[at]);
            panic!("page {page} has {is} at byte {byte}, where {should} should be");
        }
        assert_eq!(self.bytes.len(), PAGES_LENGTH);
        assert!(doors::is_whole(&self.bytes));
        self.look();
        self.search();
    }

    /// Sets down what the model's index has come to.
    fn look(&mut self) {
        let leaves = self.index.pages.values().filter(|page| page.level() == 0);
        let (empty, others): (Vec<&Page>, Vec<&Page>) =
            leaves.partition(|leaf| leaf.entries().is_empty());
        if !others.is_empty() {
            self.reached.empty_leaves = self.reached.empty_leaves.max(empty.len());
        }
        self.reached.height = self.reached.height.max(self.index.height);
        self.reached.used = self.reached.used.max(self.index.used());
    }

    /// A search between any two keys by anyone, and one by nobody, which finds the first entry at
    /// or above the key.
    fn search(&mut self) {
        let (lo, hi) = (self.any_key(), self.any_key());
        let asker = self.probes.pick(&ASKERS).expect("there are askers");
        let expected = self.finds(lo, hi, asker);
        let first = self.index.first_at_or_above(lo);
        assert_eq!(doors::find(&self.bytes, lo, lo, 0), Ok(first), "the first from {lo:?}");

        self.reached.found_nothing += u32::from(expected.is_none());
        self.reached.past_own_ghost += u32::from(expected != first);
        self.reached.past_empty_leaf += u32::from(self.passes_empty_leaf(lo));
    }

    /// A search, which must find what the model finds; gives that.
    fn finds(&self, lo: Key, hi: Key, asker: u16) -> Option<Entry> {
        let expected = self.sought(lo, hi, asker);
        let found = doors::find(&self.bytes, lo, hi, asker);
        assert_eq!(found, Ok(expected), "from {lo:?}, to {hi:?}, by {asker}");
        expected
    }

    /// Searches from a key, by everyone, for that key alone and for all above it. Gives the first
    /// entry at or above it.
    pub fn find_from(&self, lo: Key) -> Option<Entry> {
        for asker in ASKERS {
            self.finds(lo, lo, asker);
            self.finds(lo, Key::HIGHEST, asker);
        }
        self.finds(lo, lo, 0)
    }

    /// "First entry at or above lo that is above hi or isn't the asker's own ghost", among all
    /// entries of the model's index.
    fn sought(&self, lo: Key, hi: Key, asker: u16) -> Option<Entry> {
        let own_ghost = |entry: &Entry| asker != 0 && entry.owner == asker && entry.is_ghost();
        let sought = |entry: &&Entry| entry.key >= lo && (entry.key > hi || !own_ghost(entry));
        self.index.entries().filter(sought).min_by_key(|entry| entry.key).copied()
    }

    /// Whether the key belongs to an empty leaf while there are entries above it.
    fn passes_empty_leaf(&self, key: Key) -> bool {
        let mut page = &self.index.pages[&self.index.root];
        while let Some(child) = page.children().iter().rev().find(|child| child.separator <= key) {
            page = &self.index.pages[&child.page];
        }
        page.entries().is_empty() && self.index.first_at_or_above(key).is_some()
    }

    /// A key of the index or one beside it, a mark, or any.
    fn any_key(&mut self) -> Key {
        let keys: Vec<Key> = self.index.entries().map(|entry| entry.key).collect();
        let random = &mut self.probes;
        match (random.below(8), random.pick(&keys)) {
            (0, _) => Key::LOWEST,
            (1, _) => Key::HIGHEST,
            (2, _) | (_, None) => Key(random.below(u64::MAX)),
            (3, Some(key)) => key.up(1),
            (4, Some(key)) => Key(key.0.saturating_sub(1)),
            (_, Some(key)) => key,
        }
    }
}
