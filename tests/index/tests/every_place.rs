//! Entries put in at every place of leaves of every count, full pages divided at every place, and
//! leaves of every count settled: what growth by chance may not reach. All bytes are the model's.

use index::beside::{Beside, OWNERS};
use index::changes::any_entry;
use model::entry::Entry;
use model::generators::random::Random;
use model::key::Key;
use model::layout::pages::{Child, INNER_FULL, Index, LEAF_FULL, Page};
use std::collections::BTreeMap;

/// Neighbours in a leaf are so far apart, and its first entry as far above its separator.
const APART: u64 = 40;

/// The entries of a leaf, so many, above its separator.
fn leaf(random: &mut Random, separator: u64, count: usize) -> Vec<Entry> {
    let key = |place: usize| Key(separator + APART * (place as u64 + 1));
    (0..count).map(|place| any_entry(random, key(place))).collect()
}

/// An entry that belongs at a place of such a leaf.
fn entry_at(random: &mut Random, separator: u64, place: usize) -> Entry {
    any_entry(random, Key(separator + APART * place as u64 + 7))
}

/// An index that is one leaf with so many entries.
fn alone(random: &mut Random, count: usize) -> Index {
    let pages = BTreeMap::from([(1, Page::Leaf(leaf(random, 0, count)))]);
    Index { root: 1, height: 1, pages }
}

/// The separator of the leaf at a place of `full_root`.
fn separator(place: usize) -> u64 {
    place as u64 * 1_000
}

/// A root with as many leaves as it can have; the one at a place is full.
fn full_root(random: &mut Random, full: usize) -> Index {
    let mut pages = BTreeMap::new();
    let mut children = Vec::new();
    for place in 0..INNER_FULL {
        let count = if place == full { LEAF_FULL } else { random.between(0, LEAF_FULL) };
        let page = place as u16 + 1;
        pages.insert(page, Page::Leaf(leaf(random, separator(place), count)));
        children.push(Child { separator: Key(separator(place)), page });
    }
    let root = INNER_FULL as u16 + 1;
    pages.insert(root, Page::Inner { level: 1, children });
    Index { root, height: 2, pages }
}

#[test]
fn entries_are_put_in_at_every_place_of_leaves_of_every_count() {
    let mut random = Random::new(21);
    for count in 0..LEAF_FULL {
        for place in 0..=count {
            let mut beside = Beside::from(random.bits(), alone(&mut random, count));
            let entry = entry_at(&mut random, 0, place);
            assert!(beside.add(entry));
            assert_eq!(beside.index.pages[&1].entries()[place], entry);
            assert_eq!(beside.index.used(), 2);
        }
    }
}

#[test]
fn a_full_leaf_is_divided_at_every_place() {
    let mut random = Random::new(22);
    for place in 0..=LEAF_FULL {
        let mut beside = Beside::from(random.bits(), alone(&mut random, LEAF_FULL));
        assert!(beside.add(entry_at(&mut random, 0, place)));
        let counts = [1, 2].map(|page| beside.index.pages[&page].entries().len());
        assert_eq!((counts, beside.index.height), ([13, 12], 2), "at {place}");
    }
}

/// A full leaf under a full root takes one entry more: the leaf divides, then the root, and a new
/// root comes over them. At every place of the leaf, for every place that the leaf has in the root.
#[test]
fn a_full_root_is_divided_at_every_place() {
    let mut random = Random::new(23);
    for child in 0..INNER_FULL {
        for place in 0..=LEAF_FULL {
            let mut beside = Beside::from(random.bits(), full_root(&mut random, child));
            assert!(beside.add(entry_at(&mut random, separator(child), place)));
            let counts = [31, 33].map(|page| beside.index.pages[&page].children().len());
            assert_eq!((counts, beside.index.height), ([16, 15], 3), "at {place} of {child}");
        }
    }
}

/// The keys below, at and above each of these entries, the ones halfway between two, and the marks.
fn keys_around(entries: &[Entry]) -> Vec<Key> {
    let from_each = [-1, 0, 1, APART as i64 / 2];
    let around =
        entries.iter().flat_map(|entry| from_each.map(|far| entry.key.0.wrapping_add_signed(far)));
    around.map(Key).chain([Key::LOWEST, Key::HIGHEST]).collect()
}

/// In a leaf that is alone, and in one with others before and behind it.
#[test]
fn entries_are_found_from_every_key_in_leaves_of_every_count() {
    let mut random = Random::new(25);
    let mut found = 0;
    for count in 0..=LEAF_FULL {
        let index = alone(&mut random, count);
        let entries = index.pages[&1].entries().to_vec();
        let beside = Beside::from(random.bits(), index);
        for key in keys_around(&entries) {
            let first = entries.iter().find(|entry| entry.key >= key);
            assert_eq!(beside.find_from(key), first.copied());
            found += usize::from(first.is_some());
        }
    }
    assert!(found > 1_000, "{found} searches found something");
    for place in [0, 1, INNER_FULL - 1] {
        let beside = Beside::from(random.bits(), full_root(&mut random, place));
        for key in keys_around(beside.index.pages[&(place as u16 + 1)].entries()) {
            beside.find_from(key);
        }
    }
}

/// An entry is changed by its key at every place; beside a key that is missing nothing changes.
#[test]
fn entries_are_replaced_at_every_place_of_leaves_of_every_count() {
    let mut random = Random::new(26);
    for count in 0..=LEAF_FULL {
        let mut beside = Beside::from(random.bits(), alone(&mut random, count));
        for place in 0..count {
            let old = beside.index.pages[&1].entries()[place];
            let new = any_entry(&mut random, old.key);
            beside.replace(new);
            assert_eq!(beside.index.pages[&1].entries()[place], new);
        }
        for place in 0..=count {
            let missing = entry_at(&mut random, 0, place);
            beside.replace(missing);
        }
        assert_eq!(beside.reached.replaced_nothing as usize, count + 1);
    }
}

/// For every owner of an entry, and one who owns none.
#[test]
fn leaves_of_every_count_are_settled() {
    let mut random = Random::new(24);
    let mut taken_out = [0, 0];
    for count in (0..=LEAF_FULL).flat_map(|count| [count; 8]) {
        let index = alone(&mut random, count);
        for owner in OWNERS.into_iter().chain([5]) {
            for commits in [true, false] {
                let mut beside = Beside::from(random.bits(), index.clone());
                beside.settle(owner, commits);
                taken_out[usize::from(commits)] += count - beside.index.entries().count();
            }
        }
    }
    assert!(taken_out.iter().all(|times| *times > 300), "{taken_out:?}");
}
