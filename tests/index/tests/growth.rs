//! The index grown to its last page by keys that ascend, descend, come in any order, or all fall
//! into one leaf's range: after each insert all bytes are the model's.

use index::beside::{Beside, Reached};
use index::changes::{any_owner, any_record};
use model::entry::Entry;
use model::generators::random::Random;
use model::key::Key;

/// Inserts the keys, and ends their owners now and then, until the pages were short 30 times.
fn grown(seed: u64, keys: impl Iterator<Item = Key>) -> Reached {
    let mut random = Random::new(seed);
    let mut beside = Beside::fresh(seed);
    for key in keys {
        let (record, owner) = (any_record(&mut random), any_owner(&mut random));
        beside.add(Entry::inserted(key, record, owner));
        if random.chance(2) {
            beside.settle(any_owner(&mut random), true);
        }
        if beside.reached.short_with_none + beside.reached.short_with_some == 30 {
            return beside.reached;
        }
    }
    panic!("the keys have run out: {:?}", beside.reached)
}

#[test]
fn keys_that_ascend() {
    let reached = grown(1, (0..).map(|place| Key(3 * place)));
    assert_eq!((reached.height, reached.used), (3, 64), "{reached:?}");
}

#[test]
fn keys_that_descend() {
    let reached = grown(2, (0..).map(|place| Key(Key::HIGHEST.0 - 3 * place)));
    assert_eq!((reached.height, reached.used), (3, 64), "{reached:?}");
}

/// An odd factor and a shift back make another key of each place, spread over all keys.
#[test]
fn keys_in_any_order() {
    for seed in 3..=5 {
        let key = |place: u64| Key(place.wrapping_mul(0x9E37_79B9_7F4A_7C15 ^ seed << 40) >> 1);
        let reached = grown(seed, (0..).map(key));
        assert_eq!((reached.height, reached.used), (3, 64), "seed {seed}: {reached:?}");
    }
}

/// A tree of 100 keys far apart, and then keys that all fall between two neighbours, from both ends
/// inward: every split is of a leaf that came of the same one.
#[test]
fn keys_of_one_leaf() {
    let apart = (0..100).map(|place| Key(place << 32));
    let (low, high) = (40 << 32, 41 << 32);
    let between = (1..).flat_map(|place| [Key(low + place), Key(high - place)]);
    let reached = grown(6, apart.chain(between));
    assert_eq!((reached.height, reached.used), (3, 64), "{reached:?}");
}

/// The highest inner page is filled with its 30 leaves first, then a page is left over: one more
/// leaf at the high end would take two, one at the low end takes the last.
#[test]
fn two_pages_are_needed_and_one_is_left() {
    let mut beside = Beside::fresh(7);
    let mut high = (1..).map(|place| Entry::inserted(Key(place << 32), 7, 1));
    let mut low = (1..).map(|place| Entry::inserted(Key(place), 7, 2));
    let mut next_high = || high.next().expect("there are keys above");
    let mut next_low = || low.next().expect("there are keys below");
    while beside.index.used() < 50 {
        assert!(beside.add(next_high()));
    }
    while beside.index.used() < 63 {
        assert!(beside.add(next_low()));
    }
    while beside.add(next_high()) {}
    assert_eq!((beside.reached.short_with_some, beside.index.used()), (1, 63));
    while beside.index.used() < 64 {
        assert!(beside.add(next_low()));
    }
    assert!(!beside.add(next_high()));
    assert_eq!(beside.reached.short_with_none, 1);
}
