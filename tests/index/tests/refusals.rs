//! Where a buffer isn't whole, or the key is the end or is there already, a door refuses and every
//! byte stays.

use index::beside::Beside;
use index::changes::{Mix, change};
use index::doors::{self, Refused};
use model::entry::Entry;
use model::generators::random::Random;
use model::key::Key;
use model::layout::pages::{Index, PAGES_LENGTH};

/// An index of two levels with entries of several owners.
fn some_index(random: &mut Random) -> Beside {
    let mix = Mix { inserts: 80, deletes: 8, runs: 0, revivals: 2, ends: 8, commits: 80 };
    let mut beside = Beside::fresh(random.bits());
    for _ in 0..300 {
        change(&mut beside, random, mix, 2_000);
    }
    assert_eq!(beside.index.height, 2);
    beside
}

/// Every door but `fresh` refuses the bytes and leaves them.
fn all_refuse(bytes: &[u8]) {
    let entry = Entry::inserted(Key(77), 7, 1);
    let mut after = bytes.to_vec();
    assert!(!doors::is_whole(&after));
    assert_eq!(doors::find(&after, Key(0), Key::HIGHEST, 0), Err(Refused));
    assert_eq!(doors::add(&mut after, entry), Err(Refused));
    assert_eq!(doors::replace(&mut after, entry), Err(Refused));
    assert_eq!(doors::settle(&mut after, 1, true), Err(Refused));
    assert!(after == bytes, "a refusal leaves the bytes");
}

#[test]
fn buffers_of_another_length() {
    let bytes = some_index(&mut Random::new(11)).bytes;
    for length in [0, 1, 512, 2 * 512, PAGES_LENGTH - 1, PAGES_LENGTH + 1, 2 * PAGES_LENGTH] {
        let mut other = bytes.clone();
        other.resize(length, 0);
        all_refuse(&other);
        assert_eq!(doors::fresh(&mut other), Err(Refused));
        assert!(other[..length.min(PAGES_LENGTH)] == bytes[..length.min(PAGES_LENGTH)]);
    }
}

/// A byte of a page that is used, changed so that the bytes follow no layout: that is the model's
/// word.
#[test]
fn buffers_that_follow_no_layout() {
    let mut random = Random::new(12);
    let beside = some_index(&mut random);
    let used = usize::from(beside.index.used()) * 512;
    let mut refused = 0;
    while refused < 3_000 {
        let mut bytes = beside.bytes.clone();
        let at = random.between(0, used + 511);
        bytes[at] ^= 1 << random.below(8);
        if Index::decode(&bytes).is_none() {
            all_refuse(&bytes);
            refused += 1;
        }
    }
    all_refuse(&vec![0; PAGES_LENGTH]);
}

#[test]
fn the_end_and_keys_that_are_there() {
    let mut random = Random::new(13);
    let mut beside = some_index(&mut random);
    let before = beside.bytes.clone();
    let there: Vec<Key> = beside.index.entries().map(|entry| entry.key).collect();
    for key in there.into_iter().chain([Key::END]) {
        let entry = Entry::inserted(key, 7, 1);
        assert_eq!(doors::add(&mut beside.bytes, entry), Err(Refused), "{key:?}");
        assert!(beside.bytes == before, "{key:?}");
    }
}
