//! The cases of document 01, "Overs to bowl at it", that are not starred, the case that document
//! 02, [14], adds, and the reading that makes the longest row of nineteens. Expected answers are
//! written out by hand; every byte is also held to the model.

use desk::beside::Beside;
use desk::under_test::LIBRARY;
use model::key::Key;
use model::layout::answer::Answer;
use model::layout::desk::{Lock, Mode};

/// A desk with settled keys, put there by transaction 16, on which 1 to `last` have begun.
fn settled_with_begun(keys: &[u64], last: u16) -> Beside {
    let mut desk = Beside::fresh(LIBRARY, 1);
    desk.begin(16);
    for key in keys {
        assert_eq!(desk.insert(16, *key, *key as u32), [Answer::plain(16, 0)]);
    }
    desk.commit(16);
    for transaction in 1..=last {
        assert_eq!(desk.begin(transaction), [Answer::plain(transaction, 0)]);
    }
    desk
}

/// "One transaction inserts 1..24: one leaf. 25: separator 14, used 4. 256 inserts: done; the
/// 257th: 17." Root, pages used and height stand in page 0 at byte 16.
#[test]
fn one_transaction_inserts_until_the_locks_are_in_use() {
    let mut desk = settled_with_begun(&[], 1);
    for key in 1..=24 {
        assert_eq!(desk.insert(1, key, 0), [Answer::plain(1, 0)]);
    }
    assert_eq!(desk.picture().pages[16..22], [1, 0, 2, 0, 1, 0], "one leaf");
    assert_eq!(desk.insert(1, 25, 0), [Answer::plain(1, 0)]);
    let pages = &desk.picture().pages;
    assert_eq!(pages[16..22], [3, 0, 4, 0, 2, 0], "root 3, used 4, height 2");
    let root = &pages[3 * 512..];
    assert_eq!(root[..8], [0, 2, 3, 0, 2, 0, 1, 0], "length, inner, two children, level 1");
    assert_eq!(root[16..32], [0, 0, 0, 0, 0, 0, 0, 0, 1, 0, 0, 0, 0, 0, 0, 0]);
    assert_eq!(root[32..48], [14, 0, 0, 0, 0, 0, 0, 0, 2, 0, 0, 0, 0, 0, 0, 0]);
    assert_eq!((pages[512 + 4], pages[2 * 512 + 4]), (13, 12), "13 stay and 12 move");
    for key in 26..=256 {
        assert_eq!(desk.insert(1, key, 0), [Answer::plain(1, 0)]);
    }
    let before = desk.picture().clone();
    assert_eq!(desk.insert(1, 257, 0), [Answer::plain(1, 17)]);
    assert!(*desk.picture() == before, "17 takes no lock and adds no key");
}

/// "Ascending keys, settled in groups: 778 fit; the 779th is 18. Delete 778, commit; 779 then
/// fits."
#[test]
fn the_779th_ascending_key_finds_no_page_until_one_is_deleted() {
    let mut desk = Beside::fresh(LIBRARY, 2);
    for key in 1..=778 {
        if key % 200 == 1 {
            desk.begin(1);
        }
        assert_eq!(desk.insert(1, key, 0), [Answer::plain(1, 0)]);
        if key % 200 == 0 || key == 778 {
            assert_eq!(desk.commit(1), [Answer::plain(1, 0)]);
        }
    }
    assert_eq!(desk.picture().pages[18..22], [64, 0, 3, 0], "all pages in use, height 3");
    desk.begin(2);
    let before = desk.picture().clone();
    assert_eq!(desk.insert(2, 779, 0), [Answer::plain(2, 18)]);
    assert!(*desk.picture() == before, "18 takes no lock");
    assert_eq!(desk.delete(2, 778), [Answer::plain(2, 0)]);
    assert_eq!(desk.commit(2), [Answer::plain(2, 0)]);
    desk.begin(2);
    assert_eq!(desk.insert(2, 779, 0), [Answer::plain(2, 0)]);
}

/// Document 02, [14]: settled 10, 20, 30, 40 with records 1, 2, 3, 4; 1 reads 10..10; 2 reads
/// 20..20, 30..30 and 40..40; 1 deletes 20: 3; 2 deletes 10: 19 to 1, which holds one lock, and
/// then 3 to 2, which holds three.
#[test]
fn the_lighter_one_gives_way_though_it_is_older() {
    let mut desk = Beside::fresh(LIBRARY, 3);
    desk.begin(16);
    for (key, record) in [(10, 1), (20, 2), (30, 3), (40, 4)] {
        assert_eq!(desk.insert(16, key, record), [Answer::plain(16, 0)]);
    }
    desk.commit(16);
    desk.begin(1);
    desk.begin(2);
    assert_eq!(desk.read(1, 10, 10), [Answer::showing(1, 1, Key(10), 1)]);
    for (key, record) in [(20, 2), (30, 3), (40, 4)] {
        assert_eq!(desk.read(2, key, key), [Answer::showing(2, 1, Key(key), record)]);
    }
    assert_eq!(desk.delete(1, 20), [Answer::waiting(1, 2)]);
    let written: Vec<u8> = desk.delete(2, 10).iter().flat_map(Answer::encode).collect();
    let expected = [
        20, 0, 7, 0, 1, 0, 19, 0, 0, 0, 0, 0, 0, 0, 0, 0, 0, 0, 0, 0, // 19 to 1
        20, 0, 7, 0, 2, 0, 3, 0, 0, 0, 0, 0, 0, 0, 0, 0, 1, 0, 0, 0, // 3 to 2, behind 1
    ];
    assert_eq!(written, expected);
    assert_eq!(desk.tables().desk.queue, [2]);
    let s_on = |key, holder| Lock { name: Key(key), holder, mode: Mode::S };
    let locks = [s_on(10, 1), s_on(20, 2), s_on(30, 2), s_on(40, 2)];
    assert_eq!(desk.tables().desk.locks().collect::<Vec<_>>(), locks);
    assert_eq!(desk.rollback(1), [Answer::plain(1, 0), Answer::plain(2, 0)]);
}

/// 1 deletes 20; 2 to 15 take S on 30; 2 to 16 insert 15; 1 commits: thirteen nineteens, newest
/// first, since 2 to 15 hold one lock each. 16 holds none, but came last: nobody waits behind it,
/// and it is on no circle.
#[test]
fn one_commit_gives_thirteen_nineteens() {
    let mut desk = settled_with_begun(&[10, 20, 30], 16);
    desk.delete(1, 20);
    for transaction in 2..=15 {
        let found = [Answer::showing(transaction, 1, Key(30), 30)];
        assert_eq!(desk.read(transaction, 30, 30), found);
    }
    for transaction in 2..=16 {
        assert_eq!(desk.insert(transaction, 15, 0), [Answer::waiting(transaction, 1)]);
    }
    let mut expected = vec![Answer::plain(1, 0)];
    expected.extend((3..=15).rev().map(|transaction| Answer::plain(transaction, 19)));
    assert_eq!(desk.commit(1), expected);
    assert_eq!(desk.tables().desk.queue, [2, 16]);
}

/// A circle of sixteen: "a wait chain is followed with the number of links left falling, from 15".
/// All hold one lock, and the last is the newest.
#[test]
fn a_circle_of_sixteen_is_found() {
    let mut desk = settled_with_begun(&[], 16);
    for transaction in 1..=16u16 {
        let done = [Answer::plain(transaction, 0)];
        assert_eq!(desk.insert(transaction, u64::from(transaction) * 10, 0), done);
    }
    for transaction in 1..=15u16 {
        let next = (u64::from(transaction) + 1) * 10;
        let behind_the_next = [Answer::waiting(transaction, transaction + 1)];
        assert_eq!(desk.read(transaction, next, next), behind_the_next);
    }
    assert_eq!(desk.read(16, 10, 10), [Answer::plain(16, 19)]);
}
