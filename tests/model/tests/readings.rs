//! Places where document 01 leaves a choice or is easily misread, each as a small case, whom an
//! answer 3 names (document 02, [4]), and whom an answer 19 goes to ([14]). What is expected was
//! worked out by hand.

use model::entry::Entry;
use model::key::Key;
use model::layout::answer::Answer;
use model::layout::desk::{Lock, Mode, Slot};
use model::layout::pages::Page;
use model::session::Session;

/// A session with settled keys in which transactions 1 to `last` have begun.
fn settled_with_begun(keys: &[u64], last: u16) -> Session {
    let mut session = Session::settled(keys);
    for transaction in 1..=last {
        session.begin(transaction);
    }
    session
}

/// A circle of sixteen. Each owns a key and reads the next one's; the sixteenth closes the circle.
/// All hold one lock, and it is the newest.
#[test]
fn a_circle_of_sixteen_is_found() {
    let mut session = settled_with_begun(&[], 16);
    for transaction in 1..=16u16 {
        let done = [Answer::plain(transaction, 0)];
        assert_eq!(session.insert(transaction, u64::from(transaction) * 10, 0), done);
    }
    for transaction in 1..=15u16 {
        let next = (u64::from(transaction) + 1) * 10;
        let behind_the_next = [Answer::waiting(transaction, transaction + 1)];
        assert_eq!(session.read(transaction, next, next), behind_the_next);
    }
    assert_eq!(session.read(16, 10, 10), [Answer::plain(16, 19)]);
    assert_eq!(session.tables().desk.queue, (1..=15).collect::<Vec<u16>>());
}

/// Settled 10, 20; 1 reads 20..20; 2 inserts 12: 3; 3 deletes 17: 3; 1 inserts 15: 0 to 1, then 2
/// to 3. The run of the newest frees an older one.
#[test]
fn a_run_can_free_an_older_request() {
    let mut session = settled_with_begun(&[10, 20], 3);
    session.read(1, 20, 20);
    assert_eq!(session.insert(2, 12, 1), [Answer::waiting(2, 1)]);
    assert_eq!(session.delete(3, 17), [Answer::waiting(3, 2)]);
    let answers = session.insert(1, 15, 1);
    assert_eq!(answers, [Answer::plain(1, 0), Answer::plain(3, 2)]);
    assert_eq!(session.tables().desk.queue, [2]);
}

/// A waiting insert turns from X to S when its key has appeared. 2 waits to insert 15 below 20; 1,
/// who holds 20, inserts 15 itself and commits: 2 then finds it present.
#[test]
fn a_waiting_insert_finds_its_key_present() {
    let mut session = settled_with_begun(&[20], 2);
    session.read(1, 20, 20);
    assert_eq!(session.insert(2, 15, 5), [Answer::waiting(2, 1)]);
    assert_eq!(session.insert(1, 15, 6), [Answer::plain(1, 0)]);
    let answers = session.commit(1);
    assert_eq!(answers, [Answer::plain(1, 0), Answer::showing(2, 16, Key(15), 6)]);
    let s_on_15 = Lock { name: Key(15), holder: 2, mode: Mode::S };
    assert_eq!(session.tables().desk.slots[0], Slot::Taken(s_on_15));
}

/// A waiting delete turns from X to S when its key has gone.
#[test]
fn a_waiting_delete_finds_its_key_gone() {
    let mut session = settled_with_begun(&[10, 20], 3);
    session.delete(1, 10);
    assert_eq!(session.delete(2, 10), [Answer::waiting(2, 1)]);
    assert_eq!(session.read(3, 10, 10), [Answer::waiting(3, 1)]);
    let answers = session.commit(1);
    assert_eq!(answers, [Answer::plain(1, 0), Answer::plain(2, 2), Answer::plain(3, 2)]);
    let s_on_20 = |holder| Slot::Taken(Lock { name: Key(20), holder, mode: Mode::S });
    assert_eq!(session.tables().desk.slots[..2], [s_on_20(2), s_on_20(3)]);
}

/// A lock on the target excuses its holder from the queue rule. 3's read of the same key, without a
/// lock, waits behind 2's delete; 1's, with one, doesn't.
#[test]
fn a_lock_on_the_target_excuses_from_the_queue() {
    let mut session = settled_with_begun(&[20], 3);
    session.read(1, 20, 20);
    assert_eq!(session.delete(2, 20), [Answer::waiting(2, 1)]);
    assert_eq!(session.read(3, 20, 20), [Answer::waiting(3, 2)]);
    assert_eq!(session.read(1, 20, 20), [Answer::showing(1, 1, Key(20), 20)]);
}

/// A read skips its asker's own ghost up to hi; above hi the ghost is the target.
#[test]
fn a_read_skips_its_own_ghosts_up_to_hi() {
    let mut session = settled_with_begun(&[10, 20, 30], 1);
    session.delete(1, 20);
    let x_on_20 = Lock { name: Key(20), holder: 1, mode: Mode::X };
    let s_on_30 = Lock { name: Key(30), holder: 1, mode: Mode::S };
    assert_eq!(session.read(1, 11, 19), [Answer::plain(1, 2)]);
    assert_eq!(session.tables().desk.locks().collect::<Vec<_>>(), [x_on_20]);
    assert_eq!(session.read(1, 15, 30), [Answer::showing(1, 1, Key(30), 30)]);
    assert_eq!(session.tables().desk.locks().collect::<Vec<_>>(), [x_on_20, s_on_30]);
}

/// Delete of an own ghost is 2 and changes nothing; insert over it is 0, keeps before, and takes no
/// slot and no page.
#[test]
fn delete_and_insert_meet_their_own_ghost() {
    let mut session = settled_with_begun(&[20], 1);
    session.delete(1, 20);
    let before = session.picture.clone();
    assert_eq!(session.delete(1, 20), [Answer::plain(1, 2)]);
    assert_eq!(session.picture, before);
    assert_eq!(session.insert(1, 20, 9), [Answer::plain(1, 0)]);
    let entry = Entry { key: Key(20), owner: 1, now: Some(9), before: Some(20) };
    assert_eq!(session.tables().index.pages[&1], Page::Leaf(vec![entry]));
    let x_on_20 = Lock { name: Key(20), holder: 1, mode: Mode::X };
    assert_eq!(session.tables().desk.locks().collect::<Vec<_>>(), [x_on_20]);
}

/// Another's ghost is a target like any entry.
#[test]
fn another_ones_ghost_blocks() {
    let mut session = settled_with_begun(&[20, 30], 2);
    session.delete(1, 20);
    assert_eq!(session.read(2, 15, 30), [Answer::waiting(2, 1)]);
    let answers = session.rollback(1);
    assert_eq!(answers, [Answer::plain(1, 0), Answer::showing(2, 1, Key(20), 20)]);
}

/// With all 256 slots in use an insert of a missing key is 17 even for the holder of its target; S
/// to X needs no slot; a blocked request waits all the same.
#[test]
fn seventeen_is_said_only_in_a_run_that_needs_a_slot() {
    let mut session = settled_with_begun(&[], 3);
    session.insert(1, 1000, 0);
    session.commit(1);
    session.begin(1);
    assert_eq!(session.read(2, 1000, 1000), [Answer::showing(2, 1, Key(1000), 0)]);
    for key in 1..=255 {
        assert_eq!(session.insert(1, 2000 + key, 0), [Answer::plain(1, 0)]);
    }
    assert_eq!(session.insert(2, 900, 0), [Answer::plain(2, 17)]);
    assert_eq!(session.read(2, 5, 5), [Answer::plain(2, 2)], "1000 is held already");
    assert_eq!(session.delete(2, 1000), [Answer::plain(2, 0)]);
    assert_eq!(session.read(3, 1000, 1000), [Answer::waiting(3, 2)]);
    assert_eq!(session.read(2, 2001, 2001), [Answer::waiting(2, 1)]);
}

/// "In a run, 17 comes before every other number" (document 01, What the desk says): before 18, 16,
/// 1 and 2.
#[test]
fn seventeen_comes_before_every_other_number() {
    let mut session = Session::fresh();
    for group in 0..4 {
        session.begin(1);
        for key in (group * 200 + 1..=group * 200 + 200).take_while(|key| *key <= 778) {
            session.insert(1, key, 0);
        }
        session.commit(1);
    }
    session.begin(1);
    session.begin(2);
    for key in 1..=256 {
        assert_eq!(session.read(1, key, key), [Answer::showing(1, 1, Key(key), 0)]);
    }
    assert_eq!(session.insert(2, 779, 0), [Answer::plain(2, 17)], "before 18");
    assert_eq!(session.insert(2, 300, 0), [Answer::plain(2, 17)], "before 16");
    assert_eq!(session.read(2, 300, 300), [Answer::plain(2, 17)], "before 1");
    assert_eq!(session.read(2, 779, 900), [Answer::plain(2, 17)], "before 2");
    assert_eq!(session.delete(2, 779), [Answer::plain(2, 17)], "before 2");
    assert_eq!(session.commit(1), [Answer::plain(1, 0)]);
    assert_eq!(session.insert(2, 779, 0), [Answer::plain(2, 18)]);
}

/// An insert of one's own present key is 16 with its record now.
#[test]
fn an_insert_of_ones_own_present_key_shows_its_record_now() {
    let mut session = settled_with_begun(&[20], 1);
    session.delete(1, 20);
    session.insert(1, 20, 9);
    assert_eq!(session.insert(1, 20, 5), [Answer::showing(1, 16, Key(20), 9)]);
    let x_on_20 = Lock { name: Key(20), holder: 1, mode: Mode::X };
    assert_eq!(session.tables().desk.locks().collect::<Vec<_>>(), [x_on_20], "not weakened");
}

/// An entry that is inserted and then deleted is absent now and before, and is taken out by commit
/// and rollback alike.
#[test]
fn an_entry_absent_now_and_before_is_taken_out_at_the_end() {
    for ends_by_commit in [true, false] {
        let mut session = settled_with_begun(&[], 1);
        session.insert(1, 20, 9);
        assert_eq!(session.delete(1, 20), [Answer::plain(1, 0)]);
        let ghost = Entry { key: Key(20), owner: 1, now: None, before: None };
        assert_eq!(session.tables().index.pages[&1], Page::Leaf(vec![ghost]));
        let answers = if ends_by_commit { session.commit(1) } else { session.rollback(1) };
        assert_eq!(answers, [Answer::plain(1, 0)]);
        assert_eq!(session.tables().index.pages[&1], Page::Leaf(vec![]));
    }
}

/// 1 deletes 20; 2 to 15 take S on 30; 2 to 16 insert 15; 1 commits: thirteen nineteens, newest
/// first, since 2 to 15 hold one lock each. 16 holds none, but came last: nobody waits behind it,
/// and it is on no circle.
#[test]
fn one_commit_gives_thirteen_nineteens() {
    let mut session = settled_with_begun(&[10, 20, 30], 16);
    session.delete(1, 20);
    for transaction in 2..=15 {
        let found = [Answer::showing(transaction, 1, Key(30), 30)];
        assert_eq!(session.read(transaction, 30, 30), found);
    }
    for transaction in 2..=16 {
        assert_eq!(session.insert(transaction, 15, 0), [Answer::waiting(transaction, 1)]);
    }
    let mut expected = vec![Answer::plain(1, 0)];
    expected.extend((3..=15).rev().map(|transaction| Answer::plain(transaction, 19)));
    assert_eq!(expected.len(), 14);
    assert_eq!(session.commit(1), expected);
    assert_eq!(session.tables().desk.queue, [2, 16]);
}

/// A rollback that takes out an inserted entry can close a circle. 2 and 3 hold one lock each.
#[test]
fn a_rollback_can_close_a_circle() {
    let mut session = settled_with_begun(&[10, 30, 50], 3);
    assert_eq!(session.insert(1, 20, 0), [Answer::plain(1, 0)]);
    session.read(2, 50, 50);
    session.read(3, 30, 30);
    assert_eq!(session.insert(2, 15, 0), [Answer::waiting(2, 1)]);
    assert_eq!(session.delete(3, 50), [Answer::waiting(3, 2)]);
    assert_eq!(session.rollback(1), [Answer::plain(1, 0), Answer::plain(3, 19)]);
    assert_eq!(session.tables().desk.queue, [2]);
}

/// Settled 10, 20; 1 reads 12..18; 2 inserts 12: 3; 3 reads 16..18: 3; 1 inserts 15: 0 to 1 and 2
/// to 3.
#[test]
fn a_joining_insert_can_free_others() {
    let mut session = settled_with_begun(&[10, 20], 3);
    assert_eq!(session.read(1, 12, 18), [Answer::plain(1, 2)]);
    assert_eq!(session.insert(2, 12, 0), [Answer::waiting(2, 1)]);
    assert_eq!(session.read(3, 16, 18), [Answer::waiting(3, 2)]);
    let answers = session.insert(1, 15, 0);
    assert_eq!(answers, [Answer::plain(1, 0), Answer::plain(3, 2)]);
}

/// A waiter whose target moves can be overtaken without end. 3 waits to insert 15; 1 and 2 take
/// turns at reading 40 and inserting 20 below it.
#[test]
fn a_waiter_whose_target_moves_is_overtaken_again_and_again() {
    let mut session = settled_with_begun(&[10, 40], 1);
    session.begin(3);
    let found = |transaction| [Answer::showing(transaction, 1, Key(40), 40)];
    assert_eq!(session.read(1, 40, 40), found(1));
    assert_eq!(session.insert(3, 15, 0), [Answer::waiting(3, 1)]);
    let (mut holder, mut other) = (1, 2);
    for _ in 0..20 {
        assert_eq!(session.insert(holder, 20, 0), [Answer::plain(holder, 0)]);
        session.begin(other);
        assert_eq!(session.read(other, 40, 40), found(other));
        assert_eq!(session.rollback(holder), [Answer::plain(holder, 0)]);
        assert_eq!(session.tables().desk.queue, [3]);
        (holder, other) = (other, holder);
    }
    assert_eq!(session.rollback(holder), [Answer::plain(holder, 0), Answer::plain(3, 0)]);
}

/// Sixteen answers in one call. Fifteen wait to read the key that 1 has deleted.
#[test]
fn one_commit_gives_sixteen_answers() {
    let mut session = settled_with_begun(&[10], 16);
    session.delete(1, 10);
    for transaction in 2..=16 {
        assert_eq!(session.read(transaction, 10, 10), [Answer::waiting(transaction, 1)]);
    }
    let mut expected = vec![Answer::plain(1, 0)];
    expected.extend((2..=16).map(|transaction| Answer::plain(transaction, 2)));
    assert_eq!(session.commit(1), expected);
    let s_on_the_end = |holder| Slot::Taken(Lock { name: Key::END, holder, mode: Mode::S });
    let tables = session.tables();
    assert!(tables.desk.slots[..15].iter().copied().eq((2..=16).map(s_on_the_end)));
    assert_eq!(tables.desk.slots[15], Slot::Free);
}

/// "Rollback of a waiting transaction drops its queued request without an answer" (document 01,
/// Working the queue), and frees whoever waited behind it.
#[test]
fn rollback_drops_a_queued_request_and_frees_those_behind_it() {
    let mut session = settled_with_begun(&[20], 3);
    session.read(1, 20, 20);
    assert_eq!(session.delete(2, 20), [Answer::waiting(2, 1)]);
    assert_eq!(session.read(3, 20, 20), [Answer::waiting(3, 2)]);
    let answers = session.rollback(2);
    assert_eq!(answers, [Answer::plain(2, 0), Answer::showing(3, 1, Key(20), 20)]);
}

/// Settled 10, 20. 3 and then 2 hold S on 20; 4 waits there to insert 15. In the way of 5, which
/// inserts 16, are all three: the lowest is named, neither the first in the lock table nor the last
/// in the queue.
#[test]
fn the_lowest_of_two_holders_and_an_earlier_waiter_is_named() {
    let mut session = settled_with_begun(&[10, 20], 5);
    assert_eq!(session.read(3, 12, 18), [Answer::plain(3, 2)]);
    assert_eq!(session.read(2, 12, 18), [Answer::plain(2, 2)]);
    assert_eq!(session.insert(4, 15, 0), [Answer::waiting(4, 2)]);
    assert_eq!(session.insert(5, 16, 0), [Answer::waiting(5, 2)]);
}

/// Settled 10, 20. 3 holds S on 20, and 1 waits there to insert 15. In the way of 2, which inserts
/// 16, are the holder 3 and the earlier waiter 1; in that of 4, which reads 20, the waiters 1 and 2
/// alone.
#[test]
fn an_earlier_waiter_lower_than_the_holder_is_named() {
    let mut session = settled_with_begun(&[10, 20], 4);
    assert_eq!(session.read(3, 12, 18), [Answer::plain(3, 2)]);
    assert_eq!(session.insert(1, 15, 0), [Answer::waiting(1, 3)]);
    assert_eq!(session.insert(2, 16, 0), [Answer::waiting(2, 1)]);
    assert_eq!(session.read(4, 20, 20), [Answer::waiting(4, 1)]);
}

/// Settled 20. 2 and 4 hold S on it, and 1 waits to delete it. When 2 wants to delete it, its own S
/// is not in its way, and excuses it from waiting behind 1: 4 is named, although 1 and 2 are lower.
#[test]
fn an_own_lock_is_not_in_the_way() {
    let mut session = settled_with_begun(&[20], 4);
    session.read(2, 20, 20);
    session.read(4, 20, 20);
    assert_eq!(session.delete(1, 20), [Answer::waiting(1, 2)]);
    assert_eq!(session.delete(2, 20), [Answer::waiting(2, 4)]);
}

/// Settled 20, 30. 5 has deleted both. 1 and 2 wait to read 20, which goes together; 3 waits to
/// delete 30, and nobody else waits there. Only 5 is in the way of each.
#[test]
fn waiters_that_go_together_or_wait_elsewhere_are_not_named() {
    let mut session = settled_with_begun(&[20, 30], 5);
    session.delete(5, 20);
    session.delete(5, 30);
    assert_eq!(session.read(1, 20, 20), [Answer::waiting(1, 5)]);
    assert_eq!(session.read(2, 20, 20), [Answer::waiting(2, 5)]);
    assert_eq!(session.delete(3, 30), [Answer::waiting(3, 5)]);
}

/// Settled 20. 3 holds S on it, and 1 waits there to insert 15. Then 3 inserts 15 itself, and 1 waits
/// there: it is no longer in the way of 2, which inserts 17 below 20.
#[test]
fn a_waiter_whose_target_has_moved_is_not_named() {
    let mut session = settled_with_begun(&[20], 3);
    session.read(3, 20, 20);
    assert_eq!(session.insert(1, 15, 0), [Answer::waiting(1, 3)]);
    assert_eq!(session.insert(3, 15, 0), [Answer::plain(3, 0)]);
    assert_eq!(session.insert(2, 17, 0), [Answer::waiting(2, 3)]);
}

/// S, X and the end count alike. Settled 10, 20. 1 deletes 10: X, one lock. 2 reads 20 and above
/// it: S on 20 and on the end, two locks. They close a circle: 19 to 1, and 2 waits behind 1's X.
#[test]
fn a_lock_on_the_end_counts_and_an_x_counts_once() {
    let mut session = settled_with_begun(&[10, 20], 2);
    assert_eq!(session.delete(1, 10), [Answer::plain(1, 0)]);
    assert_eq!(session.read(2, 20, 20), [Answer::showing(2, 1, Key(20), 20)]);
    assert_eq!(session.read(2, 21, 30), [Answer::plain(2, 2)]);
    assert_eq!(session.delete(1, 20), [Answer::waiting(1, 2)]);
    assert_eq!(session.read(2, 10, 10), [Answer::plain(1, 19), Answer::waiting(2, 1)]);
}

/// Settled 10, 20, 30. 1 reads 10: one S. 2 deletes 20 and 30: two X, and no S. 19 to 1.
#[test]
fn two_x_locks_are_more_than_one_s_lock() {
    let mut session = settled_with_begun(&[10, 20, 30], 2);
    session.read(1, 10, 10);
    session.delete(2, 20);
    session.delete(2, 30);
    assert_eq!(session.read(1, 20, 20), [Answer::waiting(1, 2)]);
    assert_eq!(session.delete(2, 10), [Answer::plain(1, 19), Answer::waiting(2, 1)]);
}

/// Settled 10, 20, 30. 1 holds S on 10 and on 30. 2 holds S on 20 alone and closes the circle: the
/// newest is the lightest, and its 19 is the only answer.
#[test]
fn the_lighter_one_can_be_the_newest() {
    let mut session = settled_with_begun(&[10, 20, 30], 2);
    session.read(1, 10, 10);
    session.read(1, 30, 30);
    session.read(2, 20, 20);
    assert_eq!(session.delete(1, 20), [Answer::waiting(1, 2)]);
    assert_eq!(session.delete(2, 10), [Answer::plain(2, 19)]);
    assert_eq!(session.tables().desk.queue, [1]);
}

/// Locks are those held then, one for each name. 1 has held two and ended, has begun again, and
/// asks for S on 10 twice and then for X: one lock. 2 holds two, S on 20 and on 30. 19 to 1.
#[test]
fn locks_asked_for_again_or_let_go_do_not_count() {
    let mut session = settled_with_begun(&[10, 20, 30], 2);
    session.read(1, 20, 20);
    session.read(1, 30, 30);
    session.commit(1);
    session.begin(1);
    session.read(1, 10, 10);
    session.read(1, 10, 10);
    assert_eq!(session.delete(1, 10), [Answer::plain(1, 0)]);
    session.read(2, 20, 20);
    session.read(2, 30, 30);
    assert_eq!(session.delete(1, 20), [Answer::waiting(1, 2)]);
    assert_eq!(session.read(2, 10, 10), [Answer::plain(1, 19), Answer::waiting(2, 1)]);
}

/// Only those on a circle are looked at. Settled 10, 20. 1 holds S on 10 and 2 S on 20; 3 holds
/// nothing and waits behind both to delete 10, and nobody waits behind 3. Of 1 and 2, with one lock
/// each, the newest goes, and that is 1; 3 stays.
#[test]
fn one_that_holds_fewer_and_is_on_no_circle_is_spared() {
    let mut session = settled_with_begun(&[10, 20], 3);
    session.read(1, 10, 10);
    session.read(2, 20, 20);
    assert_eq!(session.delete(2, 10), [Answer::waiting(2, 1)]);
    assert_eq!(session.delete(3, 10), [Answer::waiting(3, 1)]);
    assert_eq!(session.delete(1, 20), [Answer::plain(1, 19)]);
    assert_eq!(session.tables().desk.queue, [2, 3]);
}

/// One without any lock can lie on a circle, since its request stands in another's way. Settled 10,
/// 20. 1 holds S on 20, where 2 waits to delete; 3 holds S on 10, where 1 waits to delete. When 3
/// asks for S on 20, by whatever request, it waits behind 2, and that closes a circle. 2 holds
/// nothing: 19 to 2. Nothing is in the way of 3 then, since S goes with 1's S, and it runs.
#[test]
fn a_19_to_an_older_one_can_let_the_new_one_run() {
    let setting = || {
        let mut session = settled_with_begun(&[10, 20], 3);
        session.read(1, 20, 20);
        session.read(3, 10, 10);
        assert_eq!(session.delete(2, 20), [Answer::waiting(2, 1)]);
        assert_eq!(session.delete(1, 10), [Answer::waiting(1, 3)]);
        session
    };
    let found = Answer::showing(3, 1, Key(20), 20);
    assert_eq!(setting().read(3, 20, 20), [Answer::plain(2, 19), found]);
    assert_eq!(setting().read(3, 12, 18), [Answer::plain(2, 19), Answer::plain(3, 2)]);
    assert_eq!(setting().delete(3, 15), [Answer::plain(2, 19), Answer::plain(3, 2)]);
    let present = Answer::showing(3, 16, Key(20), 20);
    let mut session = setting();
    assert_eq!(session.insert(3, 20, 7), [Answer::plain(2, 19), present]);
    assert_eq!(session.tables().desk.queue, [1]);
    let s_on_20 = Lock { name: Key(20), holder: 3, mode: Mode::S };
    assert_eq!(session.tables().desk.slots[2], Slot::Taken(s_on_20));
}

/// A 19, a run that it lets happen, and the 3 of the new request, in this order. Settled 10, 20,
/// 30. 1 holds S on 20, where 2 waits to delete, and behind 2 waits 3, which holds S on 30, to read
/// 20; 1 waits to delete 10, where 4 holds S. When 4 deletes 30, the circle is 4, 3, 2, 1. 2 holds
/// nothing: 19 to 2. Then 3 reads 20, beside 1's S, and 4 waits behind 3.
#[test]
fn a_19_can_let_another_run_before_the_3() {
    let mut session = settled_with_begun(&[10, 20, 30], 4);
    session.read(1, 20, 20);
    session.read(3, 30, 30);
    session.read(4, 10, 10);
    assert_eq!(session.delete(2, 20), [Answer::waiting(2, 1)]);
    assert_eq!(session.read(3, 20, 20), [Answer::waiting(3, 2)]);
    assert_eq!(session.delete(1, 10), [Answer::waiting(1, 4)]);
    let found = Answer::showing(3, 1, Key(20), 20);
    let answers = session.delete(4, 30);
    assert_eq!(answers, [Answer::plain(2, 19), found, Answer::waiting(4, 3)]);
    assert_eq!(session.tables().desk.queue, [1, 4]);
}

/// "As it stands at rest" (document 02, [4]), from fresh too. Settled 10, 20, 30. 3 holds S on 20,
/// where 2 waits to delete; 4 holds S on 10 and on 30, and 3 waits to delete 10. When 4 joins to
/// delete 20, the waiter 2 and the holder 3 are in its way, and all three lie on circles. 2 holds
/// nothing: 19 to 2. That leaves the circle of 3 and 4: 3 holds one lock and 4 two: 19 to 3. At
/// rest 3 alone is in the way of 4, and not 2, the lowest when it joined.
#[test]
fn a_3_names_another_than_at_joining_after_two_nineteens() {
    let mut session = settled_with_begun(&[10, 20, 30], 4);
    session.read(3, 20, 20);
    session.read(4, 10, 10);
    session.read(4, 30, 30);
    assert_eq!(session.delete(2, 20), [Answer::waiting(2, 3)]);
    assert_eq!(session.delete(3, 10), [Answer::waiting(3, 4)]);
    let answers = session.delete(4, 20);
    assert_eq!(answers, [Answer::plain(2, 19), Answer::plain(3, 19), Answer::waiting(4, 3)]);
    assert_eq!(session.tables().desk.queue, [4]);
}

/// Two circles that share one: 2 deletes 40, which 1 and 3 hold in S, and both wait for 20, which 2
/// holds in X. 1 and 3 hold two locks each.
fn two_circles_through_2(session: &mut Session) -> Vec<Answer> {
    session.delete(2, 20);
    for (reader, own) in [(1, 50), (3, 60)] {
        session.read(reader, 40, 40);
        session.read(reader, own, own);
    }
    assert_eq!(session.read(1, 20, 20), [Answer::waiting(1, 2)]);
    assert_eq!(session.read(3, 20, 20), [Answer::waiting(3, 2)]);
    session.delete(2, 40)
}

/// 2 holds one lock: its 19 opens both circles, and nobody else is turned away.
#[test]
fn after_a_19_the_circles_are_worked_out_again() {
    let mut session = settled_with_begun(&[20, 40, 50, 60], 3);
    assert_eq!(two_circles_through_2(&mut session), [Answer::plain(2, 19)]);
    assert_eq!(session.tables().desk.queue, [1, 3]);
}

/// 2 holds three locks: of 1 and 3 the newer goes first, and then 1, which is lighter than 2. 2
/// waits, since both still hold 40.
#[test]
fn a_heavy_one_that_joins_can_turn_two_away() {
    let mut session = settled_with_begun(&[20, 40, 50, 60], 3);
    session.read(2, 50, 50);
    session.read(2, 60, 60);
    let answers = two_circles_through_2(&mut session);
    assert_eq!(answers, [Answer::plain(3, 19), Answer::plain(1, 19), Answer::waiting(2, 1)]);
    assert_eq!(session.tables().desk.queue, [2]);
}

/// A circle that a commit closes: as document 01's fourth case, but 3, the newer, holds S on the
/// end besides. 2 holds one lock: 19 to 2; 3 still waits, since 2 keeps its S on 50.
#[test]
fn a_commit_can_turn_the_older_one_away() {
    let mut session = settled_with_begun(&[10, 20, 30, 50], 3);
    session.delete(1, 20);
    session.read(2, 50, 50);
    session.read(3, 30, 30);
    assert_eq!(session.read(3, 60, 70), [Answer::plain(3, 2)]);
    assert_eq!(session.insert(2, 15, 1), [Answer::waiting(2, 1)]);
    assert_eq!(session.delete(3, 50), [Answer::waiting(3, 2)]);
    assert_eq!(session.commit(1), [Answer::plain(1, 0), Answer::plain(2, 19)]);
    assert_eq!(session.tables().desk.queue, [3]);
}
