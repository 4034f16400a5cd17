//! Pictures that are whole and not at rest, made by hand, with outcomes worked out by hand: the
//! rules fix every byte there too.

use model::desk::{Picture, serve};
use model::entry::Entry;
use model::key::Key;
use model::layout::answer::Answer;
use model::layout::desk::{Lock, Mode, Slot, Transaction};
use model::layout::pages::{Child, Index, Page};
use model::layout::request::{KeyRequest, Request, RequestKind};
use model::picture::Tables;
use model::session::Session;
use model::whole::broken_clauses;
use std::collections::BTreeMap;

/// A desk over one leaf with these entries.
fn one_leaf(entries: &[Entry]) -> Tables {
    let mut tables = Tables::fresh();
    tables.index.pages.insert(1, Page::Leaf(entries.to_vec()));
    tables
}

fn settled(key: u64) -> Entry {
    Entry::settled(Key(key), key as u32)
}

fn read(lo: u64, hi: u64) -> KeyRequest {
    KeyRequest::Read { lo: Key(lo), hi: Key(hi) }
}

fn run(tables: &mut Tables, transactions: impl IntoIterator<Item = u16>) {
    for transaction in transactions {
        tables.desk.set_transaction(transaction, Transaction::Running);
    }
}

/// Puts a request at the end of the queue without working it.
fn wait(tables: &mut Tables, transaction: u16, request: KeyRequest) {
    tables.desk.set_transaction(transaction, Transaction::Waiting(request));
    tables.desk.queue.push(transaction);
}

fn lock(tables: &mut Tables, slot: usize, name: u64, holder: u16, mode: Mode) {
    tables.desk.slots[slot] = Slot::Taken(Lock { name: Key(name), holder, mode });
}

/// A session on a picture made by hand, which has to be whole.
fn session_at(tables: &Tables) -> Session {
    let session = Session::at(tables);
    assert_eq!(broken_clauses(&session.picture.pages, &session.picture.desk), []);
    session
}

#[test]
fn begin_works_the_queue() {
    let mut tables = one_leaf(&[]);
    wait(&mut tables, 1, read(5, 5));
    let mut session = session_at(&tables);
    assert_eq!(session.begin(2), [Answer::plain(2, 0), Answer::plain(1, 2)]);
    let s_on_the_end = Lock { name: Key::END, holder: 1, mode: Mode::S };
    assert_eq!(session.tables().desk.locks().collect::<Vec<_>>(), [s_on_the_end]);
    assert_eq!(session.tables().desk.queue, []);
}

/// "Answers 13 to 15 don't work the queue."
#[test]
fn refusals_leave_the_queue_alone() {
    let mut tables = one_leaf(&[]);
    wait(&mut tables, 1, read(5, 5));
    let refused = [
        (1, RequestKind::Begin, 13),
        (2, RequestKind::Commit, 14),
        (2, RequestKind::Rollback, 14),
        (1, RequestKind::Commit, 15),
        (1, RequestKind::Keys(read(7, 8)), 15),
    ];
    for (transaction, kind, number) in refused {
        let mut session = session_at(&tables);
        let answers = session.ask(Request { transaction, kind });
        assert_eq!(answers, [Answer::plain(transaction, number)]);
        assert_eq!(session.tables(), tables);
    }
}

/// The queued insert is older and runs first; the new read then meets its X, and its 3 comes last.
#[test]
fn a_joining_request_runs_after_older_ones() {
    let mut tables = one_leaf(&[]);
    run(&mut tables, [2]);
    wait(&mut tables, 1, KeyRequest::Insert { key: Key(5), record: 8 });
    let mut session = session_at(&tables);
    assert_eq!(session.read(2, 0, 9), [Answer::plain(1, 0), Answer::waiting(2, 1)]);
    assert_eq!(session.commit(1), [Answer::plain(1, 0), Answer::showing(2, 1, Key(5), 8)]);
}

/// 1 and 2 hold one lock each, X on settled entries, and wait for each other; the newest in the
/// queue is 1. Ending leaves a settled entry as it is: commit goes by the owner, not by the X lock.
#[test]
fn of_equals_on_a_circle_the_newest_is_turned_away() {
    let mut tables = one_leaf(&[settled(10), settled(20)]);
    lock(&mut tables, 0, 10, 1, Mode::X);
    lock(&mut tables, 1, 20, 2, Mode::X);
    wait(&mut tables, 2, read(10, 10));
    wait(&mut tables, 1, read(20, 20));
    let mut session = session_at(&tables);
    assert_eq!(session.begin(3), [Answer::plain(3, 0), Answer::plain(1, 19)]);
    assert_eq!(session.tables().desk.queue, [2]);
    let answers = session.commit(1);
    assert_eq!(answers, [Answer::plain(1, 0), Answer::showing(2, 1, Key(10), 10)]);
    assert_eq!(session.tables().index, tables.index);
}

/// When 4 joins to read 12..18, both waiters are in its way at 20: 3 with its insert of 15, and 2.
/// Then 3 and 2 run, and 4 stands before the new key 15: 3 alone is in its way at rest. "As it stands
/// at rest" (document 02, [4]): 2, the lower one at first, is not named.
#[test]
fn a_3_names_who_is_in_the_way_after_the_runs() {
    let mut tables = one_leaf(&[settled(10), settled(20)]);
    run(&mut tables, [4]);
    wait(&mut tables, 3, KeyRequest::Insert { key: Key(15), record: 8 });
    wait(&mut tables, 2, KeyRequest::Delete { key: Key(20) });
    let mut session = session_at(&tables);
    let answers = session.read(4, 12, 18);
    assert_eq!(answers, [Answer::plain(3, 0), Answer::plain(2, 0), Answer::waiting(4, 3)]);
}

/// When 4 joins to read 20, the holder 2 and the earlier waiter 1 are in its way. 1 and 2 wait for
/// each other with one lock each, and 1 is the newer: it gets 19 and leaves, and at rest 2 alone is
/// in the way of 4.
#[test]
fn a_3_names_who_is_in_the_way_after_a_19() {
    let mut tables = one_leaf(&[settled(10), settled(20)]);
    run(&mut tables, [4]);
    lock(&mut tables, 0, 10, 1, Mode::X);
    lock(&mut tables, 1, 20, 2, Mode::X);
    wait(&mut tables, 2, read(10, 10));
    wait(&mut tables, 1, KeyRequest::Delete { key: Key(20) });
    let mut session = session_at(&tables);
    let answers = session.read(4, 20, 20);
    assert_eq!(answers, [Answer::plain(1, 19), Answer::waiting(4, 2)]);
    assert_eq!(session.tables().desk.queue, [2, 4]);
}

/// 4 and 5 hold S on 20. When 4 joins to delete it, 5 alone is in its way: its own lock excuses it
/// from waiting behind 1. Then 1's read runs, and at rest the holder 1 is in its way too.
#[test]
fn a_3_names_one_that_is_in_the_way_only_since_its_run() {
    let mut tables = one_leaf(&[settled(20)]);
    run(&mut tables, [4, 5]);
    lock(&mut tables, 0, 20, 4, Mode::S);
    lock(&mut tables, 1, 20, 5, Mode::S);
    wait(&mut tables, 1, read(20, 20));
    let mut session = session_at(&tables);
    let answers = session.delete(4, 20);
    assert_eq!(answers, [Answer::showing(1, 1, Key(20), 20), Answer::waiting(4, 1)]);
}

/// All hold one lock. Each circle loses its newest, the newest of all first.
#[test]
fn two_circles_are_broken_one_after_the_other() {
    let mut tables = one_leaf(&[settled(10), settled(20), settled(30), settled(40)]);
    for transaction in 1..=4u16 {
        let name = u64::from(transaction) * 10;
        lock(&mut tables, usize::from(transaction), name, transaction, Mode::X);
    }
    wait(&mut tables, 1, read(20, 20));
    wait(&mut tables, 3, read(40, 40));
    wait(&mut tables, 2, read(10, 10));
    wait(&mut tables, 4, read(30, 30));
    let mut session = session_at(&tables);
    let answers = session.begin(5);
    assert_eq!(answers, [Answer::plain(5, 0), Answer::plain(4, 19), Answer::plain(2, 19)]);
    assert_eq!(session.tables().desk.queue, [1, 3]);
}

/// "The one whose transaction holds the fewest locks" (document 02, [14]) of all who lie on any
/// circle, together. 1 and 2 wait for each other, with three locks and two; so do 3 and 4, with one
/// and two. The oldest and the newest in the queue are 1 and 2, but 3 goes first. Then nobody waits
/// for 3 but 4, and of 1 and 2 it is 2.
#[test]
fn the_lightest_of_two_circles_goes_first() {
    let keys = [10, 20, 30, 40, 50, 60];
    let mut tables = one_leaf(&keys.map(settled));
    let locks = [(10, 1), (20, 2), (30, 3), (40, 4)];
    let extra_locks = [(50, 1), (60, 1), (50, 2), (60, 4)];
    for (slot, (name, holder)) in locks.into_iter().enumerate() {
        lock(&mut tables, slot, name, holder, Mode::X);
    }
    for (slot, (name, holder)) in extra_locks.into_iter().enumerate() {
        lock(&mut tables, 100 + slot, name, holder, Mode::S);
    }
    wait(&mut tables, 1, read(20, 20));
    wait(&mut tables, 3, read(40, 40));
    wait(&mut tables, 4, read(30, 30));
    wait(&mut tables, 2, read(10, 10));
    let mut session = session_at(&tables);
    let answers = session.begin(5);
    assert_eq!(answers, [Answer::plain(5, 0), Answer::plain(3, 19), Answer::plain(2, 19)]);
    assert_eq!(session.tables().desk.queue, [1, 4]);
}

/// 1 and 2 wait for each other; 1 is older and holds X on 10, one lock; 2 is newer and holds X on
/// 20 and on the end, two locks. 19 to 1 in the call of 3, which is on no circle and holds nothing,
/// and then 3 to it: 2 is in its way.
#[test]
fn one_that_joins_beside_a_circle_turns_its_lightest_away() {
    let mut tables = one_leaf(&[settled(10), settled(20)]);
    run(&mut tables, [3]);
    lock(&mut tables, 0, 10, 1, Mode::X);
    lock(&mut tables, 1, 20, 2, Mode::X);
    lock(&mut tables, 2, u64::MAX, 2, Mode::X);
    wait(&mut tables, 1, read(20, 20));
    wait(&mut tables, 2, read(10, 10));
    let mut session = session_at(&tables);
    assert_eq!(session.read(3, 30, 30), [Answer::plain(1, 19), Answer::waiting(3, 2)]);
    assert_eq!(session.tables().desk.queue, [2, 3]);
}

/// 3 is the newest, holds nothing and waits behind the circle of 1 and 2, but isn't on it. Those
/// two hold one lock each.
#[test]
fn whoever_only_waits_behind_a_circle_is_spared() {
    let mut tables = one_leaf(&[settled(10), settled(20)]);
    lock(&mut tables, 0, 10, 1, Mode::X);
    lock(&mut tables, 1, 20, 2, Mode::X);
    wait(&mut tables, 1, read(20, 20));
    wait(&mut tables, 2, read(10, 10));
    wait(&mut tables, 3, read(10, 10));
    let mut session = session_at(&tables);
    assert_eq!(session.begin(4), [Answer::plain(4, 0), Answer::plain(2, 19)]);
    assert_eq!(session.tables().desk.queue, [1, 3]);
}

/// Sixteen wait, none blocked, newest transaction first. Rollback of 7 drops its request; the other
/// fifteen run in the order of the queue and take the slots from the lowest.
#[test]
fn sixteen_waiting_and_a_rollback_give_sixteen_answers() {
    let mut tables = one_leaf(&[]);
    for transaction in (1..=16).rev() {
        wait(&mut tables, transaction, read(5, 5));
    }
    let mut session = session_at(&tables);
    let others: Vec<u16> = (1..=16).rev().filter(|transaction| *transaction != 7).collect();
    let mut expected = vec![Answer::plain(7, 0)];
    expected.extend(others.iter().map(|transaction| Answer::plain(*transaction, 2)));
    assert_eq!(session.rollback(7), expected);
    let holders = session.tables().desk.slots;
    let s_on_the_end = |holder| Slot::Taken(Lock { name: Key::END, holder, mode: Mode::S });
    assert!(holders[..15].iter().copied().eq(others.into_iter().map(s_on_the_end)));
}

/// Each of sixteen owns a key and waits for the next one's. When 1 rolls back, its key 10 goes, and
/// 16, which read 10..10, now stands before 20: a circle of fifteen is left, with one lock each,
/// and 16 is its newest.
#[test]
fn a_circle_of_sixteen_becomes_one_of_fifteen() {
    let own_key = |transaction: u16| u64::from(transaction) * 10;
    let entries: Vec<Entry> = (1..=16)
        .map(|transaction| Entry::inserted(Key(own_key(transaction)), 0, transaction))
        .collect();
    let mut tables = one_leaf(&entries);
    for transaction in 1..=16 {
        lock(&mut tables, transaction.into(), own_key(transaction), transaction, Mode::X);
        let next = own_key(transaction % 16 + 1);
        wait(&mut tables, transaction, read(next, next));
    }
    let mut session = session_at(&tables);
    assert_eq!(session.rollback(1), [Answer::plain(1, 0), Answer::plain(16, 19)]);
    assert_eq!(session.tables().desk.queue, (2..=15).collect::<Vec<u16>>());
}

/// X on the end keeps others from inserting above all keys; for its holder the instant lock is free
/// and the new key takes its own slot.
#[test]
fn x_on_the_end_is_a_lock_like_any_other() {
    let mut tables = one_leaf(&[settled(10)]);
    run(&mut tables, [1, 2]);
    lock(&mut tables, 0, u64::MAX, 1, Mode::X);
    let mut session = session_at(&tables);
    assert_eq!(session.insert(2, 99, 6), [Answer::waiting(2, 1)]);
    assert_eq!(session.insert(1, 99, 7), [Answer::plain(1, 0)]);
    let x_on_99 = Lock { name: Key(99), holder: 1, mode: Mode::X };
    assert_eq!(session.tables().desk.slots[1], Slot::Taken(x_on_99));
    let answers = session.commit(1);
    assert_eq!(answers, [Answer::plain(1, 0), Answer::showing(2, 16, Key(99), 7)]);
}

/// "A new lock takes the lowest free slot; a released one is zeroed."
#[test]
fn holes_in_the_lock_table_are_filled_from_the_lowest() {
    let mut tables = one_leaf(&[settled(10), settled(20)]);
    run(&mut tables, [1, 2, 4]);
    lock(&mut tables, 0, 10, 1, Mode::S);
    lock(&mut tables, 2, 20, 2, Mode::S);
    lock(&mut tables, 5, 10, 2, Mode::S);
    let mut session = session_at(&tables);
    session.read(4, 20, 20);
    session.read(4, 21, 21);
    session.read(4, 10, 10);
    session.rollback(2);
    session.read(1, 20, 20);
    let taken = |name, holder| Slot::Taken(Lock { name, holder, mode: Mode::S });
    let expected = [
        taken(Key(10), 1),
        taken(Key(20), 4),
        taken(Key(20), 1),
        taken(Key::END, 4),
        taken(Key(10), 4),
        Slot::Free,
    ];
    assert_eq!(session.tables().desk.slots[..6], expected);
}

/// Pages may be numbered in any order; a new page still takes the next unused number.
#[test]
fn a_split_under_another_page_numbering() {
    let low_leaf: Vec<Entry> = (1..=24).map(settled).collect();
    let child = |separator, page| Child { separator: Key(separator), page };
    let pages = BTreeMap::from([
        (1, Page::Leaf(vec![settled(100)])),
        (2, Page::Inner { level: 1, children: vec![child(0, 3), child(50, 1)] }),
        (3, Page::Leaf(low_leaf)),
    ]);
    let mut tables = Tables { index: Index { root: 2, height: 2, pages }, ..Tables::fresh() };
    run(&mut tables, [1]);
    let mut session = session_at(&tables);
    assert_eq!(session.insert(1, 30, 0), [Answer::plain(1, 0)]);
    let index = session.tables().index;
    assert_eq!((index.root, index.used(), index.height), (2, 5, 2));
    assert_eq!(index.pages[&2].children(), [child(0, 3), child(14, 4), child(50, 1)]);
    let keys: Vec<u64> = index.pages[&4].entries().iter().map(|entry| entry.key.0).collect();
    assert_eq!(keys, [14, 15, 16, 17, 18, 19, 20, 21, 22, 23, 24, 30]);
}

/// 1 holds X on a settled entry and on two of its own; commit and rollback touch its own alone.
#[test]
fn ending_goes_by_the_owner() {
    let ghost = Entry { key: Key(20), owner: 1, now: None, before: Some(2) };
    let changed = Entry { key: Key(30), owner: 1, now: Some(9), before: Some(3) };
    let mut tables = one_leaf(&[settled(10), ghost, changed]);
    run(&mut tables, [1]);
    for (slot, name) in [(0, 10), (1, 20), (2, 30)] {
        lock(&mut tables, slot, name, 1, Mode::X);
    }
    let mut session = session_at(&tables);
    session.commit(1);
    let after = one_leaf(&[settled(10), Entry::settled(Key(30), 9)]);
    assert_eq!(session.tables(), after);

    let mut session = session_at(&tables);
    session.rollback(1);
    let after = one_leaf(&[settled(10), Entry::settled(Key(20), 2), Entry::settled(Key(30), 3)]);
    assert_eq!(session.tables(), after);
}

/// All sixteen hold S on each of sixteen keys: no slot is left. The queued read of the end needs
/// one and gets 17; the new read of a key it holds already needs none.
#[test]
fn a_queued_request_that_needs_a_slot_gets_17() {
    let entries: Vec<Entry> = (1..=16).map(settled).collect();
    let mut tables = one_leaf(&entries);
    run(&mut tables, 1..=16);
    for slot in 0..256usize {
        lock(&mut tables, slot, slot as u64 / 16 + 1, slot as u16 % 16 + 1, Mode::S);
    }
    wait(&mut tables, 2, read(99, 99));
    let mut session = session_at(&tables);
    let answers = session.read(4, 10, 10);
    assert_eq!(answers, [Answer::plain(2, 17), Answer::showing(4, 1, Key(10), 10)]);
    assert_eq!(session.tables().desk.slots, tables.desk.slots);
}

/// "Answer bytes beyond those written keep their values", here with fewer answers than room.
#[test]
fn answer_bytes_beyond_those_written_keep_their_values() {
    let mut tables = one_leaf(&[]);
    wait(&mut tables, 1, read(5, 5));
    let Picture { mut pages, mut desk } = tables.encode();
    let mut answers = [0xAB; 400];
    let begin_2 = [8, 0, 1, 0, 2, 0, 0, 0];
    let returned = serve(&mut pages, &mut desk, &mut answers, &begin_2);
    assert_eq!((returned.number, returned.written), (0, 40));
    assert_eq!(answers[..4], [20, 0, 7, 0]);
    assert_eq!(answers[20..28], [20, 0, 7, 0, 1, 0, 2, 0]);
    assert_eq!(answers[40..], [0xAB; 360]);
}
