//! Every case of document 01, "Overs to bowl at it", in its order, its 3 with the name that
//! document 02, [4], adds; and the case that [14] adds, in which the older loses. What is expected
//! was worked out from the documents by hand.

use model::desk::{Picture, fresh, serve};
use model::entry::Entry;
use model::key::Key;
use model::layout::answer::Answer;
use model::layout::desk::{Lock, Mode, Slot, Transaction};
use model::layout::pages::{Child, Page};
use model::layout::request::KeyRequest;
use model::session::Session;

/// Asks a request by its bytes and gives the answer bytes.
fn ask_bytes(pages: &mut [u8], desk: &mut [u8], request: &[u8]) -> Vec<u8> {
    let mut answers = [0xEE; 320];
    let returned = serve(pages, desk, &mut answers, request);
    assert_eq!(returned.number, 0);
    answers[..returned.written].to_vec()
}

/// "Fresh; 1 begins, inserts 100 with record 7; 2 begins, reads 50..150: 3. Then 1 commits. The
/// commit writes, whole: ..."
#[test]
fn a_commit_answers_the_waiting_read_byte_for_byte() {
    let mut picture = fresh();
    let (pages, desk) = (&mut picture.pages, &mut picture.desk);
    let begin_1 = [8, 0, 1, 0, 1, 0, 0, 0];
    let insert_100 = [24, 0, 5, 0, 1, 0, 0, 0, 100, 0, 0, 0, 0, 0, 0, 0, 7, 0, 0, 0, 0, 0, 0, 0];
    let begin_2 = [8, 0, 1, 0, 2, 0, 0, 0];
    let read_50_150 = [24, 0, 4, 0, 2, 0, 0, 0, 50, 0, 0, 0, 0, 0, 0, 0, 150, 0, 0, 0, 0, 0, 0, 0];
    let commit_1 = [8, 0, 2, 0, 1, 0, 0, 0];
    let done_1 = [20, 0, 7, 0, 1, 0, 0, 0, 0, 0, 0, 0, 0, 0, 0, 0, 0, 0, 0, 0];
    let done_2 = [20, 0, 7, 0, 2, 0, 0, 0, 0, 0, 0, 0, 0, 0, 0, 0, 0, 0, 0, 0];
    let behind_1 = [20, 0, 7, 0, 2, 0, 3, 0, 0, 0, 0, 0, 0, 0, 0, 0, 1, 0, 0, 0];

    assert_eq!(ask_bytes(pages, desk, &begin_1), done_1);
    assert_eq!(ask_bytes(pages, desk, &insert_100), done_1);
    assert_eq!(ask_bytes(pages, desk, &begin_2), done_2);
    assert_eq!(ask_bytes(pages, desk, &read_50_150), behind_1);
    let expected = [
        0x14, 0x00, 0x07, 0x00, 0x01, 0x00, 0x00, 0x00, // 0 to 1
        0, 0, 0, 0, 0, 0, 0, 0, 0, 0, 0, 0, // twelve zeros
        0x14, 0x00, 0x07, 0x00, 0x02, 0x00, 0x01, 0x00, // 1 to 2
        0x64, 0x00, 0x00, 0x00, 0x00, 0x00, 0x00, 0x00, 0x07, 0x00, 0x00,
        0x00, // 100, record 7
    ];
    assert_eq!(ask_bytes(pages, desk, &commit_1), expected);

    let mut expected_after = fresh();
    let head_and_entry = [
        0x00, 0x02, 2, 0, 1, 0, 0, 0, 0, 0, 0, 0, 0, 0, 0,
        0, // length, kind, count, level, zeros
        100, 0, 0, 0, 0, 0, 0, 0, 7, 0, 0, 0, 7, 0, 0, 0, 0, 0, 3, 0, // settled 100, record 7
    ];
    expected_after.pages[512..512 + 36].copy_from_slice(&head_and_entry);
    let (transaction_2, slot_0) = (64 + 32, 64 + 16 * 32);
    expected_after.desk[transaction_2] = 1;
    let s_on_100_for_2 = [100, 0, 0, 0, 0, 0, 0, 0, 2, 0, 1, 0, 0, 0, 0, 0];
    expected_after.desk[slot_0..slot_0 + 16].copy_from_slice(&s_on_100_for_2);
    assert_eq!(picture, expected_after);
}

/// "Settled 10, 20; 1 reads 12..18: 2. 2 inserts 15: 3. 1 reads again: 2. 1 commits: 0 to 1, 0 to
/// 2."
#[test]
fn a_read_that_finds_nothing_holds_its_gap() {
    let mut session = Session::settled(&[10, 20]);
    session.begin(1);
    session.begin(2);
    assert_eq!(session.read(1, 12, 18), [Answer::plain(1, 2)]);
    assert_eq!(session.insert(2, 15, 1), [Answer::waiting(2, 1)]);
    assert_eq!(session.read(1, 12, 18), [Answer::plain(1, 2)]);
    assert_eq!(session.commit(1), [Answer::plain(1, 0), Answer::plain(2, 0)]);
}

/// "Settled 10, 20; 1 and 2 read 12..18; 1 inserts 15: 3; 2 inserts 16: 19; 2 rolls back: 0 to 2,
/// 0 to 1." Both hold one lock, S on 20: of equals the newest.
#[test]
fn two_readers_of_a_gap_that_both_insert_make_a_circle() {
    let mut session = Session::settled(&[10, 20]);
    session.begin(1);
    session.begin(2);
    assert_eq!(session.read(1, 12, 18), [Answer::plain(1, 2)]);
    assert_eq!(session.read(2, 12, 18), [Answer::plain(2, 2)]);
    assert_eq!(session.insert(1, 15, 1), [Answer::waiting(1, 2)]);
    assert_eq!(session.insert(2, 16, 1), [Answer::plain(2, 19)]);
    assert_eq!(session.rollback(2), [Answer::plain(2, 0), Answer::plain(1, 0)]);
}

/// "Settled 10, 20, 30, 50. 1 deletes 20; 2 reads 50..50; 3 reads 30..30; 2 inserts 15: 3; 3
/// deletes 50: 3. 1 commits: 0 to 1, 19 to 3; 2 still waits, now at 30." 2 and 3 hold one lock
/// each.
#[test]
fn a_commit_can_close_a_circle() {
    let mut session = Session::settled(&[10, 20, 30, 50]);
    for transaction in 1..=3 {
        session.begin(transaction);
    }
    assert_eq!(session.delete(1, 20), [Answer::plain(1, 0)]);
    assert_eq!(session.read(2, 50, 50), [Answer::showing(2, 1, Key(50), 50)]);
    assert_eq!(session.read(3, 30, 30), [Answer::showing(3, 1, Key(30), 30)]);
    assert_eq!(session.insert(2, 15, 1), [Answer::waiting(2, 1)]);
    assert_eq!(session.delete(3, 50), [Answer::waiting(3, 2)]);
    assert_eq!(session.commit(1), [Answer::plain(1, 0), Answer::plain(3, 19)]);

    let tables = session.tables();
    let insert_15 = KeyRequest::Insert { key: Key(15), record: 1 };
    assert_eq!(tables.desk.queue, [2]);
    assert_eq!(tables.desk.transaction(2), Transaction::Waiting(insert_15));
    assert_eq!(tables.desk.transaction(3), Transaction::Running);
    assert_eq!(tables.target(2, insert_15).name, Key(30));
    assert_eq!(session.rollback(3), [Answer::plain(3, 0), Answer::plain(2, 0)]);
}

/// Document 02, [14]: "of the queued requests on a circle, the one whose transaction holds the
/// fewest locks is answered 19". Settled 10, 20, 30, 40 with records 1, 2, 3, 4; 1 reads 10..10; 2
/// reads 20..20, 30..30 and 40..40; 1 deletes 20: 3, 2 is in its way; 2 deletes 10: 19 to 1, which
/// holds one lock, and then 3 to 2, which holds three and waits behind 1.
#[test]
fn the_lighter_one_gives_way_though_it_is_older() {
    let mut session = Session::fresh();
    session.begin(16);
    for (key, record) in [(10, 1), (20, 2), (30, 3), (40, 4)] {
        session.insert(16, key, record);
    }
    session.commit(16);
    session.begin(1);
    session.begin(2);
    assert_eq!(session.read(1, 10, 10), [Answer::showing(1, 1, Key(10), 1)]);
    assert_eq!(session.read(2, 20, 20), [Answer::showing(2, 1, Key(20), 2)]);
    assert_eq!(session.read(2, 30, 30), [Answer::showing(2, 1, Key(30), 3)]);
    assert_eq!(session.read(2, 40, 40), [Answer::showing(2, 1, Key(40), 4)]);
    assert_eq!(session.delete(1, 20), [Answer::waiting(1, 2)]);

    let delete_10 = [16, 0, 6, 0, 2, 0, 0, 0, 10, 0, 0, 0, 0, 0, 0, 0];
    let expected = [
        20, 0, 7, 0, 1, 0, 19, 0, 0, 0, 0, 0, 0, 0, 0, 0, 0, 0, 0, 0, // 19 to 1
        20, 0, 7, 0, 2, 0, 3, 0, 0, 0, 0, 0, 0, 0, 0, 0, 1, 0, 0, 0, // 3 to 2, behind 1
    ];
    let Picture { pages, desk } = &mut session.picture;
    assert_eq!(ask_bytes(pages, desk, &delete_10), expected);

    let tables = session.tables();
    assert_eq!(tables.desk.queue, [2]);
    assert_eq!(tables.desk.transaction(1), Transaction::Running);
    let delete_10 = KeyRequest::Delete { key: Key(10) };
    assert_eq!(tables.desk.transaction(2), Transaction::Waiting(delete_10));
    let s_on = |key, holder| Lock { name: Key(key), holder, mode: Mode::S };
    let locks = [s_on(10, 1), s_on(20, 2), s_on(30, 2), s_on(40, 2)];
    assert_eq!(tables.desk.locks().collect::<Vec<_>>(), locks);
    assert_eq!(session.rollback(1), [Answer::plain(1, 0), Answer::plain(2, 0)]);
}

/// "1 deletes 20 (settled) and inserts it with record 9; rollback gives the old record."
#[test]
fn rollback_gives_the_old_record() {
    let mut session = Session::fresh();
    session.begin(16);
    session.insert(16, 20, 4);
    session.commit(16);
    session.begin(1);
    assert_eq!(session.delete(1, 20), [Answer::plain(1, 0)]);
    assert_eq!(session.insert(1, 20, 9), [Answer::plain(1, 0)]);
    assert_eq!(session.read(1, 20, 20), [Answer::showing(1, 1, Key(20), 9)]);
    assert_eq!(session.rollback(1), [Answer::plain(1, 0)]);
    let settled = Entry { key: Key(20), owner: 0, now: Some(4), before: Some(4) };
    assert_eq!(session.tables().index.pages[&1], Page::Leaf(vec![settled]));
    session.begin(2);
    assert_eq!(session.read(2, 0, 99), [Answer::showing(2, 1, Key(20), 4)]);
}

/// "Key 2^64-2 is taken, 2^64-1 is 12; read 5..4 is 12."
#[test]
fn the_highest_key_is_taken_and_the_end_is_not() {
    let mut session = Session::fresh();
    session.begin(1);
    assert_eq!(session.insert(1, u64::MAX - 1, 3), [Answer::plain(1, 0)]);
    let highest = Answer::showing(1, 1, Key(u64::MAX - 1), 3);
    assert_eq!(session.read(1, 0, u64::MAX - 1), [highest]);

    let insert_end =
        [24, 0, 5, 0, 1, 0, 0, 0, 255, 255, 255, 255, 255, 255, 255, 255, 3, 0, 0, 0, 0, 0, 0, 0];
    let read_5_4 = [24, 0, 4, 0, 1, 0, 0, 0, 5, 0, 0, 0, 0, 0, 0, 0, 4, 0, 0, 0, 0, 0, 0, 0];
    for request in [insert_end, read_5_4] {
        let mut picture = session.picture.clone();
        let mut answers = [0xEE; 320];
        let returned = serve(&mut picture.pages, &mut picture.desk, &mut answers, &request);
        assert_eq!((returned.number, returned.written), (12, 0));
        assert_eq!(picture, session.picture);
        assert_eq!(answers, [0xEE; 320]);
    }
}

/// "Empty index: read takes S on the end."
#[test]
fn a_read_of_the_empty_index_locks_the_end() {
    let mut session = Session::fresh();
    session.begin(1);
    assert_eq!(session.read(1, 0, 5), [Answer::plain(1, 2)]);
    let s_on_the_end = Lock { name: Key(u64::MAX), holder: 1, mode: Mode::S };
    let tables = session.tables();
    assert_eq!(tables.desk.slots[0], Slot::Taken(s_on_the_end));
    assert!(tables.desk.slots[1..].iter().all(|slot| *slot == Slot::Free));
}

/// "Sole S holder deletes that key while another's delete of it waits: granted."
#[test]
fn the_sole_s_holder_upgrades_past_a_waiting_delete() {
    let mut session = Session::settled(&[20]);
    session.begin(1);
    session.begin(2);
    session.read(1, 20, 20);
    assert_eq!(session.delete(2, 20), [Answer::waiting(2, 1)]);
    assert_eq!(session.delete(1, 20), [Answer::plain(1, 0)]);
    let tables = session.tables();
    let x_on_20 = Lock { name: Key(20), holder: 1, mode: Mode::X };
    assert_eq!(tables.desk.slots[0], Slot::Taken(x_on_20), "X replaces S in its slot");
    assert_eq!(tables.desk.slots[1], Slot::Free);
    assert_eq!(tables.desk.queue, [2]);
    assert_eq!(session.commit(1), [Answer::plain(1, 0), Answer::plain(2, 2)]);
}

/// "One transaction inserts 1..24: one leaf. 25: separator 14, used 4."
#[test]
fn the_25th_key_splits_the_leaf() {
    let mut session = Session::fresh();
    session.begin(1);
    for key in 1..=24 {
        assert_eq!(session.insert(1, key, 0), [Answer::plain(1, 0)]);
    }
    let index = session.tables().index;
    assert_eq!((index.root, index.used(), index.height), (1, 2, 1));
    assert_eq!(index.pages[&1].entries().len(), 24);

    assert_eq!(session.insert(1, 25, 0), [Answer::plain(1, 0)]);
    let index = session.tables().index;
    assert_eq!((index.root, index.used(), index.height), (3, 4, 2));
    let keys = |page: u16| index.pages[&page].entries().iter().map(|entry| entry.key.0);
    assert!(keys(1).eq(1..=13));
    assert!(keys(2).eq(14..=25));
    let children =
        vec![Child { separator: Key(0), page: 1 }, Child { separator: Key(14), page: 2 }];
    assert_eq!(index.pages[&3], Page::Inner { level: 1, children });
}

/// "256 inserts: done; the 257th: 17."
#[test]
fn the_257th_lock_is_refused() {
    let mut session = Session::fresh();
    session.begin(1);
    for key in 1..=256 {
        assert_eq!(session.insert(1, key, 0), [Answer::plain(1, 0)]);
    }
    let before = session.picture.clone();
    assert_eq!(session.insert(1, 257, 0), [Answer::plain(1, 17)]);
    assert_eq!(session.picture, before, "no lock is taken and the transaction keeps what it has");
}

/// "Ascending keys, settled in groups: 778 fit; the 779th is 18. Delete 778, commit; 779 then
/// fits."
#[test]
fn the_779th_ascending_key_finds_no_page_until_one_is_deleted() {
    let mut session = Session::fresh();
    for key in 1..=778 {
        if key % 200 == 1 {
            session.begin(1);
        }
        assert_eq!(session.insert(1, key, 0), [Answer::plain(1, 0)]);
        if key % 200 == 0 || key == 778 {
            session.commit(1);
        }
    }
    session.begin(2);
    let before = session.picture.clone();
    assert_eq!(session.tables().index.used(), 64);
    assert_eq!(session.insert(2, 779, 0), [Answer::plain(2, 18)]);
    assert_eq!(session.picture, before, "no lock is taken");
    assert_eq!(session.delete(2, 778), [Answer::plain(2, 0)]);
    assert_eq!(session.insert(2, 779, 0), [Answer::plain(2, 18)], "a ghost keeps its room");
    assert_eq!(session.commit(2), [Answer::plain(2, 0)]);
    session.begin(2);
    assert_eq!(session.insert(2, 779, 0), [Answer::plain(2, 0)]);
    assert_eq!(session.tables().index.used(), 64);
}
