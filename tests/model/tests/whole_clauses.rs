//! Each clause of document 01, **Whole**: pictures that break it and, where the rules allow, it
//! alone. Every one of them is refused with 11 and left as it is.

use model::desk::{Picture, serve};
use model::entry::Entry;
use model::key::Key;
use model::layout::desk::{Lock, Mode, Slot, Transaction, queue_at, slot_at, transaction_at};
use model::layout::pages::{Child, Index, Page, child_at, entry_at, page_at};
use model::layout::request::KeyRequest;
use model::picture::Tables;
use model::whole::{Clause, broken_clauses, whole};
use std::collections::BTreeMap;

fn settled(key: u64) -> Entry {
    Entry::settled(Key(key), key as u32)
}

fn child(separator: u64, page: u16) -> Child {
    Child { separator: Key(separator), page }
}

fn taken(name: Key, holder: u16, mode: Mode) -> Slot {
    Slot::Taken(Lock { name, holder, mode })
}

/// A whole picture with something of everything: root page 3 over the leaves 1 and 2; a settled
/// entry, a ghost and an inserted entry of transaction 1; 2, 3 and 4 waiting with one kind of
/// request each; S locks shared by 2 and 5, and one on the end.
fn something_of_everything() -> Tables {
    let ghost = Entry { key: Key(20), owner: 1, now: None, before: Some(5) };
    let inserted = Entry { key: Key(30), owner: 1, now: Some(6), before: None };
    let mut tables = Tables::fresh();
    tables.index = Index {
        root: 3,
        height: 2,
        pages: BTreeMap::from([
            (1, Page::Leaf(vec![settled(10), ghost, inserted])),
            (2, Page::Leaf(vec![settled(50), settled(60)])),
            (3, Page::Inner { level: 1, children: vec![child(0, 1), child(50, 2)] }),
        ]),
    };
    let requests = [
        KeyRequest::Read { lo: Key(20), hi: Key(25) },
        KeyRequest::Insert { key: Key(15), record: 3 },
        KeyRequest::Delete { key: Key(30) },
    ];
    for (transaction, request) in (2..).zip(requests) {
        tables.desk.set_transaction(transaction, Transaction::Waiting(request));
        tables.desk.queue.push(transaction);
    }
    tables.desk.set_transaction(1, Transaction::Running);
    tables.desk.set_transaction(5, Transaction::Running);
    tables.desk.slots[0] = taken(Key(20), 1, Mode::X);
    tables.desk.slots[1] = taken(Key(30), 1, Mode::X);
    tables.desk.slots[2] = taken(Key(50), 2, Mode::S);
    tables.desk.slots[3] = taken(Key(50), 5, Mode::S);
    tables.desk.slots[4] = taken(Key::END, 5, Mode::S);
    tables
}

/// A whole picture of three levels: root page 33 over the inner pages 31 and 32, each over fifteen
/// leaves 100 apart with one key in each.
fn three_levels() -> Tables {
    let mut tables = Tables::fresh();
    let low = |place: u16| u64::from(place) * 100;
    let mut pages: BTreeMap<u16, Page> =
        (0..30).map(|place| (place + 1, Page::Leaf(vec![settled(low(place) + 5)]))).collect();
    for (page, first) in [(31, 0), (32, 15)] {
        let mut children: Vec<Child> =
            (first..first + 15).map(|place| child(low(place), place + 1)).collect();
        children[0].separator = Key(0);
        pages.insert(page, Page::Inner { level: 1, children });
    }
    let children = vec![child(0, 31), child(1500, 32)];
    pages.insert(33, Page::Inner { level: 2, children });
    tables.index = Index { root: 33, height: 3, pages };
    tables
}

/// The picture breaks exactly these clauses; the desk says 11 and changes nothing.
fn assert_breaks(picture: &Picture, expected: &[Clause], what: &str) {
    assert_eq!(broken_clauses(&picture.pages, &picture.desk), expected, "{what}");
    assert!(!whole(&picture.pages, &picture.desk), "{what}");
    let Picture { mut pages, mut desk } = picture.clone();
    let mut answers = [0x77; 320];
    let begin_9 = [8, 0, 1, 0, 9, 0, 0, 0];
    let returned = serve(&mut pages, &mut desk, &mut answers, &begin_9);
    assert_eq!((returned.number, returned.written), (11, 0), "{what}");
    assert_eq!((&pages, &desk), (&picture.pages, &picture.desk), "{what}");
    assert_eq!(answers, [0x77; 320], "{what}");
}

/// The same for a damage to the plain values of `something_of_everything`.
fn assert_damage_breaks(expected: &[Clause], what: &str, damage: fn(&mut Tables)) {
    let mut tables = something_of_everything();
    damage(&mut tables);
    assert_breaks(&tables.encode(), expected, what);
}

/// The same for a damage to `three_levels`.
fn assert_deep_damage_breaks(expected: &[Clause], what: &str, damage: fn(&mut Tables)) {
    let mut tables = three_levels();
    damage(&mut tables);
    assert_breaks(&tables.encode(), expected, what);
}

fn entries(tables: &mut Tables, page: u16) -> &mut Vec<Entry> {
    match tables.index.pages.get_mut(&page) {
        Some(Page::Leaf(entries)) => entries,
        _ => panic!("page {page} is a leaf"),
    }
}

fn children(tables: &mut Tables, page: u16) -> &mut Vec<Child> {
    match tables.index.pages.get_mut(&page) {
        Some(Page::Inner { children, .. }) => children,
        _ => panic!("page {page} is an inner page"),
    }
}

fn set_level(tables: &mut Tables, page: u16, to: u16) {
    match tables.index.pages.get_mut(&page) {
        Some(Page::Inner { level, .. }) => *level = to,
        _ => panic!("page {page} is an inner page"),
    }
}

#[test]
fn the_pictures_to_be_damaged_are_whole() {
    for tables in [something_of_everything(), three_levels()] {
        let picture = tables.encode();
        assert_eq!(broken_clauses(&picture.pages, &picture.desk), []);
        assert!(whole(&picture.pages, &picture.desk));
    }
}

enum Part {
    Pages,
    Desk,
}

/// "These layouts": sets one byte at a time, at an offset to a value, in `something_of_everything`.
fn assert_bytes_break(part: Part, damages: &[(usize, u8, &str)]) {
    for (at, value, what) in damages {
        let mut picture = something_of_everything().encode();
        let byte = match part {
            Part::Pages => &mut picture.pages[*at],
            Part::Desk => &mut picture.desk[*at],
        };
        assert_ne!(*byte, *value, "{what}");
        *byte = *value;
        assert_breaks(&picture, &[Clause::Layouts], what);
    }
}

#[test]
fn layout_of_page_0() {
    assert_bytes_break(
        Part::Pages,
        &[
            (0, 1, "page 0: length 513"),
            (1, 3, "page 0: length 768"),
            (2, 0, "page 0: kind 0"),
            (2, 2, "page 0: kind 2"),
            (3, 1, "page 0: kind 257"),
            (4, 1, "page 0: count 1"),
            (6, 1, "page 0: level 1"),
            (8, 1, "page 0: first filler byte of the head"),
            (15, 1, "page 0: last filler byte of the head"),
            (22, 1, "page 0: first unused byte"),
            (511, 1, "page 0: last unused byte"),
            (18, 0, "used 0"),
            (18, 1, "used 1"),
            (18, 3, "used 3, so that page 3 ought to be zero"),
            (18, 5, "used 5, so that page 4 ought not to be zero"),
            (18, 65, "used 65"),
            (19, 255, "used over 65,000"),
        ],
    );
}

#[test]
fn layout_of_leaves() {
    assert_bytes_break(
        Part::Pages,
        &[
            (page_at(1), 1, "leaf: length 513"),
            (page_at(1) + 2, 0, "leaf: kind 0"),
            (page_at(1) + 2, 1, "leaf: kind 1"),
            (page_at(1) + 2, 4, "leaf: kind 4"),
            (page_at(1) + 4, 2, "leaf: count 2, so that the third place ought to be zero"),
            (page_at(1) + 4, 25, "leaf: count 25"),
            (page_at(1) + 5, 255, "leaf: count over 65,000"),
            (page_at(1) + 6, 1, "leaf: level 1"),
            (page_at(1) + 7, 1, "leaf: level 256"),
            (page_at(1) + 8, 1, "leaf: first filler byte of the head"),
            (page_at(1) + 15, 1, "leaf: last filler byte of the head"),
            (entry_at(1, 0) + 18, 7, "entry: an unknown presence bit"),
            (entry_at(1, 0) + 19, 1, "entry: filler"),
            (entry_at(1, 1) + 8, 1, "entry: a record now where it is absent now"),
            (entry_at(1, 2) + 15, 1, "entry: a record before where it was absent before"),
            (entry_at(1, 3), 1, "leaf: the first unused place"),
            (entry_at(1, 23) + 19, 1, "leaf: the last byte of the last place"),
            (page_at(1) + 511, 1, "leaf: the last byte"),
        ],
    );
}

#[test]
fn layout_of_inner_pages() {
    assert_bytes_break(
        Part::Pages,
        &[
            (page_at(3) + 1, 0, "inner: length 0"),
            (page_at(3) + 4, 1, "inner: count 1, so that the second place ought to be zero"),
            (page_at(3) + 4, 31, "inner: count 31"),
            (page_at(3) + 5, 255, "inner: count over 65,000"),
            (page_at(3) + 9, 1, "inner: filler of the head"),
            (child_at(3, 0), 1, "inner: first separator 1"),
            (child_at(3, 0) + 7, 128, "inner: first separator 2^63"),
            (child_at(3, 0) + 10, 1, "child: first filler byte"),
            (child_at(3, 1) + 15, 1, "child: last filler byte"),
            (child_at(3, 2), 1, "inner: the first unused place"),
            (page_at(3) + 511, 1, "inner: the last byte"),
        ],
    );
}

#[test]
fn layout_of_unused_pages() {
    assert_bytes_break(
        Part::Pages,
        &[
            (page_at(4), 1, "unused page: first byte"),
            (page_at(4) + 2, 2, "unused page: kind"),
            (page_at(63) + 511, 1, "the very last byte"),
        ],
    );
}

#[test]
fn layout_of_the_desks_head_and_queue() {
    assert_bytes_break(
        Part::Desk,
        &[
            (0, 0, "length"),
            (2, 7, "kind 7"),
            (4, 2, "queue count 2, so that the third place ought to be zero"),
            (4, 17, "queue count 17"),
            (5, 255, "queue count over 65,000"),
            (6, 1, "first filler byte of the head"),
            (31, 1, "last filler byte of the head"),
            (queue_at(3), 5, "queue: the first unused place"),
            (queue_at(15) + 1, 1, "queue: the last byte"),
        ],
    );
}

#[test]
fn layout_of_transactions() {
    assert_bytes_break(
        Part::Desk,
        &[
            (transaction_at(1), 2, "transaction: running 2"),
            (transaction_at(1) + 1, 1, "transaction: running 257"),
            (transaction_at(1) + 2, 1, "transaction: waiting kind 1"),
            (transaction_at(2) + 2, 3, "transaction: waiting kind 3"),
            (transaction_at(2) + 2, 7, "transaction: waiting kind 7"),
            (transaction_at(1) + 4, 1, "running: a record"),
            (transaction_at(1) + 8, 1, "running: lo"),
            (transaction_at(1) + 16, 1, "running: hi"),
            (transaction_at(1) + 24, 1, "running: filler"),
            (transaction_at(2), 0, "waiting with a read and not running"),
            (transaction_at(2) + 4, 1, "waiting with a read: a record"),
            (transaction_at(3) + 16, 1, "waiting with an insert: hi"),
            (transaction_at(4) + 4, 1, "waiting with a delete: a record"),
            (transaction_at(4) + 16, 1, "waiting with a delete: hi"),
            (transaction_at(4) + 31, 1, "waiting with a delete: filler"),
            (transaction_at(6) + 2, 4, "not running: a waiting kind"),
            (transaction_at(6) + 4, 1, "not running: a record"),
            (transaction_at(6) + 8, 1, "not running: lo"),
            (transaction_at(6) + 23, 1, "not running: hi"),
            (transaction_at(16) + 31, 1, "not running: filler"),
        ],
    );
}

#[test]
fn layout_of_locks() {
    assert_bytes_break(
        Part::Desk,
        &[
            (slot_at(0) + 10, 0, "lock: mode 0"),
            (slot_at(0) + 10, 3, "lock: mode 3"),
            (slot_at(0) + 11, 1, "lock: mode 258"),
            (slot_at(0) + 12, 1, "lock: first filler byte"),
            (slot_at(0) + 15, 1, "lock: last filler byte"),
            (slot_at(5), 1, "free slot: a key"),
            (slot_at(5) + 8, 1, "free slot: a transaction"),
            (slot_at(255) + 15, 1, "free slot: filler"),
        ],
    );
}

#[test]
fn entry_rules() {
    let alone = &[Clause::EntryRules];
    assert_damage_breaks(alone, "settled, now unlike before", |tables| {
        entries(tables, 1)[0].now = Some(11);
    });
    assert_damage_breaks(alone, "settled, absent now", |tables| {
        entries(tables, 1)[0].now = None;
    });
    assert_damage_breaks(alone, "settled, absent before", |tables| {
        entries(tables, 1)[0].before = None;
    });
    assert_damage_breaks(alone, "settled, absent now and before", |tables| {
        let entry = &mut entries(tables, 1)[0];
        (entry.now, entry.before) = (None, None);
    });
    assert_damage_breaks(alone, "a ghost that nobody owns", |tables| {
        entries(tables, 1)[1].owner = 0;
    });
    for owner in [17, 65_535] {
        let mut tables = something_of_everything();
        entries(&mut tables, 1)[0].owner = owner;
        let expected = [Clause::EntryRules, Clause::Owners];
        assert_breaks(&tables.encode(), &expected, "an owner over 16, who never runs");
    }
}

#[test]
fn a_tree_of_the_used_pages_each_reached_once() {
    let alone = &[Clause::EachPageReachedOnce];
    for root in [0, 4, 64, 65_535] {
        let mut tables = something_of_everything();
        tables.index.root = root;
        assert_breaks(&tables.encode(), alone, "a root outside the used pages");
    }
    assert_damage_breaks(alone, "two pages unreached", |tables| tables.index.root = 1);
    for page in [0, 4, 63, 64, 65_535] {
        let mut tables = something_of_everything();
        children(&mut tables, 3)[1].page = page;
        assert_breaks(&tables.encode(), alone, "a child outside the used pages");
    }
    assert_damage_breaks(alone, "a leaf that no page is over", |tables| {
        tables.index.pages.insert(4, Page::Leaf(vec![]));
    });
    let mut no_pages = Tables::fresh();
    no_pages.index.pages.clear();
    assert_breaks(&no_pages.encode(), alone, "used 1: not even a root");
}

#[test]
fn pages_that_are_reached_twice_or_for_ever() {
    let alone = &[Clause::EachPageReachedOnce];
    assert_damage_breaks(alone, "a page that is its own child", |tables| {
        children(tables, 3)[1].page = 3;
    });
    assert_damage_breaks(alone, "a page reached twice from one page", |tables| {
        children(tables, 3)[1].page = 1;
    });
    assert_deep_damage_breaks(alone, "a page reached from two pages", |tables| {
        children(tables, 32)[3].page = 4;
    });
    assert_deep_damage_breaks(alone, "an inner page over the root", |tables| {
        children(tables, 32)[3].page = 33;
    });
    assert_deep_damage_breaks(alone, "two inner pages over each other", |tables| {
        children(tables, 31)[0].page = 32;
        children(tables, 32)[0].page = 31;
    });
}

#[test]
fn levels() {
    assert_damage_breaks(&[Clause::Levels], "an inner page two above its leaves", |tables| {
        set_level(tables, 3, 2);
        tables.index.height = 3;
    });
    assert_deep_damage_breaks(&[Clause::Levels], "a leaf beside an inner page", |tables| {
        children(tables, 33).push(child(5000, 34));
        tables.index.pages.insert(34, Page::Leaf(vec![]));
    });
    assert_deep_damage_breaks(&[Clause::Levels], "an inner page at level 0", |tables| {
        set_level(tables, 31, 0);
    });
    let both = &[Clause::Levels, Clause::Height];
    assert_damage_breaks(both, "a level so high that nothing is above", |tables| {
        set_level(tables, 3, 65_535);
        tables.index.height = 0;
    });
}

#[test]
fn height_is_the_roots_level_plus_1() {
    for height in [0, 1, 3, 65_535] {
        let mut tables = something_of_everything();
        tables.index.height = height;
        assert_breaks(&tables.encode(), &[Clause::Height], "a height unlike the root");
    }
}

#[test]
fn numbers_of_children() {
    let alone = &[Clause::ChildCounts];
    let mut tables = Tables::fresh();
    tables.index.pages.insert(2, Page::Inner { level: 1, children: vec![child(0, 1)] });
    (tables.index.root, tables.index.height) = (2, 2);
    assert_breaks(&tables.encode(), alone, "a root with one child");

    let mut tables = Tables::fresh();
    tables.index.pages.insert(1, Page::Inner { level: 1, children: vec![] });
    tables.index.height = 2;
    assert_breaks(&tables.encode(), alone, "a root without children");

    assert_deep_damage_breaks(alone, "an inner page with fourteen children", |tables| {
        let moved = children(tables, 31).pop().expect("fifteen children");
        children(tables, 32)[0].separator = Key(1500);
        children(tables, 32).insert(0, Child { separator: Key(0), page: moved.page });
        children(tables, 33)[1].separator = moved.separator;
    });
}

/// Equal and falling separators leave some leaf without a range, so only an empty leaf there breaks
/// this clause alone.
#[test]
fn keys_and_separators_ascend() {
    let alone = &[Clause::Ascending];
    assert_damage_breaks(alone, "falling keys", |tables| entries(tables, 2).reverse());
    assert_damage_breaks(alone, "equal keys", |tables| {
        entries(tables, 2)[1] = settled(50);
    });
    assert_damage_breaks(alone, "equal separators", |tables| {
        children(tables, 3).insert(1, child(50, 4));
        tables.index.pages.insert(4, Page::Leaf(vec![]));
    });
    assert_damage_breaks(alone, "falling separators", |tables| {
        children(tables, 3).insert(1, child(55, 4));
        tables.index.pages.insert(4, Page::Leaf(vec![]));
    });
}

#[test]
fn keys_are_in_range() {
    let alone = &[Clause::InRange];
    assert_damage_breaks(alone, "a key below its page's separator", |tables| {
        entries(tables, 2).insert(0, settled(49));
    });
    assert_damage_breaks(alone, "a key at the next separator", |tables| {
        entries(tables, 2).remove(0);
        entries(tables, 1).push(settled(50));
        tables.desk.slots[2] = Slot::Free;
        tables.desk.slots[3] = Slot::Free;
    });
    assert_deep_damage_breaks(alone, "a key below the low end of its first leaf", |tables| {
        entries(tables, 16)[0] = settled(1499);
    });
}

/// Separators are tried over empty leaves, which hide them from any check of keys.
#[test]
fn separators_are_in_range() {
    let alone = &[Clause::InRange];
    assert_damage_breaks(alone, "a second separator at the low end 0", |tables| {
        children(tables, 3).insert(1, child(0, 4));
        children(tables, 3)[0].page = 4;
        children(tables, 3)[1].page = 1;
        tables.index.pages.insert(4, Page::Leaf(vec![]));
    });
    assert_deep_damage_breaks(alone, "a separator at its page's low end", |tables| {
        children(tables, 32)[1].separator = Key(1500);
        entries(tables, 16).clear();
    });
    assert_deep_damage_breaks(alone, "a separator below its page's low end", |tables| {
        children(tables, 32)[1].separator = Key(1499);
        entries(tables, 16).clear();
    });
    assert_deep_damage_breaks(alone, "a separator at its page's next", |tables| {
        children(tables, 31)[14].separator = Key(1500);
        entries(tables, 15).clear();
    });
    assert_deep_damage_breaks(alone, "a separator above its page's next", |tables| {
        children(tables, 31)[14].separator = Key(1501);
        entries(tables, 15).clear();
    });
}

#[test]
fn none_is_the_end() {
    let alone = &[Clause::NoneIsTheEnd];
    assert_damage_breaks(alone, "the end as a key", |tables| {
        entries(tables, 2).push(settled(u64::MAX));
    });
    assert_damage_breaks(alone, "the end as a separator", |tables| {
        children(tables, 3).push(child(u64::MAX, 4));
        tables.index.pages.insert(4, Page::Leaf(vec![]));
    });
}

#[test]
fn owners_run_and_hold_x() {
    let alone = &[Clause::Owners];
    assert_damage_breaks(alone, "an owner without a lock", |tables| {
        tables.desk.slots[0] = Slot::Free;
    });
    assert_damage_breaks(alone, "an owner with S", |tables| {
        tables.desk.slots[0] = taken(Key(20), 1, Mode::S);
    });
    assert_damage_breaks(alone, "an owner whose entry another holds", |tables| {
        entries(tables, 1)[1].owner = 5;
    });
    assert_damage_breaks(alone, "an owner with X on another entry alone", |tables| {
        entries(tables, 1)[0].owner = 1;
    });
    let both = &[Clause::Owners, Clause::LockHolders];
    assert_damage_breaks(both, "an owner that isn't running", |tables| {
        tables.desk.set_transaction(1, Transaction::NotRunning);
    });
}

#[test]
fn locks_are_on_entries_or_the_end() {
    for name in [0, 21, 49, u64::MAX - 1] {
        let mut tables = something_of_everything();
        tables.desk.slots[9] = taken(Key(name), 5, Mode::S);
        assert_breaks(&tables.encode(), &[Clause::LockNames], "a lock on no entry");
    }
}

#[test]
fn locks_are_held_by_running_transactions() {
    for holder in [0, 6, 17, 65_535] {
        let mut tables = something_of_everything();
        tables.desk.slots[9] = taken(Key(60), holder, Mode::S);
        assert_breaks(&tables.encode(), &[Clause::LockHolders], "a lock of one not running");
    }
}

#[test]
fn locks_are_compatible() {
    let alone = &[Clause::LocksCompatible];
    assert_damage_breaks(alone, "S and X on an entry", |tables| {
        tables.desk.slots[3] = taken(Key(50), 5, Mode::X);
    });
    assert_damage_breaks(alone, "X and X on the end", |tables| {
        tables.desk.slots[4] = taken(Key::END, 5, Mode::X);
        tables.desk.slots[200] = taken(Key::END, 1, Mode::X);
    });
    assert_damage_breaks(alone, "S beside its owner's X", |tables| {
        tables.desk.slots[255] = taken(Key(20), 5, Mode::S);
    });
}

#[test]
fn one_lock_per_holder_and_name() {
    let alone = &[Clause::OneLockPerHolderAndName];
    assert_damage_breaks(alone, "S twice", |tables| {
        tables.desk.slots[255] = taken(Key(50), 2, Mode::S);
    });
    assert_damage_breaks(alone, "S and X of one holder", |tables| {
        tables.desk.slots[5] = taken(Key(20), 1, Mode::S);
    });
    assert_damage_breaks(alone, "the end twice", |tables| {
        tables.desk.slots[5] = taken(Key::END, 5, Mode::S);
    });
}

#[test]
fn the_queue_is_without_repeats() {
    assert_damage_breaks(&[Clause::QueueWithoutRepeats], "2 queued twice", |tables| {
        tables.desk.queue.push(2);
    });
}

#[test]
fn the_queue_is_exactly_the_waiting_ones() {
    let alone = &[Clause::QueueIsTheWaiting];
    assert_damage_breaks(alone, "one waits and isn't queued", |tables| {
        tables.desk.queue.pop();
    });
    for stranger in [0, 1, 6, 17, 65_535] {
        let mut tables = something_of_everything();
        tables.desk.queue.push(stranger);
        assert_breaks(&tables.encode(), alone, "one is queued and doesn't wait");
    }
}

#[test]
fn each_waiting_request_is_legal() {
    let end = Key::END;
    let illegal = [
        KeyRequest::Read { lo: Key(5), hi: Key(4) },
        KeyRequest::Read { lo: Key(5), hi: end },
        KeyRequest::Read { lo: end, hi: end },
        KeyRequest::Insert { key: end, record: 0 },
        KeyRequest::Delete { key: end },
    ];
    for request in illegal {
        let mut tables = something_of_everything();
        tables.desk.set_transaction(2, Transaction::Waiting(request));
        assert_breaks(&tables.encode(), &[Clause::WaitingLegal], "a request that 12 refuses");
    }
}

/// Of all single bits of the fresh picture, only the sixteen that let a transaction run can be
/// changed: a running transaction needs nothing else.
#[test]
fn single_bits_of_the_fresh_picture() {
    let mut picture = Tables::fresh().encode();
    for at in 0..picture.pages.len() {
        for bit in 0..8 {
            picture.pages[at] ^= 1 << bit;
            assert!(!whole(&picture.pages, &picture.desk), "bit {bit} of byte {at} of the pages");
            picture.pages[at] ^= 1 << bit;
        }
    }
    let running: Vec<usize> = (0..16).map(|place| 64 + 32 * place).collect();
    for at in 0..picture.desk.len() {
        for bit in 0..8 {
            picture.desk[at] ^= 1 << bit;
            let stays_whole = bit == 0 && running.contains(&at);
            let judged = whole(&picture.pages, &picture.desk);
            assert_eq!(judged, stays_whole, "bit {bit} of byte {at} of the desk");
            picture.desk[at] ^= 1 << bit;
        }
    }
}
