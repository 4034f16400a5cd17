//! The page's tables and examples beside the independent model: values are written by the model, and
//! the page says where each stands.

use format::page::{Field, Page};
use model::desk::fresh;
use model::entry::Entry;
use model::key::Key;
use model::layout::answer::{Answer, number};
use model::layout::desk::{Desk, Lock, Mode, Slot, Transaction, queue_at, slot_at, transaction_at};
use model::layout::pages::{Child, Page as IndexPage, PageZero, encode_entry};
use model::layout::request::{KeyRequest, Request, RequestKind};
use model::whole::Clause;
use std::collections::BTreeMap;

/// A number that differs in every byte, for a field of eight.
const ONE: u64 = 0x0807_0605_0403_0201;
const TWO: u64 = 0x1817_1615_1413_1211;
const RECORD: u32 = 0x2423_2221;
const OTHER_RECORD: u32 = 0x3433_3231;

/// The number that stands in a field.
fn number_in(bytes: &[u8], field: &Field) -> u64 {
    let little_endian = bytes[field.offset..field.end()].iter().rev();
    little_endian.fold(0, |number, byte| number << 8 | u64::from(*byte))
}

/// Asserts that the fields of a table hold these values in the model's bytes, and no others.
fn holds(table: &str, bytes: &[u8], expected: &[(&str, u64)]) {
    let fields = Page::read().layout(table);
    let named = fields.iter().filter(|field| !field.is_zero());
    let found: Vec<(&str, u64)> =
        named.map(|field| (field.name.as_str(), number_in(bytes, field))).collect();
    assert_eq!(found, expected, "table {table}");
    for field in &fields {
        always_holds(table, bytes, field);
    }
}

/// Asserts that filler is zero, and that a field with one value has it.
fn always_holds(table: &str, bytes: &[u8], field: &Field) {
    if field.is_zero() {
        let mut filler = bytes[field.offset..field.end()].iter();
        assert!(filler.all(|byte| *byte == 0), "table {table}");
    } else if let Some(value) = field.always {
        assert_eq!(number_in(bytes, field), value, "{} of table {table}", field.name);
    }
}

fn asks(transaction: u16, request: KeyRequest) -> Vec<u8> {
    Request { transaction, kind: RequestKind::Keys(request) }.encode()
}

fn plainly(transaction: u16, kind: RequestKind) -> Vec<u8> {
    Request { transaction, kind }.encode()
}

#[test]
fn requests() {
    let read = asks(0x4241, KeyRequest::Read { lo: Key(ONE), hi: Key(TWO) });
    let head = |length, kind| [("length", length), ("kind", kind), ("transaction", 0x4241)];
    holds("request", &read, &head(24, 4));
    holds("read", &read, &[("lo", ONE), ("hi", TWO)]);
    let insert = asks(0x4241, KeyRequest::Insert { key: Key(ONE), record: RECORD });
    holds("request", &insert, &head(24, 5));
    holds("insert", &insert, &[("key", ONE), ("record", u64::from(RECORD))]);
    let delete = asks(0x4241, KeyRequest::Delete { key: Key(ONE) });
    holds("request", &delete, &head(16, 6));
    holds("delete", &delete, &[("key", ONE)]);
    for (kind, number) in
        [(RequestKind::Begin, 1), (RequestKind::Commit, 2), (RequestKind::Rollback, 3)]
    {
        holds("request", &plainly(0x4241, kind), &head(8, number));
    }
}

#[test]
fn answers() {
    let fields = |number, key, record| {
        [
            ("length", 20),
            ("kind", 7),
            ("transaction", 0x4241),
            ("number", number),
            ("key", key),
            ("record", record),
        ]
    };
    let found = Answer::showing(0x4241, number::FOUND, Key(ONE), RECORD).encode();
    holds("answer", &found, &fields(1, ONE, u64::from(RECORD)));
    let waits = Answer::waiting(0x4241, 0x5251).encode();
    holds("answer", &waits, &fields(3, 0, 0x5251));
}

#[test]
fn pages() {
    let leaf = IndexPage::Leaf(vec![Entry::settled(Key(1), 1), Entry::settled(Key(2), 2)]).encode();
    let head =
        |kind, count, level| [("length", 512), ("kind", kind), ("count", count), ("level", level)];
    holds("page head", &leaf, &head(2, 2, 0));
    let child = Child { separator: Key(ONE), page: 0x4241 };
    let inner = IndexPage::Inner { level: 3, children: vec![child; 5] }.encode();
    holds("page head", &inner, &head(3, 5, 3));
    holds("child", &child.encode(), &[("separator", ONE), ("page", 0x4241)]);
    let zero = PageZero { root: 0x4241, used: 0x5251, height: 0x6261 }.encode();
    holds("page head", &zero, &head(1, 0, 0));
    holds("page 0", &zero, &[("root", 0x4241), ("used", 0x5251), ("height", 0x6261)]);
}

#[test]
fn entries() {
    let entry = |now, before| Entry { key: Key(ONE), owner: 0x4241, now, before };
    let fields = |now, before, presence| {
        [
            ("key", ONE),
            ("record now", now),
            ("record before", before),
            ("owner", 0x4241),
            ("presence", presence),
        ]
    };
    let (now, before) = (u64::from(RECORD), u64::from(OTHER_RECORD));
    let all = [
        (entry(Some(RECORD), Some(OTHER_RECORD)), fields(now, before, 3)),
        (entry(None, Some(OTHER_RECORD)), fields(0, before, 2)),
        (entry(Some(RECORD), None), fields(now, 0, 1)),
        (entry(None, None), fields(0, 0, 0)),
    ];
    for (entry, expected) in all {
        holds("entry", &encode_entry(&entry), &expected);
    }
}

#[test]
fn records_and_slots_of_the_desk() {
    let record = |request| Transaction::Waiting(request).encode();
    let fields = |waiting, record, lo, hi| {
        [("running", 1), ("waiting", waiting), ("record", record), ("lo", lo), ("hi", hi)]
    };
    let read = record(KeyRequest::Read { lo: Key(ONE), hi: Key(TWO) });
    holds("transaction", &read, &fields(4, 0, ONE, TWO));
    let insert = record(KeyRequest::Insert { key: Key(ONE), record: RECORD });
    holds("transaction", &insert, &fields(5, u64::from(RECORD), ONE, 0));
    let delete = record(KeyRequest::Delete { key: Key(ONE) });
    holds("transaction", &delete, &fields(6, 0, ONE, 0));
    holds("transaction", &Transaction::Running.encode(), &fields(0, 0, 0, 0));
    for (mode, number) in [(Mode::S, 1), (Mode::X, 2)] {
        let slot = Slot::Taken(Lock { name: Key(ONE), holder: 0x4241, mode }).encode();
        holds("lock", &slot, &[("key", ONE), ("transaction", 0x4241), ("mode", number)]);
    }
}

#[test]
fn places_of_the_desk() {
    let fields = Page::read().layout("desk");
    let place = |name: &str| {
        let field = fields.iter().find(|field| field.name == name).expect(name);
        (field.offset, field.end())
    };
    assert_eq!(place("queue"), (queue_at(0), transaction_at(1)));
    assert_eq!(place("transactions"), (transaction_at(1), slot_at(0)));
    assert_eq!(place("locks"), (slot_at(0), fresh().desk.len()));
    let head = &waiting_desk()[..queue_at(0)];
    for (name, value) in [("length", 4672), ("kind", 8), ("queued", 2)] {
        let field = fields.iter().find(|field| field.name == name).expect(name);
        assert_eq!(number_in(head, field), value, "{name}");
    }
    for field in &fields[..4] {
        always_holds("desk", head, field);
    }
}

/// A desk on which the request of 5 waits, and that of 2 since then.
fn waiting_desk() -> Vec<u8> {
    let mut desk = Desk::empty();
    desk.queue = vec![5, 2];
    desk.encode()
}

/// Every example of the page, by the words that it stands behind, as the model writes it.
fn examples() -> BTreeMap<&'static str, Vec<u8>> {
    let key = Key(100);
    let two_children = vec![Child { separator: Key(0), page: 1 }; 2];
    let three_entries = vec![Entry::settled(key, 7); 3];
    let head = |page: IndexPage| page.encode()[..16].to_vec();
    let lock = |name, holder, mode| Slot::Taken(Lock { name, holder, mode }).encode();
    let desk = waiting_desk();
    BTreeMap::from([
        ("1 begins", plainly(1, RequestKind::Begin)),
        ("1 commits", plainly(1, RequestKind::Commit)),
        ("16 rolls back", plainly(16, RequestKind::Rollback)),
        ("2 reads 50..150", asks(2, KeyRequest::Read { lo: Key(50), hi: Key(150) })),
        ("1 inserts 100, record 7", asks(1, KeyRequest::Insert { key, record: 7 })),
        ("1 deletes 100", asks(1, KeyRequest::Delete { key })),
        ("0 to 1", Answer::plain(1, number::DONE).encode()),
        ("1 to 2: 100, record 7", Answer::showing(2, number::FOUND, key, 7).encode()),
        ("3 to 2: 1 is in the way", Answer::waiting(2, 1).encode()),
        ("a leaf with 3 entries", head(IndexPage::Leaf(three_entries))),
        ("above leaves, 2 children", head(IndexPage::Inner { level: 1, children: two_children })),
        ("page 0 of a fresh index", fresh().pages[..22].to_vec()),
        ("100, record 7, settled", encode_entry(&Entry::settled(key, 7))),
        ("the same, deleted by 2", encode_entry(&Entry::settled(key, 7).deleted(2))),
        ("100, inserted by 1", encode_entry(&Entry::inserted(key, 7, 1))),
        ("14 and above in page 2", Child { separator: Key(14), page: 2 }.encode()),
        ("nobody waits", fresh().desk[..6].to_vec()),
        ("5 waits, and 2 since", desk[..6].to_vec()),
        ("its queue", desk[32..38].to_vec()),
        ("it runs", Transaction::Running.encode()),
        (
            "it waits to read 50..150",
            Transaction::Waiting(KeyRequest::Read { lo: Key(50), hi: Key(150) }).encode(),
        ),
        (
            "it waits to insert 100",
            Transaction::Waiting(KeyRequest::Insert { key, record: 7 }).encode(),
        ),
        ("2 holds S on the end", lock(Key::END, 2, Mode::S)),
        ("1 holds X on 100", lock(key, 1, Mode::X)),
    ])
}

#[test]
fn the_examples_are_the_models_bytes() {
    let mut expected = examples();
    for (words, bytes) in Page::read().examples() {
        let model = expected.remove(words.as_str());
        assert_eq!(Some(bytes), model, "the example '{words}'");
    }
    assert!(expected.is_empty(), "examples that the page has lost: {expected:?}");
}

#[test]
fn the_numbers_are_those_of_the_model() {
    let numbers = [
        (number::DONE, "DONE"),
        (number::FOUND, "FOUND"),
        (number::NOTHING, "NOTHING"),
        (number::STILL_QUEUED, "STILL_QUEUED"),
        (number::WRONG_LENGTHS, "WRONG_LENGTHS"),
        (number::NOT_WHOLE, "NOT_WHOLE"),
        (number::BAD_REQUEST, "BAD_REQUEST"),
        (number::ALREADY_RUNNING, "ALREADY_RUNNING"),
        (number::NOT_RUNNING, "NOT_RUNNING"),
        (number::IS_WAITING, "IS_WAITING"),
        (number::KEY_PRESENT, "KEY_PRESENT"),
        (number::LOCKS_IN_USE, "LOCKS_IN_USE"),
        (number::PAGES_SHORT, "PAGES_SHORT"),
        (number::CIRCLE, "CIRCLE"),
    ];
    let expected = numbers.map(|(number, name)| (number.to_string(), format!("KEYDESK_{name}")));
    let tables = Page::read().tables();
    let said: Vec<(String, String)> =
        tables["numbers"].iter().map(|row| (row[0].clone(), row[1].clone())).collect();
    assert_eq!(said, expected);
}

/// One row for each clause, in the model's order.
#[test]
fn whole_has_the_clauses_of_the_model() {
    let clauses = [
        Clause::Layouts,
        Clause::EntryRules,
        Clause::EachPageReachedOnce,
        Clause::Levels,
        Clause::Height,
        Clause::ChildCounts,
        Clause::Ascending,
        Clause::InRange,
        Clause::NoneIsTheEnd,
        Clause::Owners,
        Clause::LockNames,
        Clause::LockHolders,
        Clause::LocksCompatible,
        Clause::OneLockPerHolderAndName,
        Clause::QueueWithoutRepeats,
        Clause::QueueIsTheWaiting,
        Clause::WaitingLegal,
    ];
    let names = clauses.map(|clause| format!("{clause:?}"));
    let tables = Page::read().tables();
    let said: Vec<String> = tables["whole"].iter().map(|row| row[0].clone()).collect();
    assert_eq!(said, names);
    assert!(tables["whole"].iter().all(|row| !row[1].is_empty()), "each says what it asks");
}
