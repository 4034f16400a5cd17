//! Every record and page kind as bytes, written by hand from document 01, "Records and pages", and
//! the answer 3 from document 02, [4].

use model::desk::fresh;
use model::entry::Entry;
use model::key::Key;
use model::layout::answer::Answer;
use model::layout::desk::{Desk, Lock, Mode, Slot, Transaction};
use model::layout::pages::{Child, Page, PageZero, decode_entry, encode_entry};
use model::layout::request::{KeyRequest, Request, RequestKind};

const KEY: Key = Key(0x0102_0304_0506_0708);
const OTHER: Key = Key(0x1112_1314_1516_1718);
const RECORD: u32 = 0xA1A2_A3A4;

/// Bytes put together from parts, filled up with zeros.
fn bytes(parts: &[&[u8]], length: usize) -> Vec<u8> {
    let mut bytes = parts.concat();
    bytes.resize(length, 0);
    bytes
}

#[test]
fn request_records() {
    let read = KeyRequest::Read { lo: KEY, hi: OTHER };
    let insert = KeyRequest::Insert { key: KEY, record: RECORD };
    let delete = KeyRequest::Delete { key: KEY };
    let key: &[u8] = &[8, 7, 6, 5, 4, 3, 2, 1];
    let other: &[u8] = &[0x18, 0x17, 0x16, 0x15, 0x14, 0x13, 0x12, 0x11];
    let record: &[u8] = &[0xA4, 0xA3, 0xA2, 0xA1];
    let cases = [
        (RequestKind::Begin, bytes(&[&[8, 0, 1, 0, 16]], 8)),
        (RequestKind::Commit, bytes(&[&[8, 0, 2, 0, 16]], 8)),
        (RequestKind::Rollback, bytes(&[&[8, 0, 3, 0, 16]], 8)),
        (RequestKind::Keys(read), bytes(&[&[24, 0, 4, 0, 16, 0, 0, 0], key, other], 24)),
        (RequestKind::Keys(insert), bytes(&[&[24, 0, 5, 0, 16, 0, 0, 0], key, record], 24)),
        (RequestKind::Keys(delete), bytes(&[&[16, 0, 6, 0, 16, 0, 0, 0], key], 16)),
    ];
    for (kind, expected) in cases {
        let request = Request { transaction: 16, kind };
        assert_eq!(request.encode(), expected);
        assert_eq!(Request::decode(&expected), Some(request));
    }
}

#[test]
fn answer_records() {
    let found = Answer::showing(3, 1, KEY, RECORD);
    let expected = [20, 0, 7, 0, 3, 0, 1, 0, 8, 7, 6, 5, 4, 3, 2, 1, 0xA4, 0xA3, 0xA2, 0xA1];
    assert_eq!(found.encode(), expected);
    assert_eq!(Answer::decode(&expected), Some(found));
    let circle = Answer::plain(16, 19);
    let expected = bytes(&[&[20, 0, 7, 0, 16, 0, 19, 0]], 20);
    assert_eq!(circle.encode(), expected);
    assert_eq!(Answer::decode(&expected), Some(circle));
    let behind_12 = Answer::waiting(5, 12);
    let expected = [20, 0, 7, 0, 5, 0, 3, 0, 0, 0, 0, 0, 0, 0, 0, 0, 12, 0, 0, 0];
    assert_eq!(behind_12.encode(), expected);
    assert_eq!(Answer::decode(&expected), Some(behind_12));
    assert_eq!(Answer::decode(&bytes(&[&[20, 0, 8, 0, 16, 0, 19, 0]], 20)), None);
}

#[test]
fn page_zero() {
    let zero = PageZero { root: 3, used: 0x24, height: 2 };
    let expected = bytes(&[&[0, 2, 1], &[0; 13], &[3, 0, 0x24, 0, 2, 0]], 512);
    assert_eq!(zero.encode(), expected);
    assert_eq!(PageZero::decode(&expected), Some(zero));
}

#[test]
fn entries() {
    let key: &[u8] = &[8, 7, 6, 5, 4, 3, 2, 1];
    let cases: [(Entry, &[u8]); 4] = [
        (
            Entry { key: KEY, owner: 0, now: Some(9), before: Some(9) },
            &[9, 0, 0, 0, 9, 0, 0, 0, 0, 0, 3, 0],
        ),
        (
            Entry { key: KEY, owner: 16, now: Some(9), before: None },
            &[9, 0, 0, 0, 0, 0, 0, 0, 16, 0, 1, 0],
        ),
        (
            Entry { key: KEY, owner: 1, now: None, before: Some(9) },
            &[0, 0, 0, 0, 9, 0, 0, 0, 1, 0, 2, 0],
        ),
        (
            Entry { key: KEY, owner: 1, now: None, before: None },
            &[0, 0, 0, 0, 0, 0, 0, 0, 1, 0, 0, 0],
        ),
    ];
    for (entry, after_key) in cases {
        let expected = bytes(&[key, after_key], 20);
        assert_eq!(encode_entry(&entry), expected);
        assert_eq!(decode_entry(&expected), Some(entry));
    }
}

#[test]
fn leaf_and_inner_pages() {
    let leaf = Page::Leaf(vec![Entry::settled(Key(7), 5), Entry::inserted(KEY, 6, 2)]);
    let expected = bytes(
        &[
            &[0, 2, 2, 0, 2, 0, 0, 0, 0, 0, 0, 0, 0, 0, 0, 0],
            &[7, 0, 0, 0, 0, 0, 0, 0, 5, 0, 0, 0, 5, 0, 0, 0, 0, 0, 3, 0],
            &[8, 7, 6, 5, 4, 3, 2, 1, 6, 0, 0, 0, 0, 0, 0, 0, 2, 0, 1, 0],
        ],
        512,
    );
    assert_eq!(leaf.encode(), expected);
    assert_eq!(Page::decode(&expected), Some(leaf));

    let first = Child { separator: Key(0), page: 1 };
    let second = Child { separator: KEY, page: 0x3F };
    let inner = Page::Inner { level: 2, children: vec![first, second] };
    let expected = bytes(
        &[
            &[0, 2, 3, 0, 2, 0, 2, 0, 0, 0, 0, 0, 0, 0, 0, 0],
            &[0, 0, 0, 0, 0, 0, 0, 0, 1, 0, 0, 0, 0, 0, 0, 0],
            &[8, 7, 6, 5, 4, 3, 2, 1, 0x3F, 0, 0, 0, 0, 0, 0, 0],
        ],
        512,
    );
    assert_eq!(inner.encode(), expected);
    assert_eq!(Page::decode(&expected), Some(inner));
}

/// A desk of 4,672 bytes (0x1240): head to 32, queue to 64, transactions to 576, locks to the end.
#[test]
fn the_desk() {
    let mut desk = Desk::empty();
    desk.queue = vec![3, 2, 4];
    desk.set_transaction(1, Transaction::Running);
    desk.set_transaction(2, Transaction::Waiting(KeyRequest::Read { lo: KEY, hi: OTHER }));
    let insert = KeyRequest::Insert { key: KEY, record: RECORD };
    desk.set_transaction(3, Transaction::Waiting(insert));
    desk.set_transaction(4, Transaction::Waiting(KeyRequest::Delete { key: OTHER }));
    desk.slots[0] = Slot::Taken(Lock { name: KEY, holder: 1, mode: Mode::S });
    desk.slots[255] = Slot::Taken(Lock { name: Key::END, holder: 16, mode: Mode::X });

    let key: &[u8] = &[8, 7, 6, 5, 4, 3, 2, 1];
    let other: &[u8] = &[0x18, 0x17, 0x16, 0x15, 0x14, 0x13, 0x12, 0x11];
    let mut expected = bytes(&[&[0x40, 0x12, 8, 0, 3]], 4672);
    let mut put = |at: usize, parts: &[&[u8]]| {
        let part = parts.concat();
        expected[at..at + part.len()].copy_from_slice(&part);
    };
    put(32, &[&[3, 0, 2, 0, 4, 0]]);
    put(64, &[&[1, 0, 0, 0]]);
    put(96, &[&[1, 0, 4, 0, 0, 0, 0, 0], key, other]);
    put(128, &[&[1, 0, 5, 0, 0xA4, 0xA3, 0xA2, 0xA1], key]);
    put(160, &[&[1, 0, 6, 0, 0, 0, 0, 0], other]);
    put(576, &[key, &[1, 0, 1, 0]]);
    put(4656, &[&[255; 8], &[16, 0, 2, 0]]);
    assert_eq!(desk.encode(), expected);
    assert_eq!(Desk::decode(&expected), Some(desk));
}

/// "Fresh: page 1 is an empty leaf and the root, used 2, height 1, desk empty."
#[test]
fn the_fresh_picture() {
    let mut pages = bytes(&[&[0, 2, 1], &[0; 13], &[1, 0, 2, 0, 1, 0]], 32_768);
    pages[512..516].copy_from_slice(&[0, 2, 2, 0]);
    assert_eq!(fresh().pages, pages);
    assert_eq!(fresh().desk, bytes(&[&[0x40, 0x12, 8, 0]], 4672));
}

/// Bytes of any other length are no record and no page.
#[test]
fn wrong_lengths_do_not_decode() {
    assert_eq!(PageZero::decode(&[0; 511]), None);
    assert_eq!(Page::decode(&bytes(&[&[0, 2, 2, 0]], 513)), None);
    assert_eq!(decode_entry(&[0; 19]), None);
    assert_eq!(Child::decode(&[0; 17]), None);
    assert_eq!(Transaction::decode(&[0; 31]), None);
    assert_eq!(Slot::decode(&[]), None);
    assert_eq!(Desk::decode(&bytes(&[&[0x40, 0x12, 8, 0]], 4671)), None);
    assert_eq!(Answer::decode(&[20, 0, 7, 0]), None);
    assert_eq!(Request::decode(&[]), None);
}
