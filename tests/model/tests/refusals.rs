//! Numbers 10 to 15: every cause, and which comes first (document 01, What the desk says; Records
//! and pages).

use model::desk::{Picture, fresh, serve};
use model::layout::answer::Answer;
use model::session::Session;

const BEGIN_1: [u8; 8] = [8, 0, 1, 0, 1, 0, 0, 0];

/// A good read of 1..2, insert of key 1 with record 9 and delete of key 1, all by transaction 1.
const READ: [u8; 24] = [24, 0, 4, 0, 1, 0, 0, 0, 1, 0, 0, 0, 0, 0, 0, 0, 2, 0, 0, 0, 0, 0, 0, 0];
const INSERT: [u8; 24] = [24, 0, 5, 0, 1, 0, 0, 0, 1, 0, 0, 0, 0, 0, 0, 0, 9, 0, 0, 0, 0, 0, 0, 0];
const DELETE: [u8; 16] = [16, 0, 6, 0, 1, 0, 0, 0, 1, 0, 0, 0, 0, 0, 0, 0];

/// Asks with these bytes and this much answer space; the call must change nothing and write
/// nothing. Gives the number.
fn refused(picture: &Picture, answer_space: usize, request: &[u8]) -> u16 {
    let Picture { mut pages, mut desk } = picture.clone();
    let mut answers = vec![0xCD; answer_space];
    let returned = serve(&mut pages, &mut desk, &mut answers, request);
    assert_eq!(returned.written, 0);
    assert_eq!(Picture { pages, desk }, *picture);
    assert!(answers.iter().all(|byte| *byte == 0xCD));
    returned.number
}

/// The number for a request asked of a desk on which 1 runs.
fn number_for(request: &[u8]) -> u16 {
    let mut session = Session::fresh();
    session.begin(1);
    let Picture { mut pages, mut desk } = session.picture.clone();
    let mut answers = [0; 320];
    let returned = serve(&mut pages, &mut desk, &mut answers, request);
    if returned.number == 0 { 0 } else { refused(&session.picture, 320, request) }
}

/// The bytes with one of them changed.
fn with<const N: usize>(mut bytes: [u8; N], at: usize, value: u8) -> [u8; N] {
    bytes[at] = value;
    bytes
}

#[test]
fn ten_is_for_wrong_lengths() {
    let whole = fresh();
    for length in [0, 1, 512, 32_767, 32_769, 65_536] {
        let mut pages = whole.pages.clone();
        pages.resize(length, 0);
        let picture = Picture { pages, desk: whole.desk.clone() };
        assert_eq!(refused(&picture, 320, &BEGIN_1), 10, "{length} bytes of pages");
    }
    for length in [0, 1, 4_671, 4_673] {
        let mut desk = whole.desk.clone();
        desk.resize(length, 0);
        let picture = Picture { pages: whole.pages.clone(), desk };
        assert_eq!(refused(&picture, 320, &BEGIN_1), 10, "{length} bytes of desk");
    }
    for length in [0, 20, 319] {
        assert_eq!(refused(&whole, length, &BEGIN_1), 10, "{length} bytes for answers");
    }
    for length in [320, 321, 5000] {
        let Picture { mut pages, mut desk } = whole.clone();
        let returned = serve(&mut pages, &mut desk, &mut vec![0; length], &BEGIN_1);
        assert_eq!((returned.number, returned.written), (0, 20), "{length} bytes for answers");
    }
}

#[test]
fn the_good_requests_are_good() {
    assert_eq!(number_for(&READ), 0);
    assert_eq!(number_for(&INSERT), 0);
    assert_eq!(number_for(&DELETE), 0);
    assert_eq!(number_for(&[8, 0, 1, 0, 2, 0, 0, 0]), 0);
    assert_eq!(number_for(&[8, 0, 2, 0, 1, 0, 0, 0]), 0);
    assert_eq!(number_for(&[8, 0, 3, 0, 16, 0, 0, 0]), 0);
}

#[test]
fn twelve_is_for_a_slice_under_8_bytes() {
    for length in 0..8 {
        assert_eq!(number_for(&BEGIN_1[..length]), 12);
        let mut says_its_length = BEGIN_1[..length].to_vec();
        if length > 0 {
            says_its_length[0] = length as u8;
        }
        assert_eq!(number_for(&says_its_length), 12);
    }
}

#[test]
fn twelve_is_for_a_length_unlike_the_slice() {
    assert_eq!(number_for(&with(BEGIN_1, 0, 7)), 12);
    assert_eq!(number_for(&with(BEGIN_1, 0, 16)), 12);
    assert_eq!(number_for(&with(BEGIN_1, 1, 1)), 12);
    assert_eq!(number_for(&with(READ, 0, 16)), 12);
    assert_eq!(number_for(&[&BEGIN_1[..], &[0]].concat()), 12);
    assert_eq!(number_for(&[&DELETE[..], &[0; 8]].concat()), 12);
    assert_eq!(number_for(&READ[..23]), 12);
}

#[test]
fn twelve_is_for_a_length_unlike_the_kind() {
    for (kind, length) in [(1, 8), (2, 8), (3, 8), (4, 24), (5, 24), (6, 16)] {
        for other in [8u8, 9, 12, 16, 20, 24, 32].into_iter().filter(|other| *other != length) {
            let mut request = vec![other, 0, kind, 0, 1, 0, 0, 0];
            request.resize(other.into(), 0);
            assert_eq!(number_for(&request), 12, "kind {kind} with length {other}");
        }
    }
}

#[test]
fn twelve_is_for_an_unknown_kind() {
    for kind in [0, 7, 8, 255] {
        assert_eq!(number_for(&with(BEGIN_1, 2, kind)), 12);
        assert_eq!(number_for(&with(READ, 2, kind)), 12);
        assert_eq!(number_for(&with(DELETE, 2, kind)), 12);
    }
    assert_eq!(number_for(&with(READ, 3, 1)), 12, "kind 260");
}

#[test]
fn twelve_is_for_nonzero_filler() {
    for at in [6, 7] {
        assert_eq!(number_for(&with(BEGIN_1, at, 1)), 12);
        assert_eq!(number_for(&with([8, 0, 2, 0, 1, 0, 0, 0], at, 1)), 12);
        assert_eq!(number_for(&with([8, 0, 3, 0, 1, 0, 0, 0], at, 128)), 12);
        assert_eq!(number_for(&with(READ, at, 1)), 12);
        assert_eq!(number_for(&with(INSERT, at, 1)), 12);
        assert_eq!(number_for(&with(DELETE, at, 1)), 12);
    }
    for at in 20..24 {
        assert_eq!(number_for(&with(INSERT, at, 1)), 12);
    }
}

#[test]
fn twelve_is_for_a_transaction_outside_1_to_16() {
    for transaction in [0, 17, 255] {
        assert_eq!(number_for(&with(BEGIN_1, 4, transaction)), 12);
        assert_eq!(number_for(&with(DELETE, 4, transaction)), 12);
    }
    assert_eq!(number_for(&with(DELETE, 5, 1)), 12, "transaction 257");
}

#[test]
fn twelve_is_for_the_end_as_key_lo_or_hi() {
    let end = [0xFF; 8];
    let highest = [0xFE, 0xFF, 0xFF, 0xFF, 0xFF, 0xFF, 0xFF, 0xFF];
    let with_key = |mut request: Vec<u8>, at: usize, key: [u8; 8]| {
        request[at..at + 8].copy_from_slice(&key);
        request
    };
    assert_eq!(number_for(&with_key(INSERT.to_vec(), 8, end)), 12);
    assert_eq!(number_for(&with_key(DELETE.to_vec(), 8, end)), 12);
    assert_eq!(number_for(&with_key(READ.to_vec(), 16, end)), 12, "hi");
    let both = with_key(with_key(READ.to_vec(), 8, end), 16, end);
    assert_eq!(number_for(&both), 12, "lo, with hi no lower");

    assert_eq!(number_for(&with_key(INSERT.to_vec(), 8, highest)), 0);
    assert_eq!(number_for(&with_key(DELETE.to_vec(), 8, highest)), 0);
    assert_eq!(number_for(&with_key(READ.to_vec(), 16, highest)), 0);
}

#[test]
fn twelve_is_for_lo_above_hi() {
    assert_eq!(number_for(&with(READ, 8, 3)), 12);
    assert_eq!(number_for(&with(READ, 15, 1)), 12, "by the highest byte alone");
    assert_eq!(number_for(&with(READ, 8, 2)), 0, "lo and hi may be equal");
}

/// "Checks go in the order 10, 11, 12".
#[test]
fn ten_comes_before_eleven_and_eleven_before_twelve() {
    let mut broken = fresh();
    broken.desk[2] = 9;
    let bad_request = [0; 3];
    assert_eq!(refused(&broken, 319, &bad_request), 10);
    assert_eq!(refused(&broken, 320, &bad_request), 11);
    assert_eq!(refused(&broken, 320, &BEGIN_1), 11);
    assert_eq!(refused(&fresh(), 320, &bad_request), 12);
    assert_eq!(refused(&fresh(), 320, &with(READ, 8, 3)), 12, "before 14: 1 isn't running");
}

/// 13 for begin, 14 for the rest of one not running, 15 for all but rollback while waiting; each
/// with an answer record and nothing else changed.
#[test]
fn thirteen_to_fifteen_only_answer() {
    let mut session = Session::settled(&[10]);
    session.begin(1);
    session.begin(2);
    session.delete(1, 10);
    assert_eq!(session.read(2, 10, 10), [Answer::waiting(2, 1)]);
    let before = session.picture.clone();
    assert_eq!(session.begin(1), [Answer::plain(1, 13)]);
    assert_eq!(session.begin(2), [Answer::plain(2, 13)], "also while waiting");
    assert_eq!(session.commit(3), [Answer::plain(3, 14)]);
    assert_eq!(session.rollback(3), [Answer::plain(3, 14)]);
    assert_eq!(session.read(3, 10, 10), [Answer::plain(3, 14)]);
    assert_eq!(session.insert(3, 10, 1), [Answer::plain(3, 14)]);
    assert_eq!(session.delete(3, 10), [Answer::plain(3, 14)]);
    assert_eq!(session.commit(2), [Answer::plain(2, 15)]);
    assert_eq!(session.read(2, 10, 10), [Answer::plain(2, 15)]);
    assert_eq!(session.insert(2, 10, 1), [Answer::plain(2, 15)]);
    assert_eq!(session.delete(2, 10), [Answer::plain(2, 15)]);
    assert_eq!(session.picture, before);
    assert_eq!(session.rollback(2), [Answer::plain(2, 0)]);
}
