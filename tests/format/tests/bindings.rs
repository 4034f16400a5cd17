//! The Rust bindings beside the page: their records are the page's examples, and their numbers the
//! page's.

use format::page::Page;
use keydesk::{Answer, Key, Number, Refusal, Request};

/// The bytes of an example by its words.
fn example(words: &str) -> Vec<u8> {
    let examples = Page::read().examples();
    let found = examples.into_iter().find(|(example, _)| example == words);
    found.unwrap_or_else(|| panic!("there is an example '{words}'")).1
}

#[test]
fn requests() {
    let requests = [
        ("1 begins", Request::begin(1)),
        ("1 commits", Request::commit(1)),
        ("16 rolls back", Request::rollback(16)),
        ("2 reads 50..150", Request::read(2, 50, 150)),
        ("1 inserts 100, record 7", Request::insert(1, 100, 7)),
        ("1 deletes 100", Request::delete(1, 100)),
    ];
    for (words, request) in requests {
        assert_eq!(*request.record(), *example(words), "{words}");
    }
}

#[test]
fn answers() {
    let read = |words| Answer::read(&example(words).try_into().expect("20 bytes"));
    assert_eq!(read("0 to 1"), Some(Answer { transaction: 1, says: Number::Done }));
    let found = Number::Found { key: Key(100), record: 7 };
    assert_eq!(read("1 to 2: 100, record 7"), Some(Answer { transaction: 2, says: found }));
    let waits = Number::StillQueued { behind: 1 };
    assert_eq!(read("3 to 2: 1 is in the way"), Some(Answer { transaction: 2, says: waits }));
}

/// Every number of the page stands in answers or is a refusal, and there are no others. The record
/// names a transaction, as a 3 has to.
#[test]
fn numbers() {
    let mut record: [u8; 20] = example("3 to 2: 1 is in the way").try_into().expect("20 bytes");
    let mut in_answers = |number: u16| {
        record[6..8].copy_from_slice(&number.to_le_bytes());
        Answer::read(&record).map(|answer| answer.says.code())
    };
    let refusals = [Refusal::WrongLengths, Refusal::NotWhole, Refusal::BadRequest];
    let refused = refusals.map(|refusal| refusal.code().to_string());
    let said: Vec<String> =
        Page::read().tables()["numbers"].iter().map(|row| row[0].clone()).collect();
    for number in 0..=u16::MAX {
        let written = number.to_string();
        assert!(in_answers(number).is_none_or(|code| code == number), "{number}");
        let known = in_answers(number).is_some() || refused.contains(&written);
        assert_eq!(known, said.contains(&written), "{number}");
    }
}
