//! Answers read from records that are written by hand from document 01, What the desk says; and the
//! answers of a call as an iterator.

use keydesk::{Answer, Answers, Desk, Key, Number, Refusal, Request};

const KEY: Key = Key::of(7, 30);

/// An answer record to transaction 2: length, kind, transaction, number, key 7/30, and the record: 9
/// in a 3, which names a transaction there, and 503 in any other.
fn record(number: u8) -> [u8; 20] {
    let mut bytes = [20, 0, 7, 0, 2, 0, number, 0, 30, 0, 0, 0, 7, 0, 0, 0, 247, 1, 0, 0];
    if number == 3 {
        bytes[16..].copy_from_slice(&[9, 0, 0, 0]);
    }
    bytes
}

/// Every number that stands in an answer, with its code.
const NUMBERS: [(u8, Number); 11] = [
    (0, Number::Done),
    (1, Number::Found { key: KEY, record: 503 }),
    (2, Number::Nothing),
    (3, Number::StillQueued { behind: 9 }),
    (13, Number::AlreadyRunning),
    (14, Number::NotRunning),
    (15, Number::IsWaiting),
    (16, Number::KeyPresent { key: KEY, record: 503 }),
    (17, Number::LocksInUse),
    (18, Number::PagesShort),
    (19, Number::Circle),
];

#[test]
fn every_number_is_read_and_has_its_code() {
    for (code, says) in NUMBERS {
        assert_eq!(Answer::read(&record(code)), Some(Answer { transaction: 2, says }));
        assert_eq!(says.code(), u16::from(code));
    }
}

#[test]
fn every_number_has_words_of_its_own() {
    let mut words: Vec<String> = NUMBERS.iter().map(|(_, says)| says.to_string()).collect();
    assert_eq!(words[1], "found 7/30 with record 503");
    assert_eq!(words[3], "waits behind 9");
    assert_eq!(words[7], "7/30 is there already, with record 503");
    assert_eq!(words[10], "turned away, the lightest in a circle");
    words.sort();
    words.dedup();
    assert_eq!(words.len(), NUMBERS.len());
}

#[test]
fn a_number_that_stands_in_no_answer_is_none() {
    let known: Vec<u8> = NUMBERS.iter().map(|(code, _)| *code).collect();
    for code in (0..=255).filter(|code| !known.contains(code)) {
        assert_eq!(Answer::read(&record(code)), None, "{code}");
    }
    let mut wide = record(0);
    wide[7] = 1;
    assert_eq!(Answer::read(&wide), None, "256");
}

/// A 3 names a transaction, and those are numbered 1 to 16: not 0, and not by the field's low byte
/// or low half alone.
#[test]
fn a_3_names_a_transaction_from_1_to_16() {
    for behind in 0..=255u8 {
        let mut waits = record(3);
        waits[16] = behind;
        let says = Number::StillQueued { behind: u16::from(behind) };
        let named = (1..=16).contains(&behind).then_some(Answer { transaction: 2, says });
        assert_eq!(Answer::read(&waits), named, "{behind}");
    }
    for at in 17..20 {
        let mut wide = record(3);
        wide[at] = 1;
        assert_eq!(Answer::read(&wide), None, "byte {at} is 1");
    }
}

#[test]
fn another_length_or_kind_is_none() {
    for at in 0..4 {
        for value in (0..=255).filter(|value| *value != record(0)[at]) {
            let mut other = record(0);
            other[at] = value;
            assert_eq!(Answer::read(&other), None, "byte {at} is {value}");
        }
    }
}

#[test]
fn each_refusal_has_its_code_and_words() {
    let refusals = [Refusal::WrongLengths, Refusal::NotWhole, Refusal::BadRequest];
    assert_eq!(refusals.map(|refusal| refusal.code()), [10, 11, 12]);
    let words = refusals.map(|refusal| refusal.to_string());
    assert!(words[0] != words[1] && words[1] != words[2] && words[0] != words[2]);
}

/// Document 01's first case up to the commit, which answers both.
fn commit_that_answers_two() -> (Desk, Answers) {
    let mut desk = Desk::fresh();
    let requests = [
        Request::begin(1),
        Request::insert(1, 100, 7),
        Request::begin(2),
        Request::read(2, 50, 150),
    ];
    for request in requests {
        desk.ask(request).expect("a request record");
    }
    let answers = desk.ask(Request::commit(1)).expect("a request record");
    (desk, answers)
}

#[test]
fn answers_are_counted_exactly() {
    let (_, mut answers) = commit_that_answers_two();
    assert_eq!((answers.len(), answers.size_hint()), (2, (2, Some(2))));
    assert_eq!(answers.next(), Some(Answer { transaction: 1, says: Number::Done }));
    assert_eq!((answers.len(), answers.size_hint()), (1, (1, Some(1))));
    let found = Number::Found { key: Key(100), record: 7 };
    assert_eq!(answers.next(), Some(Answer { transaction: 2, says: found }));
    assert_eq!((answers.len(), answers.size_hint()), (0, (0, Some(0))));
    assert_eq!((answers.next(), answers.next()), (None, None));
}

/// "The commit writes, whole: `14 00 07 00 01 00 00 00`, twelve zeros, `14 00 07 00 02 00 01 00 64
/// 00 00 00 00 00 00 00 07 00 00 00`."
#[test]
fn the_records_still_to_come_are_the_bytes_that_the_call_wrote() {
    let (_, mut answers) = commit_that_answers_two();
    let to_1 = [20, 0, 7, 0, 1, 0, 0, 0, 0, 0, 0, 0, 0, 0, 0, 0, 0, 0, 0, 0];
    let to_2 = [20, 0, 7, 0, 2, 0, 1, 0, 100, 0, 0, 0, 0, 0, 0, 0, 7, 0, 0, 0];
    assert_eq!(answers.bytes(), [to_1, to_2].concat());
    assert_eq!(answers.records().collect::<Vec<_>>(), [to_1, to_2]);
    answers.next();
    assert_eq!(answers.bytes(), to_2);
    assert_eq!(answers.records().len(), 1);
    answers.next();
    assert_eq!(answers.bytes(), []);
}

/// The answers have their own bytes: a call made in between leaves them as they are.
#[test]
fn the_desk_can_be_asked_before_the_last_answer_is_taken() {
    let (mut desk, answers) = commit_that_answers_two();
    let mut taken = vec![];
    for answer in answers {
        desk.ask(Request::begin(3)).expect("a request record");
        taken.push(answer.transaction);
    }
    assert_eq!(taken, [1, 2]);
}

/// Who joins the queue can have another turned away: 19 to that one comes before the asker's own
/// answer. 1 holds one lock and 2 holds two, and each waits for what the other has read.
#[test]
fn a_19_to_another_comes_before_ones_own_3() {
    let mut desk = Desk::fresh();
    let requests = [
        Request::begin(1),
        Request::insert(1, 10, 7),
        Request::insert(1, 20, 7),
        Request::insert(1, 30, 7),
        Request::commit(1),
        Request::begin(1),
        Request::begin(2),
        Request::read(1, 10, 10),
        Request::read(2, 20, 20),
        Request::read(2, 30, 30),
        Request::delete(1, 20),
    ];
    for request in requests {
        desk.ask(request).expect("a request record");
    }
    let told: Vec<Answer> = desk.ask(Request::delete(2, 10)).expect("a request record").collect();
    let to_1 = Answer { transaction: 1, says: Number::Circle };
    let to_2 = Answer { transaction: 2, says: Number::StillQueued { behind: 1 } };
    assert_eq!(told, [to_1, to_2]);
}

/// "A call writes at most 16 answers": one that ends and fifteen that waited for it. Reads don't
/// wait behind reads, so that each of them is told of 1.
#[test]
fn sixteen_answers_in_one_call() {
    let mut desk = Desk::fresh();
    desk.ask(Request::begin(1)).expect("a request record");
    desk.ask(Request::insert(1, 100, 7)).expect("a request record");
    for reader in 2..=16 {
        desk.ask(Request::begin(reader)).expect("a request record");
        let mut told = desk.ask(Request::read(reader, 50, 150)).expect("a request record");
        assert_eq!(told.next().map(|answer| answer.says), Some(Number::StillQueued { behind: 1 }));
    }
    let answers = desk.ask(Request::commit(1)).expect("a request record");
    assert_eq!(answers.len(), 16);
    let found = Number::Found { key: Key(100), record: 7 };
    let to_reader = |transaction| Answer { transaction, says: found };
    let told: Vec<Answer> = answers.collect();
    assert_eq!(told[0], Answer { transaction: 1, says: Number::Done });
    assert_eq!(told[1..], (2..=16).map(to_reader).collect::<Vec<_>>());
}
