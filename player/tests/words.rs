//! The words for every number of document 01, What the desk says.

use keydesk::{Answer, Number, Refusal};
use play::circle::Call;
use play::keys::Written;
use play::session::Session;
use play::text::{Asks, Request, parse};
use play::transcript::transcript;
use play::words::{self, answer, refusal};

fn key(text: &str) -> Written {
    Written::parse(text).expect(text)
}

fn read() -> Asks {
    Asks::Read { lo: key("50"), hi: key("150") }
}

fn insert() -> Asks {
    Asks::Insert { key: key("100"), record: 7 }
}

fn delete() -> Asks {
    Asks::Delete { key: key("100") }
}

/// The words for a number in answer to a request; the answer carries key 100 and record 9.
fn said(number: u8, asks: Asks) -> String {
    let record = [20, 0, 7, 0, 1, 0, number, 0, 100, 0, 0, 0, 0, 0, 0, 0, 9, 0, 0, 0];
    answer(&Answer::read(&record).expect("an answer"), &asks)
}

#[test]
fn done_says_what_was_done() {
    assert_eq!(said(0, Asks::Begin), "begun");
    assert_eq!(said(0, Asks::Commit), "committed");
    assert_eq!(said(0, Asks::Rollback), "rolled back");
    assert_eq!(said(0, insert()), "inserted 100 with record 7");
    assert_eq!(said(0, delete()), "deleted 100");
}

#[test]
fn a_read_is_told_what_it_found() {
    assert_eq!(said(1, read()), "found 100 with record 9");
    assert_eq!(said(2, read()), "found nothing from 50 to 150");
}

#[test]
fn keys_are_written_as_the_request_writes_them() {
    let read = Asks::Read { lo: key("0/50"), hi: key("0/150") };
    assert_eq!(said(1, read), "found 0/100 with record 9");
    assert_eq!(said(2, read), "found nothing from 0/50 to 0/150");
    let insert = Asks::Insert { key: key("0/100"), record: 7 };
    assert_eq!(said(0, insert), "inserted 0/100 with record 7");
    assert_eq!(said(16, insert), "0/100 is there already, with record 9");
}

#[test]
fn a_delete_of_an_absent_key() {
    assert_eq!(said(2, delete()), "found no 100 to delete");
}

/// The answer's record field names who is in the way.
#[test]
fn waiting() {
    for asks in [read(), insert(), delete()] {
        assert_eq!(said(3, asks), "waits behind 9");
    }
}

/// 1 and 3 hold S on 7/30, and 2 would put 7/25 below it. An answer that named 3 would be told so:
/// the name is the answer's, and only the reason is worked out.
#[test]
fn who_waits_is_told_the_name_that_the_answer_carries() {
    let lines = "16 begin\n16 insert 7/30 record 1\n16 commit\n1 begin\n2 begin\n3 begin\n\
                 1 read 7/30..7/30\n3 read 7/30..7/30\n2 insert 7/25 record 7";
    let mut session = Session::fresh();
    lines.lines().for_each(|line| drop(session.play(0, line)));
    let request = parse("2 insert 7/25 record 7").expect("a request").expect("a request");
    let told = |behind: u16| {
        let answers = vec![Answer { transaction: 2, says: Number::StillQueued { behind } }];
        let (before, after) = (session.standing(), session.standing());
        words::said(&Call { before, after, request, answers }, 0, &request.asks)
    };
    let holds = |one: u16, other: u16| {
        format!(
            "waits behind {one}, who holds S on 7/30; also in the way is {other}, who holds S on it"
        )
    };
    assert_eq!(told(1), holds(1, 3));
    assert_eq!(told(3), holds(3, 1));
}

/// What the desk says to the last line of a session on the settled key 7/30, held by 1.
fn said_last(line: &str) -> String {
    let begun = "16 begin\n16 insert 7/30 record 1\n16 commit\n1 begin\n2 begin\n";
    let played = transcript(&format!("{begun}1 delete 7/30\n{line}\n"), false).text;
    played.lines().last().expect("something is said").trim().to_string()
}

/// 7/30 is 7 * 2^32 + 30. A line that names the key writes it anew.
#[test]
fn who_is_in_the_way_of_one_that_waits_and_keys_as_the_session_last_wrote_them() {
    assert_eq!(said_last("2 insert 7/25 record 7"), "2: waits behind 1, who holds X on 7/30 (3)");
    assert_eq!(said_last("2 insert 25 record 7"), "2: waits behind 1, who holds X on 7/30 (3)");
    let as_number = "2: waits behind 1, who holds X on 30064771102 (3)";
    assert_eq!(said_last("2 delete 30064771102"), as_number);
    assert_eq!(said_last("1 read 30064771102..30064771102\n2 insert 7/25 record 7"), as_number);
}

#[test]
fn refused_by_an_answer() {
    assert_eq!(said(13, Asks::Begin), "has begun already");
    assert_eq!(said(14, Asks::Commit), "isn't running: begin comes first");
    assert_eq!(said(15, read()), "is waiting, and can only roll back");
    assert_eq!(said(16, insert()), "100 is there already, with record 9");
    assert_eq!(said(17, read()), "turned away: all 256 locks are in use");
    assert_eq!(said(18, insert()), "turned away: no page is left for another key");
    assert_eq!(said(19, delete()), "turned away, the lightest in a circle");
}

#[test]
fn refused_by_the_call() {
    let request = |transaction, asks| Request { transaction, asks };
    let begin = request(1, Asks::Begin);
    assert_eq!(refusal(Refusal::WrongLengths, &begin), "refused: a buffer has the wrong length");
    assert_eq!(refusal(Refusal::NotWhole, &begin), "refused: the picture isn't whole");
    let crossed = Asks::Read { lo: key("5"), hi: key("4") };
    let ended = Asks::Read { lo: key("5"), hi: key("18446744073709551615") };
    let why = |transaction, asks| refusal(Refusal::BadRequest, &request(transaction, asks));
    assert_eq!(why(1, crossed), "refused: the range ends before it starts");
    assert_eq!(why(1, ended), "refused: that number is the end of the index, and no key");
    assert_eq!(why(0, Asks::Begin), "refused: a transaction is 1 to 16");
    assert_eq!(why(17, crossed), "refused: a transaction is 1 to 16");
    assert_eq!(why(1, Asks::Begin), "refused: a bad request record");
}
