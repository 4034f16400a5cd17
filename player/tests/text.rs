//! Every form of a line, and every reason why a line can't be read.

use play::keys::{Form, Forms, Key, Written};
use play::text::{Asks, Request, Slip, parse};

fn number(key: u64) -> Written {
    Written { key: Key(key), form: Form::Number }
}

fn halves(pupil: u64, delivery: u64) -> Written {
    Written { key: Key(pupil << 32 | delivery), form: Form::Halves }
}

fn request(transaction: u16, asks: Asks) -> Result<Option<Request>, Slip> {
    Ok(Some(Request { transaction, asks }))
}

fn slip(line: &str) -> Slip {
    parse(line).expect_err(line)
}

#[test]
fn begin_commit_and_rollback() {
    assert_eq!(parse("1 begin"), request(1, Asks::Begin));
    assert_eq!(parse("2 commit"), request(2, Asks::Commit));
    assert_eq!(parse("16 rollback"), request(16, Asks::Rollback));
}

#[test]
fn a_read_with_its_range() {
    let asks = Asks::Read { lo: number(50), hi: number(150) };
    assert_eq!(parse("1 read 50..150"), request(1, asks));
    assert_eq!(parse("1 read 50 .. 150"), request(1, asks));
    let asks = Asks::Read { lo: halves(7, 0), hi: halves(7, 99) };
    assert_eq!(parse("1 read 7/0..7/99"), request(1, asks));
}

#[test]
fn an_insert_with_its_record_and_a_delete() {
    let asks = Asks::Insert { key: number(100), record: 7 };
    assert_eq!(parse("2 insert 100 record 7"), request(2, asks));
    let asks = Asks::Insert { key: halves(7, 3), record: u32::MAX };
    assert_eq!(parse("2 insert 7/3 record 4294967295"), request(2, asks));
    assert_eq!(parse("2 delete 100"), request(2, Asks::Delete { key: number(100) }));
    assert_eq!(parse("2 delete 7/3"), request(2, Asks::Delete { key: halves(7, 3) }));
}

#[test]
fn blanks_and_comments_around_a_request() {
    assert_eq!(parse("  1\tbegin   # the night job"), request(1, Asks::Begin));
    assert_eq!(parse("1 begin#"), request(1, Asks::Begin));
    for nothing in ["", "   ", "# 1 begin", "   # a comment"] {
        assert_eq!(parse(nothing), Ok(None), "{nothing:?}");
    }
}

/// What the desk refuses is still well written.
#[test]
fn what_the_desk_refuses_can_be_read() {
    let asks = Asks::Read { lo: number(5), hi: number(4) };
    assert_eq!(parse("1 read 5..4"), request(1, asks));
    let asks = Asks::Delete { key: number(u64::MAX) };
    assert_eq!(parse("1 delete 18446744073709551615"), request(1, asks));
    assert_eq!(parse("0 begin"), request(0, Asks::Begin));
    assert_eq!(parse("65535 begin"), request(65535, Asks::Begin));
}

#[test]
fn both_forms_name_the_same_keys() {
    let end = Written::parse("4294967295/4294967295").expect("two halves");
    assert_eq!(end.key, Key::END);
    assert_eq!(Written::parse("18446744073709551615").expect("a number").key, Key::END);
    assert_eq!(Written::parse("1/0").expect("two halves").key, Key(1 << 32));
}

#[test]
fn a_key_is_written_as_it_was_written() {
    for text in ["0", "100", "18446744073709551614", "0/0", "7/3", "4294967295/4294967294"] {
        assert_eq!(Written::parse(text).expect(text).to_string(), text);
    }
}

#[test]
fn a_drawing_writes_a_key_as_the_session_last_did() {
    let mut forms = Forms::default();
    assert_eq!(forms.written(Key(5)).to_string(), "5");
    forms.note(Written::parse("0/5").expect("two halves"));
    assert_eq!(forms.written(Key(5)).to_string(), "0/5");
    forms.note(Written::parse("5").expect("a number"));
    assert_eq!(forms.written(Key(5)).to_string(), "5");
}

#[test]
fn what_is_asked_is_said_as_a_line_writes_it() {
    for line in ["begin", "commit", "rollback", "read 7/0..99", "insert 7/3 record 9", "delete 5"] {
        let read = parse(&format!("1 {line}")).expect(line).expect(line);
        assert_eq!(read.asks.to_string(), line);
    }
}

#[test]
fn a_line_without_a_transaction() {
    for (line, text) in [("begin", "begin"), ("-1 begin", "-1"), ("+1 begin", "+1")] {
        assert_eq!(slip(line), Slip::NoTransaction(text.to_string()));
    }
    assert_eq!(slip("65536 begin"), Slip::NoTransaction("65536".to_string()));
}

#[test]
fn a_line_without_a_request_or_with_an_unknown_one() {
    assert_eq!(slip("1"), Slip::NothingAsked);
    assert_eq!(slip("1 # begin"), Slip::NothingAsked);
    assert_eq!(slip("1 Begin"), Slip::UnknownRequest("Begin".to_string()));
}

#[test]
fn a_read_without_its_range() {
    for line in ["1 read", "1 read 50", "1 read 50..", "1 read ..150", "1 read 50-150"] {
        assert_eq!(slip(line), Slip::NoRange, "{line}");
    }
}

#[test]
fn an_insert_or_a_delete_without_its_key_or_record() {
    assert_eq!(slip("1 insert"), Slip::NoKeyToInsert);
    assert_eq!(slip("1 delete"), Slip::NoKeyToDelete);
    for line in ["1 insert 100", "1 insert 100 record", "1 insert 100 7", "1 insert 100 with 7"] {
        assert_eq!(slip(line), Slip::NoRecord, "{line}");
    }
}

#[test]
fn what_is_no_key() {
    let texts = ["x", "-1", "1.5", "7/", "/3", "7/3/1", "18446744073709551616", "4294967296/0"];
    for text in texts.into_iter().chain(["0/4294967296", "0x10", "+1"]) {
        assert_eq!(slip(&format!("1 delete {text}")), Slip::BadKey(text.to_string()));
        assert_eq!(slip(&format!("1 insert {text} record 1")), Slip::BadKey(text.to_string()));
        assert_eq!(slip(&format!("1 read 0..{text}")), Slip::BadKey(text.to_string()));
        assert_eq!(slip(&format!("1 read {text}..9")), Slip::BadKey(text.to_string()));
    }
    assert_eq!(slip("1 read 1..2..3"), Slip::BadKey("2..3".to_string()));
}

#[test]
fn what_is_no_record() {
    for text in ["seven", "-7", "4294967296"] {
        let line = format!("1 insert 100 record {text}");
        assert_eq!(slip(&line), Slip::BadRecord(text.to_string()));
    }
}

#[test]
fn what_is_too_much() {
    for line in ["begin now", "commit now", "rollback now", "read 1..2 now", "delete 1 now"] {
        assert_eq!(slip(&format!("1 {line}")), Slip::TooMuch("now".to_string()), "{line}");
    }
    assert_eq!(slip("1 insert 1 record 2 and 3"), Slip::TooMuch("and 3".to_string()));
}

#[test]
fn every_slip_says_what_was_written_and_how_to_write_it() {
    let said = [
        ("one begin", "a line starts with a transaction's number, 1 to 16, and 'one' is none"),
        ("1", "a request is missing: begin, commit, rollback, read, insert or delete"),
        ("1 go", "'go' is no request: begin, commit, rollback, read, insert or delete"),
        ("1 read", "a read names its range, as in: 1 read 50..150"),
        ("1 insert", "an insert names its key and record, as in: 2 insert 100 record 7"),
        ("1 insert 1", "an insert names its record, as in: 2 insert 100 record 7"),
        ("1 delete", "a delete names its key, as in: 2 delete 100"),
        (
            "1 delete x",
            "'x' is no key: a key is a number below 2^64, or pupil/delivery, each below 2^32",
        ),
        ("1 insert 1 record x", "'x' is no record: a record is a number below 2^32"),
        ("1 begin x", "'x' is too much: the request ends before it"),
    ];
    for (line, words) in said {
        assert_eq!(slip(line).to_string(), words);
    }
}
