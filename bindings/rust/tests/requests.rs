//! The record of each request, against bytes written by hand from document 01, Records and pages.

use keydesk::{Asks, Desk, Key, Number, Refusal, Request};

#[test]
fn begin_commit_and_rollback_are_eight_bytes() {
    assert_eq!(*Request::begin(1).record(), [8, 0, 1, 0, 1, 0, 0, 0]);
    assert_eq!(*Request::commit(16).record(), [8, 0, 2, 0, 16, 0, 0, 0]);
    assert_eq!(*Request::rollback(3).record(), [8, 0, 3, 0, 3, 0, 0, 0]);
}

#[test]
fn a_read_has_lo_and_hi() {
    let read = [24, 0, 4, 0, 2, 0, 0, 0, 50, 0, 0, 0, 0, 0, 0, 0, 150, 0, 0, 0, 0, 0, 0, 0];
    assert_eq!(*Request::read(2, 50, 150).record(), read);
}

#[test]
fn an_insert_has_key_record_and_four_zeros() {
    let insert = [24, 0, 5, 0, 1, 0, 0, 0, 100, 0, 0, 0, 0, 0, 0, 0, 7, 0, 0, 0, 0, 0, 0, 0];
    assert_eq!(*Request::insert(1, 100, 7).record(), insert);
    let full = [24, 0, 5, 0, 1, 0, 0, 0, 30, 0, 0, 0, 7, 0, 0, 0, 255, 255, 255, 255, 0, 0, 0, 0];
    assert_eq!(*Request::insert(1, Key::of(7, 30), u32::MAX).record(), full);
}

#[test]
fn a_delete_has_its_key() {
    let delete = [16, 0, 6, 0, 1, 0, 0, 0, 100, 0, 0, 0, 0, 0, 0, 0];
    assert_eq!(*Request::delete(1, 100).record(), delete);
    let every_byte = [16, 0, 6, 0, 2, 1, 0, 0, 8, 7, 6, 5, 4, 3, 2, 1];
    assert_eq!(*Request::delete(0x0102, 0x0102_0304_0506_0708).record(), every_byte);
}

#[test]
fn each_constructor_is_the_request_that_its_name_says() {
    let asked = |request: Request| (request.transaction, request.asks);
    assert_eq!(asked(Request::begin(1)), (1, Asks::Begin));
    assert_eq!(asked(Request::commit(2)), (2, Asks::Commit));
    assert_eq!(asked(Request::rollback(3)), (3, Asks::Rollback));
    let (lo, hi) = (Key(5), Key(6));
    assert_eq!(asked(Request::read(4, lo, hi)), (4, Asks::Read { lo, hi }));
    assert_eq!(asked(Request::insert(5, 9, 8)), (5, Asks::Insert { key: Key(9), record: 8 }));
    assert_eq!(asked(Request::delete(6, 9)), (6, Asks::Delete { key: Key(9) }));
}

/// The desk takes each record as the request that it is: what is asked is what is done.
#[test]
fn the_desk_takes_each_of_them() {
    let mut desk = Desk::fresh();
    let mut told = |request: Request| {
        let answers = desk.ask(request).expect("a request record");
        answers.map(|answer| (answer.transaction, answer.says)).collect::<Vec<_>>()
    };
    let (key, record) = (Key::HIGHEST, u32::MAX);
    assert_eq!(told(Request::begin(16)), [(16, Number::Done)]);
    assert_eq!(told(Request::insert(16, key, record)), [(16, Number::Done)]);
    let found = Number::Found { key, record };
    assert_eq!(told(Request::read(16, Key::LOWEST, key)), [(16, found)]);
    assert_eq!(told(Request::rollback(16)), [(16, Number::Done)]);
    assert_eq!(told(Request::begin(1)), [(1, Number::Done)]);
    assert_eq!(told(Request::read(1, Key::LOWEST, key)), [(1, Number::Nothing)]);
    assert_eq!(told(Request::delete(1, key)), [(1, Number::Nothing)]);
    assert_eq!(told(Request::commit(1)), [(1, Number::Done)]);
}

/// "a transaction outside 1..16, the end as key, lo or hi, or lo above hi": nothing has changed.
#[test]
fn the_desk_refuses_what_is_no_request() {
    let end = Key(u64::MAX);
    let bad = [
        Request::begin(0),
        Request::begin(17),
        Request::read(1, 5, 4),
        Request::read(1, end, end),
        Request::read(1, 0, end),
        Request::insert(1, end, 7),
        Request::delete(1, end),
    ];
    let mut desk = Desk::fresh();
    desk.ask(Request::begin(1)).expect("a request record");
    let before = desk.clone();
    for request in bad {
        assert_eq!(desk.ask(request).err(), Some(Refusal::BadRequest), "{request:?}");
        assert_eq!(desk, before, "{request:?}");
    }
}
