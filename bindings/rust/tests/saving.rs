//! Saving and loading: what was saved is loaded, what is not a picture is refused, and a refused
//! call has changed nothing.

use keydesk::{Answer, DESK, Desk, Key, Number, PAGES, Refusal, Request, TRANSACTIONS};

/// A desk with settled keys, an entry that 1 has inserted, and 2, which waits to read it.
fn in_a_session() -> Desk {
    let mut desk = Desk::fresh();
    let requests = [
        Request::begin(1),
        Request::insert(1, Key::of(7, 10), 501),
        Request::insert(1, Key::of(7, 20), 502),
        Request::commit(1),
        Request::begin(1),
        Request::insert(1, Key::of(7, 30), 503),
        Request::begin(2),
        Request::read(2, Key::of(7, 21), Key::of(7, 99)),
    ];
    for request in requests {
        desk.ask(request).expect("a request record");
    }
    desk
}

#[test]
fn saved_are_the_pages_and_then_the_desk() {
    for desk in [Desk::fresh(), in_a_session()] {
        assert_eq!((desk.pages().len(), desk.desk().len()), (PAGES, DESK));
        assert_eq!(desk.saved(), [desk.pages(), desk.desk()].concat());
    }
}

#[test]
fn a_fresh_desk_is_the_one_that_the_library_makes() {
    let (mut pages, mut desk) = (vec![1; PAGES], vec![1; DESK]);
    assert_eq!(keydesk::fresh(&mut pages, &mut desk), keydesk::number::DONE);
    assert_eq!(Desk::fresh().saved(), [pages, desk].concat());
}

#[test]
fn what_was_saved_is_loaded() {
    for desk in [Desk::fresh(), in_a_session()] {
        assert_eq!(Desk::load(&desk.saved()), Ok(desk));
    }
}

/// Who waited when it was saved is answered in a call on what was loaded.
#[test]
fn a_session_goes_on_where_it_was_saved() {
    let mut desk = Desk::load(&in_a_session().saved()).expect("it was saved");
    let answers = desk.ask(Request::commit(1)).expect("a request record");
    let found = Number::Found { key: Key::of(7, 30), record: 503 };
    let expected =
        [Answer { transaction: 1, says: Number::Done }, Answer { transaction: 2, says: found }];
    assert_eq!(answers.collect::<Vec<_>>(), expected);
}

/// Whoever ran when it was saved is rolled back on what was loaded: what is left is what was
/// committed, and nobody runs.
#[test]
fn all_are_rolled_back_after_loading() {
    let mut desk = Desk::load(&in_a_session().saved()).expect("it was saved");
    for transaction in 1..=TRANSACTIONS {
        let answers = desk.ask(Request::rollback(transaction)).expect("a request record");
        let own = answers.into_iter().find(|answer| answer.transaction == transaction);
        let says = own.expect("the asker is answered").says;
        let ran = transaction <= 2;
        assert_eq!(says, if ran { Number::Done } else { Number::NotRunning });
    }
    let mut committed = Desk::fresh();
    let requests = [
        Request::begin(1),
        Request::insert(1, Key::of(7, 10), 501),
        Request::insert(1, Key::of(7, 20), 502),
        Request::commit(1),
    ];
    for request in requests {
        committed.ask(request).expect("a request record");
    }
    assert_eq!(desk, committed);
}

#[test]
fn another_length_is_refused() {
    let saved = in_a_session().saved();
    for length in [0, 1, DESK, PAGES, PAGES + DESK - 1] {
        assert_eq!(Desk::load(&saved[..length]), Err(Refusal::WrongLengths), "{length}");
    }
    let longer = [&saved[..], &[0]].concat();
    assert_eq!(Desk::load(&longer), Err(Refusal::WrongLengths));
}

/// Each of these bytes is fixed by document 01, Records and pages, in every picture.
#[test]
fn one_damaged_byte_is_refused() {
    let saved = in_a_session().saved();
    let page_1 = 512;
    let places = [
        ("page 0's length", 0),
        ("page 0's eight zeros", 8),
        ("page 1's kind", page_1 + 2),
        ("the filler of page 1's first entry", page_1 + 16 + 19),
        ("behind page 1's last entry", page_1 + 511),
        ("a page that is not used", 63 * 512),
        ("the desk's kind", PAGES + 2),
        ("the filler of transaction 1", PAGES + 64 + 24),
        ("the last byte of the last lock", PAGES + DESK - 1),
    ];
    for (what, at) in places {
        let mut damaged = saved.clone();
        damaged[at] ^= 0x80;
        assert_eq!(Desk::load(&damaged), Err(Refusal::NotWhole), "{what}");
    }
}

#[test]
fn pages_and_desk_the_wrong_way_round_are_refused() {
    let desk = in_a_session();
    let swapped = [desk.desk(), desk.pages()].concat();
    assert_eq!(Desk::load(&swapped), Err(Refusal::NotWhole));
}

#[test]
fn a_refused_request_changes_nothing() {
    let mut desk = in_a_session();
    let before = desk.clone();
    assert_eq!(desk.ask(Request::commit(17)).err(), Some(Refusal::BadRequest));
    assert_eq!(desk.ask(Request::read(1, 5, 4)).err(), Some(Refusal::BadRequest));
    assert_eq!(desk, before);
}

/// The empty record by which a picture is judged changes nothing either, whole or not.
#[test]
fn judging_changes_nothing() {
    let whole = in_a_session().saved();
    let mut damaged = whole.clone();
    damaged[0] ^= 1;
    for (bytes, number) in [(whole, 12), (damaged, 11)] {
        let mut judged = bytes.clone();
        let (pages, desk) = judged.split_at_mut(PAGES);
        let mut answers = [9; keydesk::ANSWERS];
        let returned = keydesk::serve(pages, desk, &mut answers, &[]);
        assert_eq!((returned.number, returned.bytes), (number, 0));
        assert_eq!((judged, answers), (bytes, [9; keydesk::ANSWERS]));
    }
}
