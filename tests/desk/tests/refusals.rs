//! Numbers 10, 11 and 12: every cause, which comes first, and nothing changed (document 01, What
//! the desk says; Records and pages). Each call is also held to the model's.

use desk::beside::{Beside, Lent, any_bytes, call};
use desk::pictures::{all_running, not_at_rest};
use desk::under_test::LIBRARY;
use keydesk::{ANSWERS, DESK, PAGES, Returned};
use model::desk::{Picture, fresh};
use model::generators::random::Random;
use model::layout::request::Request;

const BEGIN: [u8; 8] = [8, 0, 1, 0, 1, 0, 0, 0];
const COMMIT: [u8; 8] = [8, 0, 2, 0, 1, 0, 0, 0];
const ROLLBACK: [u8; 8] = [8, 0, 3, 0, 1, 0, 0, 0];
/// A read of 1..2, an insert of key 1 with record 9 and a delete of key 1, all by transaction 1.
const READ: [u8; 24] = [24, 0, 4, 0, 1, 0, 0, 0, 1, 0, 0, 0, 0, 0, 0, 0, 2, 0, 0, 0, 0, 0, 0, 0];
const INSERT: [u8; 24] = [24, 0, 5, 0, 1, 0, 0, 0, 1, 0, 0, 0, 0, 0, 0, 0, 9, 0, 0, 0, 0, 0, 0, 0];
const DELETE: [u8; 16] = [16, 0, 6, 0, 1, 0, 0, 0, 1, 0, 0, 0, 0, 0, 0, 0];
const GOOD: [&[u8]; 6] = [&BEGIN, &COMMIT, &ROLLBACK, &READ, &INSERT, &DELETE];

/// The bytes with some of them changed.
fn with(bytes: &[u8], at: usize, values: &[u8]) -> Vec<u8> {
    let mut changed = bytes.to_vec();
    changed[at..at + values.len()].copy_from_slice(values);
    changed
}

/// The bytes cut or lengthened, and saying so in their length field where they still have one.
fn of_length(bytes: &[u8], length: usize) -> Vec<u8> {
    let mut resized = bytes.to_vec();
    resized.resize(length, 0);
    if length >= 2 { with(&resized, 0, &(length as u16).to_le_bytes()) } else { resized }
}

/// Bad requests for each cause of number 12, in document 01's order.
fn bad_requests() -> Vec<(&'static str, Vec<u8>)> {
    let mut bad = Vec::new();
    for good in GOOD {
        for length in 0..8 {
            bad.push(("a slice under 8 bytes", good[..length].to_vec()));
            bad.push(("a slice under 8 bytes that says so", of_length(good, length)));
        }
        for length in [0, 7, 9, 12, 20, 32, 255] {
            bad.push(("a length unlike the slice", with(good, 0, &[length, 0])));
        }
        bad.push(("a length unlike the slice", with(good, 1, &[1])));
        bad.push(("a slice that goes on", [good, &[0; 8]].concat()));
        for length in [8, 9, 12, 15, 16, 17, 20, 23, 24, 25, 32, 264] {
            if length != good.len() {
                bad.push(("a length unlike the kind", of_length(good, length)));
            }
        }
        for kind in [0, 7, 8, 9, 255] {
            bad.push(("an unknown kind", with(good, 2, &[kind, 0])));
        }
        bad.push(("an unknown kind", with(good, 3, &[1])));
        for at in [6, 7] {
            bad.push(("nonzero filler", with(good, at, &[1])));
            bad.push(("nonzero filler", with(good, at, &[128])));
        }
        for transaction in [[0, 0], [17, 0], [255, 0], [0, 1], [1, 1], [255, 255]] {
            bad.push(("a transaction outside 1..16", with(good, 4, &transaction)));
        }
    }
    for at in 20..24 {
        bad.push(("nonzero filler of an insert", with(&INSERT, at, &[1])));
    }
    let end = [0xFF; 8];
    bad.push(("the end as key", with(&INSERT, 8, &end)));
    bad.push(("the end as key", with(&DELETE, 8, &end)));
    bad.push(("the end as hi", with(&READ, 16, &end)));
    bad.push(("the end as lo", with(&READ, 8, &end)));
    bad.push(("the end as lo and hi", with(&with(&READ, 8, &end), 16, &end)));
    bad.push(("lo above hi", with(&READ, 8, &[3])));
    bad.push(("lo above hi by its highest byte", with(&READ, 15, &[1])));
    bad
}

/// Pages, desk and answer space of these lengths: those of the picture, cut or lengthened.
fn lent(random: &mut Random, picture: &Picture, lengths: [usize; 3]) -> Lent {
    let Picture { mut pages, mut desk } = picture.clone();
    pages.resize(lengths[0], 0);
    desk.resize(lengths[1], 0);
    Lent { picture: Picture { pages, desk }, answers: any_bytes(random, lengths[2]) }
}

/// Makes the call, which must be refused with this number, no answer bytes and nothing changed.
fn assert_refused(number: u32, lent: &Lent, request: &[u8], about: &str) {
    let (returned, after) = call(LIBRARY, lent, request, about);
    assert_eq!((returned.number, returned.bytes), (number, 0), "{about}");
    after.assert_is(lent, about);
}

/// The good requests are served, so that what follows is refused for its own cause alone.
#[test]
fn good_requests_are_not_refused() {
    let mut random = Random::new(1);
    let lent = lent(&mut random, &fresh(), [PAGES, DESK, ANSWERS]);
    let highest = [0xFE, 0xFF, 0xFF, 0xFF, 0xFF, 0xFF, 0xFF, 0xFF];
    let mut good: Vec<Vec<u8>> = GOOD.iter().map(|request| request.to_vec()).collect();
    good.extend(GOOD.iter().map(|request| with(request, 4, &[16])));
    good.push(with(&READ, 8, &[2]));
    good.push(with(&READ, 16, &highest));
    good.push(with(&INSERT, 8, &highest));
    good.push(with(&DELETE, 8, &highest));
    for request in good {
        let (returned, _) = call(LIBRARY, &lent, &request, &format!("{request:?}"));
        assert_eq!((returned.number, returned.bytes), (0, 20), "{request:?}");
    }
}

#[test]
fn twelve_for_every_cause() {
    let mut random = Random::new(2);
    let mut pictures = vec![fresh()];
    pictures.extend(not_at_rest(2, 8).iter().map(|tables| tables.encode()));
    for picture in &pictures {
        let lent = lent(&mut random, picture, [PAGES, DESK, ANSWERS]);
        for (cause, request) in bad_requests() {
            assert_refused(12, &lent, &request, &format!("{cause}: {request:?}"));
        }
    }
}

/// Asks each record on a picture in which all run, so that a good one acts on its own fields: those
/// that the model reads are answered as it answers them, and 12 refuses the others. Gives how many
/// of each there were. The picture is whole, and the model need not judge it each time.
fn served_and_refused(records: impl Iterator<Item = Vec<u8>>) -> (usize, usize) {
    let picture = all_running(10).encode();
    let lent = Lent::with_space(&mut Random::new(5), picture.clone());
    let (mut served, mut refused) = (0, 0);
    for record in records {
        if let Some(request) = Request::decode(&record) {
            Beside::from(LIBRARY, 5, picture.clone()).ask(request);
            served += 1;
            continue;
        }
        let mut after = lent.clone();
        let Picture { pages, desk } = &mut after.picture;
        let returned = (LIBRARY.serve)(pages, desk, &mut after.answers, &record);
        assert_eq!(returned, Returned { number: 12, bytes: 0 }, "{record:?}");
        after.assert_is(&lent, "a refusal");
        refused += 1;
    }
    (served, refused)
}

/// Each byte of a record of each kind, with every value that it can have.
#[test]
fn every_byte_of_every_kind_with_every_value() {
    let of_byte = |good, at| (0..=u8::MAX).map(move |value| with(good, at, &[value]));
    let of_kind = |good: &'static [u8]| (0..good.len()).flat_map(move |at| of_byte(good, at));
    let (served, refused) = served_and_refused(GOOD.into_iter().flat_map(of_kind));
    assert_eq!(served + refused, (8 + 8 + 8 + 24 + 24 + 16) * 256);
    assert!(served > 7_000 && refused > 14_000, "{served} served, {refused} refused");
}

/// Heads of records in front of anything, of any length.
#[test]
fn made_up_records() {
    let mut random = Random::new(6);
    let made_up = |_| {
        let any_length = random.between(0, 40);
        let length = random.pick(&[8, 16, 24, any_length]).expect("there are lengths");
        let told = if random.chance(80) { length } else { any_length };
        let head = [told as u8, 0, random.below(8) as u8, 0, random.below(18) as u8, 0, 0, 0];
        let mut record = any_bytes(&mut random, length);
        let told_bytes = length.min(head.len());
        record[..told_bytes].copy_from_slice(&head[..told_bytes]);
        record
    };
    let (served, refused) = served_and_refused((0..20_000).map(made_up));
    assert!(served > 1_000 && refused > 10_000, "{served} served, {refused} refused");
}

/// Every wrong length of each slice, with the others right and wrong, on a whole and on a broken
/// picture, with a good, a bad and an empty request: "checks go in the order 10, 11, 12".
#[test]
fn ten_before_eleven_before_twelve() {
    let mut random = Random::new(3);
    let whole = fresh();
    let broken = Picture { desk: with(&whole.desk, 2, &[9]), ..fresh() };
    let requests: [(&[u8], bool); 3] = [(&BEGIN, true), (&BEGIN[..7], false), (&[], false)];
    for pages in [0, 1, 512, PAGES - 1, PAGES, PAGES + 1, 2 * PAGES] {
        for desk in [0, 1, 32, DESK - 1, DESK, DESK + 1, 2 * DESK] {
            for answers in [0, 1, 20, ANSWERS - 1, ANSWERS, ANSWERS + 1, 5000] {
                for (picture, is_whole) in [(&whole, true), (&broken, false)] {
                    let lent = lent(&mut random, picture, [pages, desk, answers]);
                    for (request, is_good) in requests {
                        let about = format!("{pages}, {desk}, {answers} bytes, {request:?}");
                        if pages != PAGES || desk != DESK || answers < ANSWERS {
                            assert_refused(10, &lent, request, &about);
                        } else if !is_whole {
                            assert_refused(11, &lent, request, &about);
                        } else if !is_good {
                            assert_refused(12, &lent, request, &about);
                        } else {
                            let (returned, _) = call(LIBRARY, &lent, request, &about);
                            assert_eq!((returned.number, returned.bytes), (0, 20), "{about}");
                        }
                    }
                }
            }
        }
    }
}

/// A fresh picture is made of any bytes of the right lengths, and of no others.
#[test]
fn fresh_asks_for_the_right_lengths() {
    let mut random = Random::new(4);
    for pages in [0, 1, PAGES - 1, PAGES, PAGES + 1] {
        for desk in [0, 1, DESK - 1, DESK, DESK + 1] {
            let is_right = (pages, desk) == (PAGES, DESK);
            let pages = any_bytes(&mut random, pages);
            let before = Picture { pages, desk: any_bytes(&mut random, desk) };
            let mut made = before.clone();
            let number = keydesk::fresh(&mut made.pages, &mut made.desk);
            assert_eq!(number, if is_right { 0 } else { 10 });
            assert!(made == if is_right { fresh() } else { before });
        }
    }
}
