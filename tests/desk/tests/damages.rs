//! Over 300,000 seeded damages of whole pictures: both verdicts and every broken clause occur, each
//! verdict is the model's, and nothing is changed.

use desk::judging::{CLAUSES, Judge, Verdicts};
use desk::pictures::{FAR, all_locks_s, all_locks_x, at_rest, not_at_rest, settled};
use desk::under_test::LIBRARY;
use model::desk::Picture;

/// How many damaged pictures each test judges at least; together over 300,000.
const AT_REST: usize = 90_000;
const NOT_AT_REST: usize = 170_000;
const FULL: usize = 20_000;
const ON_DAMAGE: usize = 25_000;
const _: () = assert!(AT_REST + NOT_AT_REST + FULL + ON_DAMAGE >= 300_000);

/// Asserts how many were judged, and that both verdicts and every clause occurred.
fn assert_all_occurred(verdicts: &Verdicts, least: usize) {
    println!("{verdicts:?}");
    assert!(verdicts.count() >= least, "{} judged", verdicts.count());
    assert!(verdicts.whole >= 500, "{} stayed whole", verdicts.whole);
    for clause in CLAUSES {
        let times = verdicts.broken.get(&format!("{clause:?}")).copied().unwrap_or(0);
        assert!(times >= 5, "{clause:?} was broken {times} times");
    }
}

#[test]
fn of_pictures_at_rest() {
    let mut judge = Judge::new(LIBRARY, 1);
    judge.damage_each(&at_rest(), 110);
    assert_all_occurred(&judge.verdicts(), AT_REST);
}

#[test]
fn of_pictures_not_at_rest() {
    let mut judge = Judge::new(LIBRARY, 2);
    judge.damage_each(&not_at_rest(2, 400), 20);
    assert_all_occurred(&judge.verdicts(), NOT_AT_REST);
}

/// All pages in use, all locks in use, or both.
#[test]
fn of_full_pictures() {
    let pictures = [
        settled(778),
        all_locks_s(256, 1),
        all_locks_x(256),
        all_locks_s(778, FAR),
        all_locks_x(778),
    ];
    let mut judge = Judge::new(LIBRARY, 3);
    judge.damage_each(&pictures, 200);
    let verdicts = judge.verdicts();
    println!("{verdicts:?}");
    assert!(verdicts.count() >= FULL && verdicts.whole >= 100, "{verdicts:?}");
}

/// Damage on damage, as long as the layouts hold: cycles, shared pages and levels that lie, which
/// must not keep the judgement busy for ever.
#[test]
fn on_damage() {
    let mut judge = Judge::new(LIBRARY, 4);
    judge.damage_on_damage(&not_at_rest(4, 1000), 40);
    let verdicts = judge.verdicts();
    println!("{verdicts:?}");
    assert!(verdicts.count() >= ON_DAMAGE && verdicts.not_whole >= 10_000, "{verdicts:?}");
}

/// Bytes that are nothing at all, and all bytes the same.
#[test]
fn of_no_picture_at_all() {
    let mut judge = Judge::new(LIBRARY, 5);
    let mut random = model::generators::random::Random::new(5);
    for byte in 0..=255 {
        let pages = desk::beside::any_bytes(&mut random, keydesk::PAGES);
        let desk = desk::beside::any_bytes(&mut random, keydesk::DESK);
        assert!(!judge.judge(&Picture { pages, desk }));
        let same = Picture { pages: vec![byte; keydesk::PAGES], desk: vec![byte; keydesk::DESK] };
        assert!(!judge.judge(&same));
    }
}
