//! Seeded sessions from fresh, over 200,000 requests in all, beside the model. Each kind of session
//! has to reach what it is there for.

use desk::met::Met;
use desk::runs::{Run, biased, circles_of_each_length, scripted, scripts, together};
use desk::scripts::{older_freed, reader_let_past, sixteen_answers};
use desk::under_test::LIBRARY;
use model::generators::requests::{Bias, Requests};

/// Runs and requests in each of them, for each bias.
const WAITS: (u64, usize) = (14, 3000);
const CIRCLES: (u64, usize) = (14, 3000);
const GHOSTS: (u64, usize) = (12, 3000);
const UPGRADES: (u64, usize) = (12, 3000);
const SPLITS: (u64, usize) = (9, 2500);
const FULL_LOCKS: (u64, usize) = (9, 2500);

const REQUESTS: u64 = {
    let runs = [WAITS, CIRCLES, GHOSTS, UPGRADES, SPLITS, FULL_LOCKS];
    let (mut sum, mut next) = (0, 0);
    while next < runs.len() {
        sum += runs[next].0 * runs[next].1 as u64;
        next += 1;
    }
    sum
};
const _: () = assert!(REQUESTS >= 200_000);

fn sessions(bias: Bias, (seeds, requests): (u64, usize)) -> Met {
    let met = biased(LIBRARY, bias, seeds, requests);
    println!("{bias:?}: {met:?}");
    assert_eq!(met.requests, seeds as usize * requests);
    met
}

/// Asserts that each of these numbers was answered at least so often.
fn assert_numbers(met: &Met, least: usize, numbers: &[u16]) {
    for number in numbers {
        let times = met.count(*number);
        assert!(times >= least, "number {number} came {times} times");
    }
}

/// Asserts that a 3 has named holders and earlier waiters, also one waiter of a lower number than a
/// holder, and that it often had several to choose from.
fn assert_named(met: &Met) {
    assert!(met.holders_named >= 1000 && met.waiters_named >= 100, "{met:?}");
    assert!(met.waiters_named_before_holders >= 20 && met.several_in_the_way >= 500, "{met:?}");
}

#[test]
fn waits() {
    let met = sessions(Bias::WAITS, WAITS);
    assert_numbers(&met, 100, &[0, 1, 2, 3, 13, 14, 15, 16, 19]);
    assert!(met.older_freed >= 1);
    assert_named(&met);
}

#[test]
fn circles() {
    let met = sessions(Bias::CIRCLES, CIRCLES);
    assert_numbers(&met, 100, &[0, 1, 2, 3, 13, 14, 15, 16, 19]);
    for length in 2..=4 {
        assert!(met.circles[&length] >= 10, "circles of {length}");
        assert!(met.older_turned_away[&length] >= 10, "older ones in circles of {length}");
        assert!(met.equally_light[&length] >= 10, "equally light ones in circles of {length}");
    }
    assert!(met.waits_after_a_19 >= 100 && met.runs_after_a_19 >= 50, "{met:?}");
    assert!(met.lighter_ones_spared >= 500 && met.named_otherwise_at_rest >= 20, "{met:?}");
    assert_named(&met);
}

#[test]
fn ghosts() {
    let met = sessions(Bias::GHOSTS, GHOSTS);
    assert!(met.ghosts >= 1000);
    assert!(met.inserts_over_own_ghosts >= 500);
    assert!(met.own_ghosts_skipped >= 100);
    assert!(met.settlings >= 1000);
}

#[test]
fn upgrades_from_s_to_x() {
    let met = sessions(Bias::UPGRADES, UPGRADES);
    assert!(met.upgrades >= 500);
    assert!(met.settlings >= 1000);
}

#[test]
fn splits_until_the_pages_are_short() {
    let met = sessions(Bias::SPLITS, SPLITS);
    assert_numbers(&met, 100, &[18]);
    assert!(met.splits >= 400 && met.height_3 >= 1000 && met.full_index >= 1000);
    assert!(met.settlings >= 1000);
}

#[test]
fn locks_until_all_are_in_use() {
    let met = sessions(Bias::FULL_LOCKS, FULL_LOCKS);
    assert_numbers(&met, 1000, &[17]);
}

/// Sixteen transactions in an index of three levels.
#[test]
fn waits_in_a_tall_index() {
    let wide = Bias { span: u64::MAX, reach: 1 << 56, ..Bias::WAITS };
    let met = together((1..=6).map(|seed| {
        let mut run = Run::fresh(LIBRARY, seed);
        run.steps(&mut Requests::new(seed, Bias::SPLITS), 1000);
        run.steps(&mut Requests::without_opening(seed, wide), 2000);
        run.met()
    }));
    assert!(met.height_3 >= 12_000, "{met:?}");
    assert_numbers(&met, 10, &[0, 1, 2, 3, 13, 14, 15, 16, 19]);
}

/// Each length that a circle can have, with lock counts that differ and that are equal. Who holds
/// fewer and is on no circle is spared; whoever turns others away has to wait then.
#[test]
fn circles_of_two_to_sixteen() {
    let met = circles_of_each_length(LIBRARY, 20);
    println!("{met:?}");
    assert!(met.waits_after_a_19 >= 100 && met.lighter_ones_spared >= 30, "{met:?}");
    assert!(met.named_otherwise_at_rest >= 20, "{met:?}");
}

/// Whoever turns another away can also run then.
#[test]
fn circles_that_let_the_new_one_run() {
    let met = scripted(LIBRARY, scripts(40, 2, reader_let_past), 40);
    assert!(met.runs_after_a_19 >= 40, "{met:?}");
    assert!([1, 2, 16].iter().all(|number| met.count(*number) >= 40), "{met:?}");
}

#[test]
fn runs_that_free_an_older_request() {
    let met = scripted(LIBRARY, scripts(40, 2, older_freed), 40);
    assert!(met.older_freed >= 40, "{met:?}");
}

#[test]
fn sixteen_answers_in_one_call() {
    let met = scripted(LIBRARY, scripts(40, 1, sixteen_answers), 40);
    assert!(met.calls_with_16_answers >= 40, "{met:?}");
}
