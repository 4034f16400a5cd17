//! The plain desk beside the model, every byte after every call, so that the benchmark compares
//! like with like.

use desk::judging::Judge;
use desk::pictures::{all_locks_s, all_locks_x, at_rest, not_at_rest, settled};
use desk::runs::{Run, biased, circles_of_each_length, named_at_rest, scripted, scripts, together};
use desk::scripts::reader_let_past;
use desk::under_test::UnderTest;
use model::generators::requests::{Bias, Requests};

const PLAIN: UnderTest = UnderTest { fresh: plain::fresh, serve: plain::serve };

#[test]
fn sessions_from_fresh() {
    let met = together(Bias::ALL.into_iter().map(|bias| biased(PLAIN, bias, 1, 2300)));
    for number in [0, 1, 2, 3, 13, 14, 15, 16, 17, 18, 19] {
        let times = met.count(number);
        assert!(times >= 5, "number {number} came {times} times");
    }
    assert!(met.upgrades > 0 && met.inserts_over_own_ghosts > 0 && met.older_freed > 0, "{met:?}");
    assert!(met.height_3 > 0 && met.full_index > 0 && met.settlings > 0, "{met:?}");
    assert!(met.holders_named > 0 && met.waiters_named_before_holders > 0, "{met:?}");
}

#[test]
fn circles_of_two_to_sixteen() {
    let met = circles_of_each_length(PLAIN, 20);
    assert!(met.waits_after_a_19 >= 100 && met.lighter_ones_spared >= 30, "{met:?}");
    let met = scripted(PLAIN, scripts(40, 2, reader_let_past), 40);
    assert!(met.runs_after_a_19 >= 40, "{met:?}");
}

#[test]
fn runs_from_pictures_not_at_rest() {
    let met = together(not_at_rest(5, 300).iter().zip(0..).map(|(tables, seed)| {
        let mut run = Run::from(PLAIN, seed, tables.encode());
        run.steps(&mut Requests::without_opening(seed, Bias::WAITS), 8);
        run.met()
    }));
    assert_eq!(met.requests, 2400);
    assert!(met.count(19) >= 20 && met.count(17) >= 1, "{met:?}");
}

#[test]
fn a_3_names_who_is_in_the_way_at_rest() {
    let met = named_at_rest(PLAIN, 100);
    assert!(met.count(3) == 100 && met.named_otherwise_at_rest >= 25, "{met:?}");
}

#[test]
fn damages() {
    let mut judge = Judge::new(PLAIN, 6);
    judge.damage_each(&not_at_rest(6, 100), 3);
    judge.damage_each(&at_rest(), 2);
    judge.damage_each(&[settled(778), all_locks_s(256, 1), all_locks_x(778)], 10);
    judge.damage_on_damage(&not_at_rest(7, 50), 20);
    let verdicts = judge.verdicts();
    assert!(verdicts.whole >= 500 && verdicts.not_whole >= 5000, "{verdicts:?}");
}
