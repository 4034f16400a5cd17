//! Several owners insert, delete, revive and end, in any order, while the index fills up, empties
//! and fills up again: after each change all bytes are the model's.

use index::beside::{Beside, Reached};
use index::changes::{Mix, change};
use model::generators::random::Random;

/// Fills the index, empties many of its leaves, fills it again, and then does all of it at once.
const PHASES: [(usize, Mix); 4] = [
    (2_400, Mix { inserts: 90, deletes: 2, runs: 0, revivals: 1, ends: 5, commits: 97 }),
    (300, Mix { inserts: 15, deletes: 15, runs: 25, revivals: 10, ends: 30, commits: 70 }),
    (2_000, Mix { inserts: 80, deletes: 4, runs: 0, revivals: 4, ends: 8, commits: 90 }),
    (1_500, Mix { inserts: 45, deletes: 15, runs: 3, revivals: 12, ends: 20, commits: 60 }),
];

fn run(seed: u64) -> Reached {
    let mut random = Random::new(seed);
    let mut beside = Beside::fresh(seed);
    for (changes, mix) in PHASES {
        for _ in 0..changes {
            change(&mut beside, &mut random, mix, 3_000);
        }
    }
    beside.reached
}

#[test]
fn all_bytes_agree_after_each_change() {
    for seed in 1..=4 {
        let reached = run(seed);
        assert_eq!((reached.height, reached.used), (3, 64), "seed {seed}: {reached:?}");
        assert!(reached.short_with_none > 100, "seed {seed}: {reached:?}");
        assert!(reached.empty_leaves >= 3, "seed {seed}: {reached:?}");
        assert!(reached.past_empty_leaf > 20, "seed {seed}: {reached:?}");
        assert!(reached.past_own_ghost > 20, "seed {seed}: {reached:?}");
        assert!(reached.found_nothing > 20, "seed {seed}: {reached:?}");
        assert!(reached.revived > 20, "seed {seed}: {reached:?}");
        assert!(reached.replaced_nothing > 5, "seed {seed}: {reached:?}");
    }
}
