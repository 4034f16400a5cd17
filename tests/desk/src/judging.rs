//! Damaged pictures, judged by a desk under test and by the model.

use crate::beside::any_bytes;
use crate::under_test::UnderTest;
use crate::wrongs::Wrong;
use keydesk::{ANSWERS, Returned};
use model::desk::Picture;
use model::generators::damages::Damage;
use model::generators::random::Random;
use model::picture::Tables;
use model::whole::{Clause, broken_clauses, whole};
use std::collections::BTreeMap;

/// How the damaged pictures were judged.
#[derive(Debug, Default)]
pub struct Verdicts {
    pub whole: usize,
    pub not_whole: usize,
    /// How often each clause, by its name, was among the broken ones; one verdict in eight is
    /// looked at so closely.
    pub broken: BTreeMap<String, usize>,
    /// How many pictures each kind of damage made, by its name.
    pub damages: BTreeMap<String, usize>,
}

impl Verdicts {
    pub fn count(&self) -> usize {
        self.whole + self.not_whole
    }
}

/// A damage: to the bytes of a picture, or to its plain values.
#[derive(Clone, Copy, Debug)]
enum Kind {
    Bytes(Damage),
    Values(Wrong),
}

impl Kind {
    fn all() -> Vec<Kind> {
        let to_bytes = Damage::ALL.into_iter().map(Kind::Bytes);
        to_bytes.chain(Wrong::ALL.into_iter().map(Kind::Values)).collect()
    }

    fn done_to(self, random: &mut Random, picture: &Picture, tables: &Tables) -> Option<Picture> {
        match self {
            Kind::Bytes(damage) => damage.to_decoded(random, picture, tables),
            Kind::Values(wrong) => wrong.done_to(random, tables).map(|damaged| damaged.encode()),
        }
    }
}

/// Judges pictures and keeps count.
pub struct Judge {
    under_test: UnderTest,
    random: Random,
    verdicts: Verdicts,
}

impl Judge {
    pub fn new(under_test: UnderTest, seed: u64) -> Judge {
        Judge { under_test, random: Random::new(seed), verdicts: Verdicts::default() }
    }

    /// Damages each picture so many times in each way, and judges what comes of it.
    pub fn damage_each(&mut self, pictures: &[Tables], times: usize) {
        for tables in pictures {
            let picture = tables.encode();
            assert!(self.judge(&picture), "a picture to be damaged is whole");
            for kind in Kind::all() {
                for _ in 0..times {
                    let damaged = kind.done_to(&mut self.random, &picture, tables);
                    let Some(damaged) = damaged else { continue };
                    self.judge(&damaged);
                    *self.verdicts.damages.entry(format!("{kind:?}")).or_default() += 1;
                }
            }
        }
    }

    /// Damages each picture again and again, as long as the layouts hold: hostile trees.
    pub fn damage_on_damage(&mut self, pictures: &[Tables], times: usize) {
        let kinds = Kind::all();
        for tables in pictures {
            let mut tables = tables.clone();
            for _ in 0..times {
                let kind = self.random.pick(&kinds).expect("there are kinds");
                let picture = tables.encode();
                let damaged = kind.done_to(&mut self.random, &picture, &tables);
                let Some(damaged) = damaged else { continue };
                self.judge(&damaged);
                let Some(decoded) = damaged.decode() else { continue };
                tables = decoded;
            }
        }
    }

    /// Asks both for their verdict. The desk under test is asked an empty request, which is number
    /// 12 on a whole picture and 11 on any other; it must change nothing.
    pub fn judge(&mut self, picture: &Picture) -> bool {
        let is_whole = whole(&picture.pages, &picture.desk);
        let number = if is_whole { 12 } else { 11 };
        let mut judged = picture.clone();
        let space = any_bytes(&mut self.random, ANSWERS);
        let mut answers = space.clone();
        let returned =
            (self.under_test.serve)(&mut judged.pages, &mut judged.desk, &mut answers, &[]);
        let say = || broken_clauses(&picture.pages, &picture.desk);
        assert_eq!(returned, Returned { number, bytes: 0 }, "the model finds broken {:?}", say());
        assert!(judged == *picture && answers == space, "a refusal changes nothing");
        self.take_in(picture, is_whole);
        is_whole
    }

    fn take_in(&mut self, picture: &Picture, is_whole: bool) {
        if is_whole {
            self.verdicts.whole += 1;
            return;
        }
        self.verdicts.not_whole += 1;
        if self.verdicts.not_whole.is_multiple_of(8) {
            for clause in broken_clauses(&picture.pages, &picture.desk) {
                *self.verdicts.broken.entry(format!("{clause:?}")).or_default() += 1;
            }
        }
    }

    pub fn verdicts(self) -> Verdicts {
        self.verdicts
    }
}

/// Every clause of document 01's paragraph **Whole**.
pub const CLAUSES: [Clause; 17] = [
    Clause::Layouts,
    Clause::EntryRules,
    Clause::EachPageReachedOnce,
    Clause::Levels,
    Clause::Height,
    Clause::ChildCounts,
    Clause::Ascending,
    Clause::InRange,
    Clause::NoneIsTheEnd,
    Clause::Owners,
    Clause::LockNames,
    Clause::LockHolders,
    Clause::LocksCompatible,
    Clause::OneLockPerHolderAndName,
    Clause::QueueWithoutRepeats,
    Clause::QueueIsTheWaiting,
    Clause::WaitingLegal,
];
