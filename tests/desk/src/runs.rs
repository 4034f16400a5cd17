//! Seeded runs of both desks that count what they meet.

use crate::beside::Beside;
use crate::met::Met;
use crate::pictures::others_in_the_way_at_rest;
use crate::scripts::{WEIGHTS, circle, settled};
use crate::under_test::UnderTest;
use model::desk::Picture;
use model::generators::random::Random;
use model::generators::requests::{Bias, Requests};
use model::layout::request::Request;
use std::collections::BTreeMap;

/// A run and what it has met so far.
pub struct Run {
    beside: Beside,
    met: Met,
}

impl Run {
    pub fn fresh(under_test: UnderTest, seed: u64) -> Run {
        Run { beside: Beside::fresh(under_test, seed), met: Met::default() }
    }

    /// A run from any whole picture.
    pub fn from(under_test: UnderTest, seed: u64, picture: Picture) -> Run {
        Run { beside: Beside::from(under_test, seed, picture), met: Met::default() }
    }

    pub fn step(&mut self, request: Request) {
        let before = self.beside.tables().clone();
        let answers = self.beside.ask(request);
        self.met.take_in(request, &answers, &before, self.beside.tables());
    }

    /// So many steps that a stream of requests chooses.
    pub fn steps(&mut self, stream: &mut Requests, count: usize) {
        for _ in 0..count {
            let request = stream.next(self.beside.tables());
            self.step(request);
        }
    }

    pub fn picture(&self) -> &Picture {
        self.beside.picture()
    }

    pub fn met(self) -> Met {
        self.met
    }
}

/// Runs from fresh under one bias, one for each seed, and what they met together.
pub fn biased(under_test: UnderTest, bias: Bias, seeds: u64, requests: usize) -> Met {
    together((1..=seeds).map(|seed| {
        let mut run = Run::fresh(under_test, seed);
        run.steps(&mut Requests::new(seed, bias), requests);
        run.met()
    }))
}

/// So many scripts of one kind, each on so many settled keys of its own.
pub fn scripts(
    seeds: u64,
    keys: u64,
    script: impl Fn(&mut Random) -> Vec<Request>,
) -> Vec<Vec<Request>> {
    let whole = |seed| [settled(keys), script(&mut Random::new(seed))].concat();
    (1..=seeds).map(whole).collect()
}

/// So many circles of each length that a circle can have. Asserts that all of them were closed, and
/// that of each length some turned the newest away and some an older one, and that the lightest was
/// alone in some and one of several in others.
pub fn circles_of_each_length(under_test: UnderTest, seeds: u64) -> Met {
    together((2..=16).map(|length| {
        let keys = length as u64 + WEIGHTS;
        let met = scripted(under_test, scripts(seeds, keys, |random| circle(random, length)), 15);
        let count = |met: &BTreeMap<usize, usize>| met.get(&length).copied().unwrap_or(0);
        let (closed, older) = (count(&met.circles), count(&met.older_turned_away));
        let equally_light = count(&met.equally_light);
        assert!(closed >= seeds as usize, "circles of {length} came {closed} times");
        assert!(older >= 3 && older + 3 <= closed, "{length}: {older} of {closed}");
        assert!(equally_light >= 3 && equally_light + 3 <= closed, "{length}: {equally_light}");
        met
    }))
}

/// A run from fresh for each script, with a tail of requests that chance chooses.
pub fn scripted(under_test: UnderTest, scripts: Vec<Vec<Request>>, tail: usize) -> Met {
    together(scripts.into_iter().zip(1..).map(|(script, seed)| {
        let mut run = Run::fresh(under_test, seed);
        for request in script {
            run.step(request);
        }
        run.steps(&mut Requests::without_opening(seed, Bias::WAITS), tail);
        run.met()
    }))
}

/// One request on each of so many pictures on which its 3 is not about those who were in its way when
/// it joined the queue.
pub fn named_at_rest(under_test: UnderTest, pictures: u64) -> Met {
    together((1..=pictures).map(|seed| {
        let (tables, request) = others_in_the_way_at_rest(&mut Random::new(seed));
        let mut run = Run::from(under_test, seed, tables.encode());
        run.step(request);
        run.met()
    }))
}

pub fn together(met: impl Iterator<Item = Met>) -> Met {
    met.fold(Met::default(), Met::and)
}
