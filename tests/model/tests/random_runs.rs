//! Seeded random runs. After every call the picture is whole, demand 3 holds by brute force from
//! the answers, and the answers are as many and as long as they may be.

use model::demand3::told::Told;
use model::demand3::turned_away;
use model::demand3::waits::{self, Waits};
use model::desk::{Picture, fresh, serve};
use model::generators::pictures::picture;
use model::generators::random::Random;
use model::generators::requests::{Bias, Requests, spoiled};
use model::key::Key;
use model::layout::answer::Answer;
use model::layout::desk::{Mode, Slot, Transaction};
use model::layout::request::{Request, RequestKind};
use model::picture::Tables;
use model::whole::whole;
use std::collections::{BTreeMap, BTreeSet};

/// A run that is checked after every call, and what it has met so far.
struct Run {
    picture: Picture,
    told: Told,
    is_from_fresh: bool,
    met: Met,
}

/// How often something was met.
#[derive(Default)]
struct Met {
    requests: usize,
    numbers: BTreeMap<u16, usize>,
    ghosts: usize,
    upgrades: usize,
    splits: usize,
    circles_of_three_or_more: usize,
    /// Circles that a joining request closed and in which an older one was turned away.
    older_turned_away: usize,
    /// Of these, the calls in which the joining request then had to wait, and those in which it
    /// ran.
    then_waited: usize,
    then_ran: usize,
    calls_with_several_answers: usize,
    greatest_height: u16,
}

impl Run {
    fn fresh() -> Run {
        let told = Told::fresh();
        Run { picture: fresh(), told, is_from_fresh: true, met: Met::default() }
    }

    fn starting_from(picture: Picture) -> Run {
        let told = Told::starting_from(&tables_of(&picture));
        Run { picture, told, is_from_fresh: false, met: Met::default() }
    }

    /// Asks one request and checks everything that has to hold after the call.
    fn step(&mut self, request: &Request) {
        let before = tables_of(&self.picture);
        let answers = self.ask(&request.encode());
        assert!(whole(&self.picture.pages, &self.picture.desk), "whole after {request:?}");
        let after = tables_of(&self.picture);
        assert_eq!(self.told.hear(request, &answers), Ok(()), "after {request:?}");
        assert_eq!(*self.told.now(), present_keys(&after), "answers and index agree");
        if (13..=15).contains(&answers[0].number) {
            assert_eq!(before, after, "{request:?} was refused");
            assert_eq!(answers.len(), 1);
        } else {
            assert_eq!(waits::check(&after), Ok(()), "at rest after {request:?}");
            assert_eq!(waits::check_named(&after, &answers), Ok(()), "after {request:?}");
            let turned_away = turned_away::check(request, &answers, &before);
            assert_eq!(turned_away, Ok(()), "after {request:?}");
        }
        check_order(request, &answers);
        if self.is_from_fresh {
            check_from_fresh(&answers, &after);
        }
        self.met.take_in(request, &answers, &before, &after);
    }

    /// The answers to a good request: whole records, at most 16, at most one for each transaction,
    /// one of them for the asker, a key only in 1 and 16 and a record in 3 besides; answer bytes
    /// beyond keep their values.
    fn ask(&mut self, request: &[u8]) -> Vec<Answer> {
        let mut answers: Vec<u8> = (0..360).map(|at| at as u8 ^ 0x5A).collect();
        let untouched = answers.clone();
        let Picture { pages, desk } = &mut self.picture;
        let returned = serve(pages, desk, &mut answers, request);
        assert_eq!(returned.number, 0);
        assert!(returned.written <= 320 && returned.written.is_multiple_of(20));
        assert_eq!(answers[returned.written..], untouched[returned.written..]);
        let records = answers[..returned.written].chunks(20);
        let given: Vec<Answer> =
            records.map(|record| Answer::decode(record).expect("an answer record")).collect();
        let answered: BTreeSet<u16> = given.iter().map(|answer| answer.transaction).collect();
        assert_eq!(answered.len(), given.len(), "at most one answer for each transaction");
        assert!(answered.contains(&u16::from(request[4])), "one for the asker");
        let is_as_its_number = |answer: &Answer| match answer.number {
            1 | 16 => true,
            3 => answer.key == Key(0) && (1..=16).contains(&answer.record),
            number => *answer == Answer::plain(answer.transaction, number),
        };
        assert!(given.iter().all(is_as_its_number), "{given:?}");
        given
    }

    /// A bad request gets 12, and nothing changes.
    fn assert_bad(&mut self, request: &[u8]) {
        let before = self.picture.clone();
        let mut answers = [9; 320];
        let Picture { pages, desk } = &mut self.picture;
        let returned = serve(pages, desk, &mut answers, request);
        assert_eq!((returned.number, returned.written), (12, 0));
        assert_eq!(self.picture, before);
        assert_eq!(answers, [9; 320]);
    }
}

/// A 3 comes last, and to the asker alone. And after a 19 nothing is inserted or deleted any more:
/// a 19 frees only those who want S, since whoever wants X is blocked by a holder too.
fn check_order(request: &Request, answers: &[Answer]) {
    let waits = answers.iter().position(|answer| answer.number == 3);
    assert!(waits.is_none_or(|place| place == answers.len() - 1), "{answers:?}");
    assert!(waits.is_none_or(|place| answers[place].transaction == request.transaction));
    let mut from_19 = answers.iter().skip_while(|answer| answer.number != 19);
    assert!(from_19.all(|answer| answer.number != 0), "{answers:?}");
}

/// What no whole picture alone gives, but every run from fresh: X is held on exactly the entries
/// that one owns, and where someone has to wait, nobody else is answered unless a 19 comes first.
fn check_from_fresh(answers: &[Answer], after: &Tables) {
    let x_locks = after.desk.locks().filter(|lock| lock.mode == Mode::X);
    let held: BTreeSet<(Key, u16)> = x_locks.map(|lock| (lock.name, lock.holder)).collect();
    let owned_entries = after.index.entries().filter(|entry| entry.owner != 0);
    let owned: BTreeSet<(Key, u16)> = owned_entries.map(|e| (e.key, e.owner)).collect();
    assert_eq!(held, owned);
    let someone_waits = answers.iter().any(|answer| answer.number == 3);
    assert!(!someone_waits || [3, 19].contains(&answers[0].number), "{answers:?}");
}

fn tables_of(picture: &Picture) -> Tables {
    picture.decode().expect("a whole picture follows the layouts")
}

fn present_keys(tables: &Tables) -> BTreeMap<Key, u32> {
    let entries = tables.index.entries();
    entries.filter_map(|entry| entry.now.map(|record| (entry.key, record))).collect()
}

/// How many slots hold X where they held S for the same transaction and name.
fn upgraded_slots(before: &Tables, after: &Tables) -> usize {
    let slots = before.desk.slots.iter().zip(&after.desk.slots);
    let upgraded = slots.filter(|slots| match slots {
        (Slot::Taken(was), Slot::Taken(is)) => {
            (was.name, was.holder) == (is.name, is.holder)
                && (was.mode, is.mode) == (Mode::S, Mode::X)
        }
        _ => false,
    });
    upgraded.count()
}

/// The length of the shortest circle that a request closes by joining the queue.
fn circle_closed_by(request: &Request, before: &Tables) -> Option<usize> {
    let RequestKind::Keys(keys) = request.kind else { return None };
    let mut joined = before.clone();
    joined.desk.set_transaction(request.transaction, Transaction::Waiting(keys));
    joined.desk.queue.push(request.transaction);
    Waits::of(&joined).shortest_circle(request.transaction)
}

impl Met {
    fn take_in(&mut self, request: &Request, answers: &[Answer], before: &Tables, after: &Tables) {
        self.requests += 1;
        for answer in answers {
            *self.numbers.entry(answer.number).or_default() += 1;
        }
        self.ghosts += after.index.entries().filter(|entry| entry.is_ghost()).count();
        self.upgrades += upgraded_slots(before, after);
        self.splits += usize::from(after.index.used() > before.index.used());
        self.calls_with_several_answers += usize::from(answers.len() > 1);
        self.greatest_height = self.greatest_height.max(after.index.height);
        if answers[0].number == 19 {
            self.take_in_circle(request, answers, before);
        }
    }

    /// The same for a call that begins with a 19.
    fn take_in_circle(&mut self, request: &Request, answers: &[Answer], before: &Tables) {
        let Some(length) = circle_closed_by(request, before) else { return };
        self.circles_of_three_or_more += usize::from(length >= 3);
        self.older_turned_away += usize::from(answers[0].transaction != request.transaction);
        let to_asker = answers.iter().find(|answer| answer.transaction == request.transaction);
        match to_asker.map(|answer| answer.number) {
            Some(19) | None => {}
            Some(3) => self.then_waited += 1,
            Some(_) => self.then_ran += 1,
        }
    }

    fn count(&self, number: u16) -> usize {
        self.numbers.get(&number).copied().unwrap_or(0)
    }
}

/// Runs of one bias from fresh with several seeds, and what they met together.
fn runs_from_fresh(bias: Bias, seeds: u64, requests: usize) -> Vec<Met> {
    let run = |seed| {
        let mut run = Run::fresh();
        let mut stream = Requests::new(seed, bias);
        for _ in 0..requests {
            let request = stream.next(&tables_of(&run.picture));
            run.step(&request);
        }
        run.met
    };
    (1..=seeds).map(run).collect()
}

fn total(met: &[Met], what: fn(&Met) -> usize) -> usize {
    met.iter().map(what).sum()
}

#[test]
fn waits() {
    let met = runs_from_fresh(Bias::WAITS, 4, 1000);
    for number in [0, 1, 2, 3, 13, 14, 15, 16, 19] {
        let times: usize = met.iter().map(|met| met.count(number)).sum();
        assert!(times >= 5, "number {number} came {times} times");
    }
    assert!(total(&met, |met| met.calls_with_several_answers) >= 50);
    assert_eq!(total(&met, |met| met.requests), 4000);
}

#[test]
fn circles() {
    let met = runs_from_fresh(Bias::CIRCLES, 4, 1000);
    assert!(total(&met, |met| met.count(19)) >= 100);
    assert!(total(&met, |met| met.circles_of_three_or_more) >= 10);
    assert!(total(&met, |met| met.older_turned_away) >= 30);
    assert!(total(&met, |met| met.then_waited) >= 30 && total(&met, |met| met.then_ran) >= 1);
}

#[test]
fn ghosts() {
    let met = runs_from_fresh(Bias::GHOSTS, 3, 1000);
    assert!(total(&met, |met| met.ghosts) >= 1000);
}

#[test]
fn upgrades_from_s_to_x() {
    let met = runs_from_fresh(Bias::UPGRADES, 3, 1000);
    assert!(total(&met, |met| met.upgrades) >= 50);
}

/// Inserts all over until the pages are short.
#[test]
fn splits() {
    let met = runs_from_fresh(Bias::SPLITS, 2, 2000);
    assert!(met.iter().all(|met| met.greatest_height == 3));
    assert!(met.iter().all(|met| met.splits >= 50));
    assert!(met.iter().all(|met| met.count(18) >= 1));
}

/// Hardly any ends, until the locks are all in use.
#[test]
fn full_locks() {
    let met = runs_from_fresh(Bias::FULL_LOCKS, 3, 1000);
    assert!(met.iter().all(|met| met.count(17) >= 10));
}

/// Runs from pictures that are whole and not at rest: the first call that works the queue brings
/// them to rest.
#[test]
fn pictures_not_at_rest() {
    let mut random = Random::new(77);
    let mut not_at_rest = 0;
    let mut met = Vec::new();
    for seed in 0..400 {
        let picture = picture(&mut random);
        assert!(whole(&picture.pages, &picture.desk));
        not_at_rest += usize::from(waits::check(&tables_of(&picture)).is_err());
        let mut run = Run::starting_from(picture);
        let mut stream = Requests::without_opening(seed, Bias::WAITS);
        for _ in 0..12 {
            let request = stream.next(&tables_of(&run.picture));
            run.step(&request);
        }
        met.push(run.met);
    }
    assert!(not_at_rest >= 100, "{not_at_rest} pictures were not at rest");
    for number in [0, 1, 2, 3, 13, 14, 15, 16, 17, 19] {
        let times: usize = met.iter().map(|met| met.count(number)).sum();
        assert!(times >= 1, "number {number} came {times} times");
    }
}

/// Blockers, and the one that is named, come out the same by the tree and by the flat list of entries.
#[test]
fn blockers_two_ways() {
    let mut random = Random::new(13);
    let mut blocked = 0;
    for _ in 0..400 {
        let tables = tables_of(&picture(&mut random));
        let waits = Waits::of(&tables);
        for waiter in &tables.desk.queue {
            let blockers = tables.blockers(*waiter);
            assert_eq!(waits.behind(*waiter), Some(&blockers));
            assert_eq!(tables.blocker(*waiter), waits.named(*waiter));
            let circle = waits.shortest_circle(*waiter);
            assert_eq!(tables.is_on_circle(*waiter), circle.is_some());
            blocked += usize::from(!blockers.is_empty());
        }
    }
    assert!(blocked >= 500, "{blocked} were blocked");
}

/// Spoiled requests are refused with 12 and change nothing, or happen to be good.
#[test]
fn spoiled_requests() {
    let mut random = Random::new(5);
    let mut refused = 0;
    for bias in Bias::ALL {
        let mut run = Run::fresh();
        let mut stream = Requests::new(5, bias);
        for _ in 0..200 {
            let request = stream.next(&tables_of(&run.picture));
            run.step(&request);
            let bytes = spoiled(&mut random, &request);
            if Request::decode(&bytes).is_none() {
                refused += 1;
                run.assert_bad(&bytes);
            }
        }
    }
    assert!(refused >= 500, "{refused} were refused");
}
