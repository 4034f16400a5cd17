//! What runs have met, counted from the answers and from the model's picture before and after each
//! call.

use model::demand3::turned_away::{TurnedAway, turned_away};
use model::demand3::waits::Waits;
use model::layout::answer::{Answer, number};
use model::layout::desk::{Lock, Mode, Slot, Transaction};
use model::layout::pages::PAGE_COUNT;
use model::layout::request::{KeyRequest, Request, RequestKind};
use model::picture::Tables;
use std::collections::BTreeMap;

/// How often each thing was met.
#[derive(Debug, Default)]
pub struct Met {
    pub requests: usize,
    /// Answers by their number.
    pub numbers: BTreeMap<u16, usize>,
    /// Circles that a joining request closed, by the length of the shortest of them.
    pub circles: BTreeMap<usize, usize>,
    /// The same where the first to be turned away was not the newest on a circle.
    pub older_turned_away: BTreeMap<usize, usize>,
    /// The same where several on circles held the fewest locks.
    pub equally_light: BTreeMap<usize, usize>,
    /// Joining requests that turned others away and then had to wait.
    pub waits_after_a_19: usize,
    /// The same that then ran.
    pub runs_after_a_19: usize,
    /// Answers 19 at which one with a queued request on no circle held fewer locks.
    pub lighter_ones_spared: usize,
    /// Slots that went from S to X.
    pub upgrades: usize,
    /// Deletes that made a ghost.
    pub ghosts: usize,
    pub inserts_over_own_ghosts: usize,
    /// Reads that went past a ghost of their own.
    pub own_ghosts_skipped: usize,
    /// Runs right after which an older request ran that had been blocked.
    pub older_freed: usize,
    /// Entries that commit or rollback settled or took out.
    pub settlings: usize,
    pub splits: usize,
    /// Calls that left an index with all its pages in use.
    pub full_index: usize,
    /// Calls that left an index of three levels.
    pub height_3: usize,
    pub calls_with_16_answers: usize,
    /// Answers 3 that named a holder of what is waited for.
    pub holders_named: usize,
    /// Answers 3 that named an earlier waiter, who held nothing there.
    pub waiters_named: usize,
    /// The same where a holder was in the way too, with a higher number.
    pub waiters_named_before_holders: usize,
    /// Answers 3 with several in the way, of whom one is named.
    pub several_in_the_way: usize,
    /// Answers 3 that named another than the lowest in the way when the request joined the queue.
    pub named_otherwise_at_rest: usize,
}

impl Met {
    /// How often an answer had this number.
    pub fn count(&self, number: u16) -> usize {
        self.numbers.get(&number).copied().unwrap_or(0)
    }

    /// Takes in one call: its request, its answers, and where the desk stood before and after.
    pub fn take_in(
        &mut self,
        request: Request,
        answers: &[Answer],
        before: &Tables,
        after: &Tables,
    ) {
        self.requests += 1;
        for answer in answers {
            *self.numbers.entry(answer.number).or_default() += 1;
        }
        self.take_in_turned_away(request, answers, before);
        self.upgrades += upgraded_slots(before, after);
        self.older_freed += older_freed(request, answers, before);
        self.splits += usize::from(after.index.used() > before.index.used());
        self.full_index += usize::from(after.index.used() == PAGE_COUNT);
        self.height_3 += usize::from(after.index.height == 3);
        self.calls_with_16_answers += usize::from(answers.len() == 16);
        match request.kind {
            RequestKind::Commit | RequestKind::Rollback => {
                let owned = |tables: &Tables| owned_entries(tables, request.transaction);
                self.settlings += owned(before) - owned(after);
            }
            RequestKind::Keys(keys) => {
                self.take_in_keys(request.transaction, keys, answers, before);
                self.take_in_named(request.transaction, keys, answers, before, after);
            }
            RequestKind::Begin => {}
        }
    }

    /// The same for who is told 19, and for what becomes of a request that has closed a circle.
    fn take_in_turned_away(&mut self, request: Request, answers: &[Answer], before: &Tables) {
        let told_19 = turned_away(&request, answers, before);
        self.lighter_ones_spared += told_19.iter().filter(|one| lighter_one_spared(one)).count();
        let (RequestKind::Keys(keys), Some(first)) = (request.kind, told_19.first()) else {
            return;
        };
        let asker = request.transaction;
        let Some(length) = circle_closed_by(asker, keys, before) else { return };
        let newest = first.on_circles.last().map(|(waiter, _)| *waiter);
        let held = first.on_circles.iter().map(|(_, held)| Some(*held));
        let lightest = held.filter(|held| *held == first.fewest()).count();
        let to_asker = answers.iter().find(|answer| answer.transaction == asker);
        *self.circles.entry(length).or_default() += 1;
        *self.older_turned_away.entry(length).or_default() +=
            usize::from(newest != Some(first.waiter));
        *self.equally_light.entry(length).or_default() += usize::from(lightest > 1);
        match to_asker.map(|answer| answer.number) {
            Some(number::STILL_QUEUED) => self.waits_after_a_19 += 1,
            Some(number::CIRCLE) | None => {}
            Some(_) => self.runs_after_a_19 += 1,
        }
    }

    /// The same for what a read, insert or delete meets when it runs or is refused at once.
    fn take_in_keys(
        &mut self,
        asker: u16,
        request: KeyRequest,
        answers: &[Answer],
        before: &Tables,
    ) {
        let Some(first) = answers.iter().find(|answer| answer.transaction == asker) else { return };
        let is_own_ghost =
            |key| before.index.entry(key).is_some_and(|e| e.owner == asker && e.is_ghost());
        match (request, first.number) {
            (KeyRequest::Insert { key, .. }, number::DONE) => {
                self.inserts_over_own_ghosts += usize::from(is_own_ghost(key));
            }
            (KeyRequest::Delete { .. }, number::DONE) => self.ghosts += 1,
            (KeyRequest::Read { lo, hi }, number::FOUND | number::NOTHING) => {
                let first = before.index.first_at_or_above(lo).filter(|entry| entry.key <= hi);
                let skipped = first.is_some_and(|entry| is_own_ghost(entry.key));
                self.own_ghosts_skipped += usize::from(skipped);
            }
            _ => {}
        }
    }

    /// The same for whom a request that still waits is told of.
    fn take_in_named(
        &mut self,
        asker: u16,
        request: KeyRequest,
        answers: &[Answer],
        before: &Tables,
        after: &Tables,
    ) {
        let mut told = answers.iter().filter(|answer| answer.number == number::STILL_QUEUED);
        let Some(named) = told.next().map(|answer| answer.record as u16) else { return };
        let target = after.target(asker, request);
        let in_the_way = Waits::of(after).behind(asker).cloned().unwrap_or_default();
        let is_holder = |other: u16| {
            after.held(other, target.name).is_some_and(|mode| mode.conflicts(target.mode))
        };
        let is_waiter = after.held(named, target.name).is_none();
        let past_a_holder = in_the_way.iter().any(|other| is_holder(*other));
        let when_joined = Waits::of(&joined(asker, request, before)).named(asker);
        self.holders_named += usize::from(is_holder(named));
        self.waiters_named += usize::from(is_waiter);
        self.waiters_named_before_holders += usize::from(is_waiter && past_a_holder);
        self.several_in_the_way += usize::from(in_the_way.len() > 1);
        self.named_otherwise_at_rest += usize::from(when_joined != Some(named));
    }

    /// Both counts together.
    pub fn and(mut self, other: Met) -> Met {
        add(&mut self.numbers, other.numbers);
        add(&mut self.circles, other.circles);
        add(&mut self.older_turned_away, other.older_turned_away);
        add(&mut self.equally_light, other.equally_light);
        self.waits_after_a_19 += other.waits_after_a_19;
        self.runs_after_a_19 += other.runs_after_a_19;
        self.lighter_ones_spared += other.lighter_ones_spared;
        self.requests += other.requests;
        self.upgrades += other.upgrades;
        self.ghosts += other.ghosts;
        self.inserts_over_own_ghosts += other.inserts_over_own_ghosts;
        self.own_ghosts_skipped += other.own_ghosts_skipped;
        self.older_freed += other.older_freed;
        self.settlings += other.settlings;
        self.splits += other.splits;
        self.full_index += other.full_index;
        self.height_3 += other.height_3;
        self.calls_with_16_answers += other.calls_with_16_answers;
        self.holders_named += other.holders_named;
        self.waiters_named += other.waiters_named;
        self.waiters_named_before_holders += other.waiters_named_before_holders;
        self.several_in_the_way += other.several_in_the_way;
        self.named_otherwise_at_rest += other.named_otherwise_at_rest;
        self
    }
}

/// Adds how often each thing was met to how often it was met before.
fn add<T: Ord>(met: &mut BTreeMap<T, usize>, others: BTreeMap<T, usize>) {
    for (thing, times) in others {
        *met.entry(thing).or_default() += times;
    }
}

/// Whether one on no circle held fewer locks than the lightest on one.
fn lighter_one_spared(told_19: &TurnedAway) -> bool {
    told_19.on_none.iter().any(|(_, held)| told_19.fewest().is_some_and(|fewest| *held < fewest))
}

/// How many slots hold X where they held S for the same transaction and name.
fn upgraded_slots(before: &Tables, after: &Tables) -> usize {
    let is_upgrade = |slots: &(&Slot, &Slot)| match slots {
        (Slot::Taken(was), Slot::Taken(is)) => {
            was.mode == Mode::S && *is == Lock { mode: Mode::X, ..*was }
        }
        _ => false,
    };
    before.desk.slots.iter().zip(&after.desk.slots).filter(is_upgrade).count()
}

/// How many answers stand for a run that freed an older request: the scan starts at the oldest
/// after each run, so one that runs next and is older was blocked before.
fn older_freed(request: Request, answers: &[Answer], before: &Tables) -> usize {
    let mut queue = before.desk.queue.clone();
    if matches!(request.kind, RequestKind::Keys(_)) {
        queue.push(request.transaction);
    }
    let place = |answer: &Answer| queue.iter().position(|waiter| *waiter == answer.transaction);
    let ran = |answer: &Answer| !matches!(answer.number, number::CIRCLE | number::STILL_QUEUED);
    let freed = answers.windows(2).filter(|pair| {
        let [run, next] = pair else { return false };
        let is_older = place(run).zip(place(next)).is_some_and(|(run, next)| next < run);
        ran(run) && ran(next) && is_older
    });
    freed.count()
}

fn owned_entries(tables: &Tables, owner: u16) -> usize {
    tables.index.entries().filter(|entry| entry.owner == owner).count()
}

/// The length of the shortest circle that a request closes by joining the queue.
fn circle_closed_by(asker: u16, request: KeyRequest, before: &Tables) -> Option<usize> {
    Waits::of(&joined(asker, request, before)).shortest_circle(asker)
}

/// Where the desk stands when a request has joined the queue, which is not worked yet.
fn joined(asker: u16, request: KeyRequest, before: &Tables) -> Tables {
    let mut joined = before.clone();
    joined.desk.set_transaction(asker, Transaction::Waiting(request));
    joined.desk.queue.push(asker);
    joined
}
