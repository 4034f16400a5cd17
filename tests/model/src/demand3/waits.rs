//! Locks and waits of a picture, worked out by brute force: over a flat sorted list of all entries
//! instead of the tree, and with every pair of locks looked at.

use super::Breach;
use crate::entry::Entry;
use crate::key::Key;
use crate::layout::answer::{Answer, number};
use crate::layout::desk::{Lock, Mode, TRANSACTION_COUNT};
use crate::layout::request::KeyRequest;
use crate::picture::Tables;
use std::collections::{BTreeMap, BTreeSet};

/// "A wait chain is followed with the number of links left falling, from 15" (document 01, Working
/// the queue).
const LINKS: u32 = 15;

/// A queued request with its target of now.
struct Wait {
    waiter: u16,
    name: Key,
    mode: Mode,
}

/// Whom each waiting transaction waits behind.
pub struct Waits {
    behind: BTreeMap<u16, BTreeSet<u16>>,
}

/// Demand 3 on the picture after a call that has worked the queue.
pub fn check(tables: &Tables) -> Result<(), Breach> {
    no_conflicting_locks(tables)?;
    let waits = Waits::of(tables);
    waits.nobody_waits_behind_nobody()?;
    waits.nobody_waits_in_a_circle()?;
    waits.every_chain_ends(tables)?;
    waits.every_named_chain_ends(tables)
}

/// Whom the answers 3 of a call have to name, by the picture after it: "the lowest-numbered
/// transaction that blocks it", "as it stands at rest" (document 02, [4]).
pub fn check_named(tables: &Tables, answers: &[Answer]) -> Result<(), Breach> {
    let waits = Waits::of(tables);
    for answer in answers.iter().filter(|answer| answer.number == number::STILL_QUEUED) {
        if waits.named(answer.transaction).map(u32::from) != Some(answer.record) {
            let Answer { transaction: waiter, record: named, .. } = *answer;
            return Err(Breach::NamesAnother { waiter, named });
        }
    }
    Ok(())
}

fn no_conflicting_locks(tables: &Tables) -> Result<(), Breach> {
    let locks: Vec<Lock> = tables.desk.locks().collect();
    for one in &locks {
        for other in locks.iter().filter(|other| other.name == one.name) {
            if one.holder != other.holder && (one.mode == Mode::X || other.mode == Mode::X) {
                let holders = (one.holder, other.holder);
                return Err(Breach::ConflictingLocks { name: one.name, holders });
            }
        }
    }
    Ok(())
}

/// Target and mode of a request over the entries in ascending order: the table of document 01,
/// Locks, read row by row.
fn target(entries: &[Entry], asker: u16, request: KeyRequest) -> (Key, Mode) {
    let first = |wanted: &dyn Fn(&Entry) -> bool| {
        entries.iter().find(|entry| wanted(entry)).map_or(Key::END, |entry| entry.key)
    };
    match request {
        KeyRequest::Read { lo, hi } => {
            let own_ghost = |entry: &Entry| entry.owner == asker && entry.now.is_none();
            (first(&|entry| entry.key >= lo && (entry.key > hi || !own_ghost(entry))), Mode::S)
        }
        KeyRequest::Insert { key, .. } => match first(&|entry| entry.key >= key) {
            name if name == key => (name, Mode::S),
            name => (name, Mode::X),
        },
        KeyRequest::Delete { key } => match first(&|entry| entry.key >= key) {
            name if name == key => (name, Mode::X),
            name => (name, Mode::S),
        },
    }
}

/// Everyone who blocks a waiting request: "if U holds the target in a conflicting mode; or if T
/// holds no lock on it and U has an earlier waiting request with the same target and a conflicting
/// mode" (document 01, Locks).
fn blockers(locks: &[Lock], earlier: &[Wait], wait: &Wait) -> BTreeSet<u16> {
    let clashes = |mode: Mode| wait.mode == Mode::X || mode == Mode::X;
    let on_target: Vec<&Lock> = locks.iter().filter(|lock| lock.name == wait.name).collect();
    let holders = on_target.iter().filter(|lock| lock.holder != wait.waiter && clashes(lock.mode));
    let mut blockers: BTreeSet<u16> = holders.map(|lock| lock.holder).collect();
    if !on_target.iter().any(|lock| lock.holder == wait.waiter) {
        let in_front = earlier.iter().filter(|other| other.name == wait.name);
        blockers.extend(in_front.filter(|other| clashes(other.mode)).map(|other| other.waiter));
    }
    blockers
}

impl Waits {
    /// The waits of a picture whose queue is exactly the waiting ones.
    pub fn of(tables: &Tables) -> Waits {
        let mut entries: Vec<Entry> = tables.index.entries().copied().collect();
        entries.sort_by_key(|entry| entry.key);
        let wait_of = |waiter: &u16| {
            let request = tables.desk.waiting_request(*waiter).expect("whoever is queued waits");
            let (name, mode) = target(&entries, *waiter, request);
            Wait { waiter: *waiter, name, mode }
        };
        let queue: Vec<Wait> = tables.desk.queue.iter().map(wait_of).collect();
        let locks: Vec<Lock> = tables.desk.locks().collect();
        let places = queue.iter().enumerate();
        let behind =
            places.map(|(place, wait)| (wait.waiter, blockers(&locks, &queue[..place], wait)));
        Waits { behind: behind.collect() }
    }

    /// Everyone a waiting transaction waits behind; nothing for one that doesn't wait.
    pub fn behind(&self, waiter: u16) -> Option<&BTreeSet<u16>> {
        self.behind.get(&waiter)
    }

    /// The lowest-numbered of those a waiting transaction waits behind.
    pub fn named(&self, waiter: u16) -> Option<u16> {
        self.behind(waiter)?.iter().min().copied()
    }

    /// How many links the shortest circle through a waiting transaction has, if there is one.
    pub fn shortest_circle(&self, waiter: u16) -> Option<usize> {
        let mut reached = BTreeSet::from([waiter]);
        for links in 1..=usize::from(TRANSACTION_COUNT) {
            let blockers = reached.iter().filter_map(|reached| self.behind.get(reached));
            reached = blockers.flatten().copied().collect();
            if reached.contains(&waiter) {
                return Some(links);
            }
        }
        None
    }

    fn nobody_waits_behind_nobody(&self) -> Result<(), Breach> {
        match self.behind.iter().find(|(_, blockers)| blockers.is_empty()) {
            Some((waiter, _)) => Err(Breach::WaitsBehindNobody { waiter: *waiter }),
            None => Ok(()),
        }
    }

    fn nobody_waits_in_a_circle(&self) -> Result<(), Breach> {
        match self.behind.keys().find(|waiter| self.shortest_circle(**waiter).is_some()) {
            Some(waiter) => Err(Breach::WaitsInACircle { waiter: *waiter }),
            None => Ok(()),
        }
    }

    /// Following blockers, whichever are chosen, reaches within fifteen links a running transaction
    /// that isn't waiting. In rounds: after n of them `good` has everyone all of whose chains end
    /// within n links.
    fn every_chain_ends(&self, tables: &Tables) -> Result<(), Breach> {
        let runs_free = |t: &u16| tables.desk.is_running(*t) && !self.behind.contains_key(t);
        let mut good: BTreeSet<u16> = (1..=TRANSACTION_COUNT).filter(runs_free).collect();
        for _ in 0..LINKS {
            let ends = self.behind.iter().filter(|(_, blockers)| blockers.is_subset(&good));
            let next: Vec<u16> = ends.map(|(waiter, _)| *waiter).collect();
            good.extend(next);
        }
        match self.behind.keys().find(|waiter| !good.contains(waiter)) {
            Some(waiter) => Err(Breach::ChainDoesNotEnd { waiter: *waiter }),
            None => Ok(()),
        }
    }

    /// Following the one named, link by link, reaches within fifteen a running transaction that
    /// isn't waiting: whoever asks on, from name to name, comes to somebody who can act.
    pub fn every_named_chain_ends(&self, tables: &Tables) -> Result<(), Breach> {
        for waiter in self.behind.keys() {
            let mut last = *waiter;
            for _ in 0..LINKS {
                last = self.named(last).unwrap_or(last);
            }
            if self.behind.contains_key(&last) || !tables.desk.is_running(last) {
                return Err(Breach::NamedChainDoesNotEnd { waiter: *waiter });
            }
        }
        Ok(())
    }
}
