//! Who waits behind whom, worked out once more for words and drawings only (document 01, Locks):
//!
//! "T is **blocked** by another U if U holds the target in a conflicting mode; or if T holds no
//! lock on it and U has an earlier waiting request with the same target and a conflicting mode."
//!
//! An answer 3 names one of them, the lowest-numbered, and its words take the name from there. A
//! drawing has no answer: it asks `named`.

use crate::keys::{Key, Written};
use crate::picture::{Entry, Mode, Standing, Waiting};
use crate::text::Asks;

/// What a waiting request is about to lock, an entry's key or the end, and in which mode.
#[derive(Clone, Copy, Debug, PartialEq, Eq)]
pub struct Target {
    pub name: Key,
    pub mode: Mode,
    /// An insert of a missing key wants its target "for the instant only".
    pub instant: bool,
}

/// The target of a waiting request, as the index stands now: the table of document 01, Locks.
pub fn target(standing: &Standing, waiting: &Waiting) -> Target {
    let asker = waiting.transaction;
    let first = |is_target: &dyn Fn(&Entry) -> bool| {
        standing.entries().iter().find(|entry| is_target(entry)).map_or(Key::END, |entry| entry.key)
    };
    let at_or_above = |written: Written| first(&|entry| entry.key >= written.key);
    match waiting.asks {
        Asks::Read { lo, hi } => {
            let name = first(&|entry| {
                let own_ghost = entry.is_ghost() && entry.owner == asker;
                entry.key >= lo.key && (entry.key > hi.key || !own_ghost)
            });
            Target { name, mode: Mode::S, instant: false }
        }
        Asks::Insert { key, .. } => {
            let name = at_or_above(key);
            let mode = if name == key.key { Mode::S } else { Mode::X };
            Target { name, mode, instant: mode == Mode::X }
        }
        Asks::Delete { key } => {
            let name = at_or_above(key);
            let mode = if name == key.key { Mode::X } else { Mode::S };
            Target { name, mode, instant: false }
        }
        Asks::Begin | Asks::Commit | Asks::Rollback => unreachable!("these never wait"),
    }
}

/// One who blocks a waiting request.
#[derive(Clone, Copy, Debug, PartialEq, Eq)]
pub struct Blocker {
    pub transaction: u16,
    pub why: Why,
}

/// Why someone blocks: a lock that is held, or else an earlier request for the same target.
#[derive(Clone, Copy, Debug, PartialEq, Eq)]
pub enum Why {
    Holds(Mode),
    AskedBefore,
}

/// Everyone who blocks a waiting request, by number. Of one who holds the target and has asked for
/// more of it before, the lock is what is said.
pub fn blockers(standing: &Standing, waiting: &Waiting) -> Vec<Blocker> {
    let asker = waiting.transaction;
    let wanted = target(standing, waiting);
    let on_target = || standing.locks.iter().filter(|lock| lock.name == wanted.name);
    let holders =
        on_target().filter(|lock| lock.holder != asker && conflict(lock.mode, wanted.mode));
    let mut blockers: Vec<Blocker> = holders
        .map(|lock| Blocker { transaction: lock.holder, why: Why::Holds(lock.mode) })
        .collect();
    if on_target().all(|lock| lock.holder != asker) {
        let earlier = standing.queue.iter().take_while(|other| other.transaction != asker);
        let blocking = earlier.filter(|other| {
            let theirs = target(standing, other);
            theirs.name == wanted.name && conflict(theirs.mode, wanted.mode)
        });
        blockers.extend(
            blocking.map(|other| Blocker { transaction: other.transaction, why: Why::AskedBefore }),
        );
    }
    blockers.sort_by_key(|blocker| (blocker.transaction, blocker.why == Why::AskedBefore));
    blockers.dedup_by_key(|blocker| blocker.transaction);
    blockers
}

/// The numbers of everyone who blocks a waiting request, ascending.
pub fn behind(standing: &Standing, waiting: &Waiting) -> Vec<u16> {
    blockers(standing, waiting).iter().map(|blocker| blocker.transaction).collect()
}

/// The one of those who block a waiting request that is named: the lowest-numbered, holders and
/// earlier waiters alike. None where nobody blocks it, which is never so at rest.
pub fn named(standing: &Standing, waiting: &Waiting) -> Option<u16> {
    behind(standing, waiting).first().copied()
}

/// "S goes with S, everything else conflicts."
fn conflict(one: Mode, other: Mode) -> bool {
    (one, other) != (Mode::S, Mode::S)
}
