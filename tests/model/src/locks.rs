//! Targets, blockers and circles (document 01, Locks and Working the queue; document 02, [4]).
//! Nothing is kept: "a target is worked out afresh from the index each time it is needed".

use crate::entry::Entry;
use crate::key::Key;
use crate::layout::desk::Mode;
use crate::layout::request::KeyRequest;
use crate::picture::Tables;
use std::collections::BTreeSet;

/// What a request is about to lock: an entry's key or the end, and in which mode.
#[derive(Clone, Copy, Debug, PartialEq, Eq)]
pub struct Target {
    pub name: Key,
    pub mode: Mode,
}

/// The links of a wait chain after its first. Sixteen transactions wait in a circle of sixteen
/// links at most.
const LINKS_LEFT: u32 = 15;

/// The name under which an entry is locked, or the end where there is none.
fn name_of(entry: Option<Entry>) -> Key {
    entry.map_or(Key::END, |entry| entry.key)
}

impl Tables {
    /// The target of an asker's request: the table of document 01, Locks.
    pub fn target(&self, asker: u16, request: KeyRequest) -> Target {
        match request {
            KeyRequest::Read { lo, hi } => {
                Target { name: self.target_of_read(asker, lo, hi), mode: Mode::S }
            }
            KeyRequest::Insert { key, .. } => {
                let name = name_of(self.index.first_at_or_above(key));
                Target { name, mode: if name == key { Mode::S } else { Mode::X } }
            }
            KeyRequest::Delete { key } => {
                let name = name_of(self.index.first_at_or_above(key));
                Target { name, mode: if name == key { Mode::X } else { Mode::S } }
            }
        }
    }

    /// "First entry at or above lo that is above hi or isn't the asker's own ghost, else the end".
    fn target_of_read(&self, asker: u16, lo: Key, hi: Key) -> Key {
        let mut from = lo;
        loop {
            match self.index.first_at_or_above(from) {
                Some(entry) if entry.key <= hi && entry.is_ghost() && entry.owner == asker => {
                    from = Key(entry.key.0 + 1);
                }
                found => return name_of(found),
            }
        }
    }

    /// The mode in which a transaction holds a name, if it does.
    pub fn held(&self, holder: u16, name: Key) -> Option<Mode> {
        let mut locks = self.desk.locks();
        locks.find(|lock| lock.holder == holder && lock.name == name).map(|lock| lock.mode)
    }

    /// How many locks a transaction holds: slots of the table, S, X and the end alike.
    pub fn locks_held(&self, holder: u16) -> usize {
        self.desk.locks().filter(|lock| lock.holder == holder).count()
    }

    /// Whether a waiting transaction is blocked, and by whom: "the lowest-numbered transaction that
    /// blocks it, or none" (document 02, [4]).
    pub fn blocker(&self, waiter: u16) -> Option<u16> {
        self.blockers(waiter).first().copied()
    }

    /// Everyone who blocks a waiting transaction; nobody for one that doesn't wait. Circles "still
    /// go by everyone who blocks and not only by the one named".
    pub fn blockers(&self, waiter: u16) -> BTreeSet<u16> {
        let Some(request) = self.desk.waiting_request(waiter) else { return BTreeSet::new() };
        let target = self.target(waiter, request);
        let mut blockers = self.conflicting_holders(waiter, target);
        if self.held(waiter, target.name).is_none() {
            blockers.extend(self.conflicting_earlier_waiters(waiter, target));
        }
        blockers
    }

    /// "If U holds the target in a conflicting mode".
    fn conflicting_holders(&self, waiter: u16, target: Target) -> BTreeSet<u16> {
        let locks = self.desk.locks().filter(|lock| lock.holder != waiter);
        let on_target = locks.filter(|lock| lock.name == target.name);
        on_target.filter(|lock| lock.mode.conflicts(target.mode)).map(|lock| lock.holder).collect()
    }

    /// "If U has an earlier waiting request with the same target and a conflicting mode": the
    /// earlier one's target and mode are those of now, not those it came with.
    fn conflicting_earlier_waiters(&self, waiter: u16, target: Target) -> BTreeSet<u16> {
        let earlier = self.desk.queue.iter().copied().take_while(|other| *other != waiter);
        let conflicting = earlier.filter(|other| {
            let request = self.desk.waiting_request(*other).expect("whoever is queued waits");
            let theirs = self.target(*other, request);
            theirs.name == target.name && theirs.mode.conflicts(target.mode)
        });
        conflicting.collect()
    }

    /// Whether the waits lead from a transaction back to itself. A set of transactions is reached
    /// in rounds, one link at a time: following chain after chain would be exponential.
    pub fn is_on_circle(&self, waiter: u16) -> bool {
        let mut reached = self.blockers(waiter);
        for _ in 0..LINKS_LEFT {
            let further: BTreeSet<u16> =
                reached.iter().flat_map(|reached| self.blockers(*reached)).collect();
            reached.extend(further);
        }
        reached.contains(&waiter)
    }
}
