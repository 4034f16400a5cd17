//! The circle behind an answer 19, worked out once more for the words only: the desk has found it
//! and keeps nothing of it. From outside one sees how things stand before a call and after it,
//! while a 19 may be said in its middle (document 01, Working the queue).
//!
//! A 19 is said only when everyone in the queue is blocked. The oldest who waits at a name is then
//! blocked by a holder of it, and holders keep what they hold for the rest of the call: whoever
//! wants X there stays blocked, that holder by another one. So only requests for S can run after a
//! 19, the asker's among them, and those change no entry. The index stood as it stands after the
//! call; only queue and locks are to be taken back.

use crate::behind::{behind, target};
use crate::keys::Key;
use crate::picture::{Standing, Waiting};
use crate::text::Request;
use keydesk::Answer;
use std::collections::{BTreeSet, VecDeque};

/// A call as it is seen from outside.
pub struct Call {
    /// How things stood before it.
    pub before: Standing,
    /// How things stand after it.
    pub after: Standing,
    pub request: Request,
    pub answers: Vec<Answer>,
}

impl Call {
    /// How things stood when the 19 at this place was said, with its request still in the queue.
    /// Whoever was queued had done nothing in this call yet, and held what it held before it: the
    /// asker too, where its answer comes later. Everyone else had done its part: begin, commit and
    /// rollback act and answer first.
    pub fn stood_at(&self, place: usize) -> Standing {
        let answered = |transaction| {
            self.answers[..place].iter().any(|answer| answer.transaction == transaction)
        };
        let Request { transaction, asks } = self.request;
        let joined = self.before.queue.iter().copied().chain([Waiting { transaction, asks }]);
        let mut stood = self.after.clone();
        stood.queue = joined.filter(|waiting| !answered(waiting.transaction)).collect();
        let queued = |transaction| stood.waiting(transaction).is_some();
        let before = self.before.locks.iter().filter(|lock| queued(lock.holder));
        let after = self.after.locks.iter().filter(|lock| !queued(lock.holder));
        stood.locks = before.chain(after).copied().collect();
        stood
    }
}

/// A link of a circle: who waits behind whom, and the name at which it waits.
#[derive(Clone, Copy, Debug, PartialEq, Eq)]
pub struct Link {
    pub waits: u16,
    pub behind: u16,
    pub at: Key,
}

/// The shortest circle of waits that starts and ends with a transaction; of several that are
/// equally short, the one with the lowest numbers. None where it lies on no circle.
pub fn circle(standing: &Standing, start: u16) -> Option<Vec<Link>> {
    let mut reached = BTreeSet::from([start]);
    let mut ways = VecDeque::from([(start, Vec::new())]);
    while let Some((last, way)) = ways.pop_front() {
        let Some(waiting) = standing.waiting(last) else { continue };
        let at = target(standing, waiting).name;
        for next in behind(standing, waiting) {
            let longer = [&way[..], &[Link { waits: last, behind: next, at }]].concat();
            if next == start {
                return Some(longer);
            }
            if reached.insert(next) {
                ways.push_back((next, longer));
            }
        }
    }
    None
}
