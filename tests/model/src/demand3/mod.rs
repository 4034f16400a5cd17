//! Demand 3, checked by brute force after every call of a run (document 01, last section).
//!
//! What each running transaction was told about, and what was changed since, goes by the requests
//! and their answers alone (`told`); on the way, answers that contradict each other are caught too.
//! Locks and waits, and whom a 3 has to name (document 02, [4]), are looked up in the picture, but
//! worked out another way than the desk does it (`waits`), and so is who is told 19
//! (`turned_away`).

pub mod told;
pub mod turned_away;
pub mod waits;

use crate::key::Key;

/// How a run falls short of demand 3.
#[derive(Clone, Debug, PartialEq, Eq)]
pub enum Breach {
    /// An answer to someone who had asked nothing, or a number that its request cannot get.
    NotAnAnswer { transaction: u16, number: u16 },
    /// An answer that the answers before it contradict.
    Untrue { transaction: u16, number: u16 },
    /// A key inside what a running transaction was told about, changed by another since.
    ChangedByAnother { told: u16, by: u16, key: Key },
    /// Two transactions that hold one name in conflicting modes.
    ConflictingLocks { name: Key, holders: (u16, u16) },
    /// A waiting transaction that nobody blocks.
    WaitsBehindNobody { waiter: u16 },
    /// A waiting transaction that waits for itself in the end.
    WaitsInACircle { waiter: u16 },
    /// A waiting transaction from which some chain of fifteen links doesn't reach a running one
    /// that isn't waiting.
    ChainDoesNotEnd { waiter: u16 },
    /// The same of the one chain that goes by the lowest-numbered blocker each time.
    NamedChainDoesNotEnd { waiter: u16 },
    /// An answer 3 that names another than the lowest-numbered of those who block.
    NamesAnother { waiter: u16, named: u32 },
    /// An answer 19 to one on no circle, or to one on a circle on which another is lighter, or as
    /// light and newer.
    TurnsAwayAnother { waiter: u16 },
}
