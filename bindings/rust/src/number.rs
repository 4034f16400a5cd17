//! The numbers that the desk says (document 01, What the desk says). 0 and 10 to 12 are returned by
//! a call; all but 10 to 12 stand in answer records.

/// Begin, commit, rollback, insert or delete done. Of a call: served, with answers.
pub const DONE: u32 = 0;
/// Read: an entry from lo to hi was found; the answer has its key and record.
pub const FOUND: u32 = 1;
/// Read: nothing from lo to hi; delete: the key is absent.
pub const NOTHING: u32 = 2;
/// The request is still queued: its transaction waits; the answer's record is the lowest-numbered
/// transaction in its way.
pub const STILL_QUEUED: u32 = 3;
/// Returned: the pages are not 32,768 bytes, the desk not 4,672, or the answers under 320.
pub const WRONG_LENGTHS: u32 = 10;
/// Returned: the picture isn't whole.
pub const NOT_WHOLE: u32 = 11;
/// Returned: a bad request record.
pub const BAD_REQUEST: u32 = 12;
/// Begin of a running transaction.
pub const ALREADY_RUNNING: u32 = 13;
/// Any other request of a transaction that isn't running.
pub const NOT_RUNNING: u32 = 14;
/// Anything but rollback of a transaction that waits.
pub const IS_WAITING: u32 = 15;
/// Insert: the key is present; the answer has its key and record.
pub const KEY_PRESENT: u32 = 16;
/// A new lock is needed and all 256 are in use; the transaction keeps what it has.
pub const LOCKS_IN_USE: u32 = 17;
/// Insert of a missing key, and the pages are short; the transaction keeps what it has.
pub const PAGES_SHORT: u32 = 18;
/// The request lay on a circle of waits and left the queue: of those on one its transaction held
/// the fewest locks, and of equals it was the newest; the transaction keeps what it has.
pub const CIRCLE: u32 = 19;
