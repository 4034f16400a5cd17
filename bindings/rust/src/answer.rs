//! Answers and their records (document 01, What the desk says).

use crate::{ANSWER, ANSWERS, Key, TRANSACTIONS, number};
use std::fmt;

/// What the desk says to one transaction: often to another one than the asker, since an end lets
/// those run that waited, and who closes a circle of waits can have another turned away. Hand it to
/// the transaction that it names.
///
/// ```
/// use keydesk::{Answer, Key, Number};
///
/// let record = [20, 0, 7, 0, 2, 0, 1, 0, 100, 0, 0, 0, 0, 0, 0, 0, 7, 0, 0, 0];
/// let answer = Answer::read(&record).expect("an answer record");
/// assert_eq!(answer.transaction, 2);
/// assert_eq!(answer.says, Number::Found { key: Key(100), record: 7 });
/// ```
#[derive(Clone, Copy, Debug, PartialEq, Eq)]
pub struct Answer {
    /// Who is answered.
    pub transaction: u16,
    /// What it is told.
    pub says: Number,
}

/// Document 01's numbers that stand in answers, with the key and record that two of them carry and
/// the transaction that one of them names. After [`LocksInUse`](Number::LocksInUse),
/// [`PagesShort`](Number::PagesShort) and [`Circle`](Number::Circle) the transaction lives on and
/// keeps what it has.
///
/// ```
/// use keydesk::Number;
///
/// assert_eq!(Number::Circle.code(), 19);
/// assert_eq!(Number::StillQueued { behind: 1 }.to_string(), "waits behind 1");
/// ```
#[derive(Clone, Copy, Debug, PartialEq, Eq)]
pub enum Number {
    /// 0: begin, commit, rollback, insert or delete is done.
    Done,
    /// 1: a read found an entry from lo to hi.
    Found {
        /// The key found.
        key: Key,
        /// Its record.
        record: u32,
    },
    /// 2: a read found nothing from lo to hi; a delete found its key absent.
    Nothing,
    /// 3: the request waits. Its answer comes in the call of another transaction.
    StillQueued {
        /// The lowest-numbered transaction in its way, as at rest; others may be in its way too.
        behind: u16,
    },
    /// 13: begin of a running transaction.
    AlreadyRunning,
    /// 14: any other request of a transaction that isn't running.
    NotRunning,
    /// 15: anything but rollback of a transaction that waits.
    IsWaiting,
    /// 16: insert of a key that is present.
    KeyPresent {
        /// The key that was to be inserted.
        key: Key,
        /// The record that it has.
        record: u32,
    },
    /// 17: a new lock is needed and all 256 are in use.
    LocksInUse,
    /// 18: insert of a missing key, and the pages are short.
    PagesShort,
    /// 19: the request lay on a circle of waits and left the queue: of those on one its transaction
    /// held the fewest locks, and of equals it was the newest. The transaction keeps what it has.
    Circle,
}

impl Answer {
    /// Reads an answer record; none where it is no answer record: another length or kind, a number
    /// that stands in no answer, or a 3 that names nobody from 1 to 16. Key and record are looked at
    /// where the number carries them.
    pub fn read(record: &[u8; ANSWER]) -> Option<Answer> {
        let field = |at: usize, width: usize| {
            let bytes = record[at..at + width].iter().rev();
            bytes.fold(0, |number, byte| number << 8 | u64::from(*byte))
        };
        if field(0, 2) != 20 || field(2, 2) != 7 {
            return None;
        }
        let says = Number::of(field(6, 2) as u32, Key(field(8, 8)), field(16, 4) as u32)?;
        Some(Answer { transaction: field(4, 2) as u16, says })
    }
}

impl Number {
    /// Document 01's number.
    pub fn code(&self) -> u16 {
        let code = match self {
            Number::Done => number::DONE,
            Number::Found { .. } => number::FOUND,
            Number::Nothing => number::NOTHING,
            Number::StillQueued { .. } => number::STILL_QUEUED,
            Number::AlreadyRunning => number::ALREADY_RUNNING,
            Number::NotRunning => number::NOT_RUNNING,
            Number::IsWaiting => number::IS_WAITING,
            Number::KeyPresent { .. } => number::KEY_PRESENT,
            Number::LocksInUse => number::LOCKS_IN_USE,
            Number::PagesShort => number::PAGES_SHORT,
            Number::Circle => number::CIRCLE,
        };
        code as u16
    }

    /// The number of an answer record with its key and record; none where they stand in no answer.
    fn of(code: u32, key: Key, record: u32) -> Option<Number> {
        match code {
            number::DONE => Some(Number::Done),
            number::FOUND => Some(Number::Found { key, record }),
            number::NOTHING => Some(Number::Nothing),
            number::STILL_QUEUED => {
                let behind = u16::try_from(record).ok()?;
                (1..=TRANSACTIONS).contains(&behind).then_some(Number::StillQueued { behind })
            }
            number::ALREADY_RUNNING => Some(Number::AlreadyRunning),
            number::NOT_RUNNING => Some(Number::NotRunning),
            number::IS_WAITING => Some(Number::IsWaiting),
            number::KEY_PRESENT => Some(Number::KeyPresent { key, record }),
            number::LOCKS_IN_USE => Some(Number::LocksInUse),
            number::PAGES_SHORT => Some(Number::PagesShort),
            number::CIRCLE => Some(Number::Circle),
            _ => None,
        }
    }
}

/// In words, without the request that is answered.
impl fmt::Display for Number {
    fn fmt(&self, to: &mut fmt::Formatter) -> fmt::Result {
        match self {
            Number::Done => write!(to, "done"),
            Number::Found { key, record } => write!(to, "found {key} with record {record}"),
            Number::Nothing => write!(to, "found nothing"),
            Number::StillQueued { behind } => write!(to, "waits behind {behind}"),
            Number::AlreadyRunning => write!(to, "has begun already"),
            Number::NotRunning => write!(to, "isn't running: begin comes first"),
            Number::IsWaiting => write!(to, "is waiting, and can only roll back"),
            Number::KeyPresent { key, record } => {
                write!(to, "{key} is there already, with record {record}")
            }
            Number::LocksInUse => write!(to, "turned away: all 256 locks are in use"),
            Number::PagesShort => write!(to, "turned away: no page is left for another key"),
            Number::Circle => write!(to, "turned away, the lightest in a circle"),
        }
    }
}

/// The answers of one call, in the order in which things were done. It has its own bytes, so that
/// the desk can be asked again before the last answer is taken.
///
/// ```
/// use keydesk::{Desk, Request};
///
/// let mut desk = Desk::fresh();
/// let answers = desk.ask(Request::begin(1))?;
/// assert_eq!(answers.len(), 1);
/// for answer in answers {
///     desk.ask(Request::commit(answer.transaction))?;
/// }
/// # Ok::<(), keydesk::Refusal>(())
/// ```
#[derive(Clone, Debug)]
pub struct Answers {
    bytes: [u8; ANSWERS],
    /// The records still to come stand from here to `end`.
    at: usize,
    end: usize,
}

impl Answers {
    /// The answers that a call has written to the first `end` bytes.
    pub(crate) fn written(bytes: [u8; ANSWERS], end: usize) -> Answers {
        Answers { bytes, at: 0, end }
    }

    /// The bytes of the answers still to come, one record after the other.
    pub fn bytes(&self) -> &[u8] {
        &self.bytes[self.at..self.end]
    }

    /// The records of the answers still to come, 20 bytes each.
    pub fn records(&self) -> impl ExactSizeIterator<Item = &[u8]> {
        self.bytes().chunks_exact(ANSWER)
    }
}

impl Iterator for Answers {
    type Item = Answer;

    fn next(&mut self) -> Option<Answer> {
        let record = self.bytes().first_chunk()?;
        let answer = Answer::read(record).expect("the desk writes answer records");
        self.at += ANSWER;
        Some(answer)
    }

    fn size_hint(&self) -> (usize, Option<usize>) {
        let left = self.bytes().len() / ANSWER;
        (left, Some(left))
    }
}

impl ExactSizeIterator for Answers {}
