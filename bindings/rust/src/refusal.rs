//! The three numbers that a call returns where it refuses (document 01, What the desk says).

use crate::number;
use std::error::Error;
use std::fmt;

/// The call refused: nothing has changed and nobody was answered.
///
/// ```
/// use keydesk::{Desk, Key, Refusal, Request};
///
/// let mut desk = Desk::fresh();
/// let refused = desk.ask(Request::delete(1, Key::END)).expect_err("the end is no key");
/// assert_eq!((refused, refused.code()), (Refusal::BadRequest, 12));
/// assert_eq!(desk, Desk::fresh());
/// ```
#[derive(Clone, Copy, Debug, PartialEq, Eq)]
pub enum Refusal {
    /// 10: pages, desk or answers, or the bytes to load, have a wrong length.
    WrongLengths,
    /// 11: the picture isn't whole: its bytes are not what a desk leaves.
    NotWhole,
    /// 12: a bad request record.
    BadRequest,
}

impl Refusal {
    /// Document 01's number.
    pub fn code(&self) -> u32 {
        match self {
            Refusal::WrongLengths => number::WRONG_LENGTHS,
            Refusal::NotWhole => number::NOT_WHOLE,
            Refusal::BadRequest => number::BAD_REQUEST,
        }
    }

    /// The refusal that a call returned; none where it served.
    pub(crate) fn returned(code: u32) -> Option<Refusal> {
        match code {
            number::DONE => None,
            number::WRONG_LENGTHS => Some(Refusal::WrongLengths),
            number::NOT_WHOLE => Some(Refusal::NotWhole),
            number::BAD_REQUEST => Some(Refusal::BadRequest),
            other => unreachable!("a call returns 0, 10, 11 or 12, and not {other}"),
        }
    }
}

/// In words.
impl fmt::Display for Refusal {
    fn fmt(&self, to: &mut fmt::Formatter) -> fmt::Result {
        match self {
            Refusal::WrongLengths => write!(to, "a buffer has the wrong length"),
            Refusal::NotWhole => write!(to, "the picture isn't whole"),
            Refusal::BadRequest => write!(to, "a bad request record"),
        }
    }
}

impl Error for Refusal {}
