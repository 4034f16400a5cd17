//! A call of the desk (document 01, What the desk says).

use crate::layout::answer::{ANSWER_LENGTH, Answer, number};
use crate::layout::desk::DESK_LENGTH;
use crate::layout::pages::PAGES_LENGTH;
use crate::layout::request::Request;
pub use crate::picture::Picture;
use crate::picture::Tables;
use crate::whole::whole;

/// "A call writes at most 16 answers", and asks for the room beforehand.
pub const ANSWERS_LENGTH: usize = 16 * ANSWER_LENGTH;

/// What a call returns: 10, 11 or 12 with nothing changed and nothing written, or 0 and the number
/// of answer bytes.
#[derive(Clone, Copy, Debug, PartialEq, Eq)]
pub struct Returned {
    pub number: u16,
    pub written: usize,
}

/// The picture that the desk starts with.
pub fn fresh() -> Picture {
    Tables::fresh().encode()
}

/// Serves one request record. The slices may hold any bytes and have any length.
pub fn serve(pages: &mut [u8], desk: &mut [u8], answers: &mut [u8], request: &[u8]) -> Returned {
    let refused = |number| Returned { number, written: 0 };
    if pages.len() != PAGES_LENGTH || desk.len() != DESK_LENGTH || answers.len() < ANSWERS_LENGTH {
        return refused(number::WRONG_LENGTHS);
    }
    if !whole(pages, desk) {
        return refused(number::NOT_WHOLE);
    }
    let Some(request) = Request::decode(request) else {
        return refused(number::BAD_REQUEST);
    };
    let mut tables = Tables::decode(pages, desk).expect("a whole picture follows the layouts");
    let given: Vec<u8> = tables.answer(request).iter().flat_map(Answer::encode).collect();
    let picture = tables.encode();
    pages.copy_from_slice(&picture.pages);
    desk.copy_from_slice(&picture.desk);
    answers[..given.len()].copy_from_slice(&given);
    Returned { number: number::DONE, written: given.len() }
}
