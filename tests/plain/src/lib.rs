//! The key desk in plain Rust, on the same bytes and with the same functions as the proved one, as
//! one would write it for speed: nothing is decoded into values of its own, the picture is judged in
//! one walk with the locks put in order, and requests are served on the bytes. Nothing is proved
//! here; the tests hold it to the model. The benchmark measures the proved desk against it.

mod bytes;
mod judge;
mod locks;
mod queue;
mod request;
mod transactions;
mod tree;

use bytes::{DeskBytes, PagesBytes};
use keydesk::{ANSWERS, Returned, number};
use request::Request;

/// Makes the picture fresh. Gives 0, or 10 with nothing written where a length is wrong.
pub fn fresh(pages: &mut [u8], desk: &mut [u8]) -> u32 {
    let (Ok(pages), Ok(desk)) = (pages.try_into(), desk.try_into()) else {
        return number::WRONG_LENGTHS;
    };
    tree::make_fresh(pages);
    transactions::make_fresh(desk);
    number::DONE
}

/// Serves one request record on any bytes of any lengths.
pub fn serve(pages: &mut [u8], desk: &mut [u8], answers: &mut [u8], request: &[u8]) -> Returned {
    let refused = |number| Returned { number, bytes: 0 };
    let (Ok(pages), Ok(desk)) = (pages.try_into(), desk.try_into()) else {
        return refused(number::WRONG_LENGTHS);
    };
    let pages: &mut PagesBytes = pages;
    let desk: &mut DeskBytes = desk;
    if answers.len() < ANSWERS {
        return refused(number::WRONG_LENGTHS);
    }
    if !judge::is_whole(pages, desk) {
        return refused(number::NOT_WHOLE);
    }
    let Some(request) = Request::read(request) else {
        return refused(number::BAD_REQUEST);
    };
    let bytes = queue::answer(pages, desk, answers, request) as u32;
    Returned { number: number::DONE, bytes }
}
