//! The desk with its picture.

use crate::{ANSWERS, Answers, DESK, PAGES, Refusal, Request, library, number};

/// A desk with its picture, the pages and the desk: all that there is between two calls.
///
/// ```
/// use keydesk::{Desk, Refusal, Request};
///
/// let mut desk = Desk::fresh();
/// desk.ask(Request::begin(1))?;
/// desk.ask(Request::insert(1, 100, 7))?;
///
/// let saved = desk.saved();
/// assert_eq!(Desk::load(&saved)?, desk);
/// assert_eq!(Desk::load(&saved[1..]), Err(Refusal::WrongLengths));
/// # Ok::<(), Refusal>(())
/// ```
#[derive(Clone, Debug, PartialEq, Eq)]
pub struct Desk {
    /// The pages, then the desk: as it is saved.
    picture: Vec<u8>,
}

impl Desk {
    /// The desk that every session starts from: an empty index, nobody running.
    pub fn fresh() -> Desk {
        let mut picture = vec![0; PAGES + DESK];
        let (pages, desk) = picture.split_at_mut(PAGES);
        let returned = library::fresh(pages, desk);
        assert_eq!(returned, number::DONE, "a picture of the right lengths is made fresh");
        Desk { picture }
    }

    /// The desk that was saved. Refused are bytes of another length than `PAGES + DESK`
    /// ([`WrongLengths`](Refusal::WrongLengths)) and a picture that isn't whole
    /// ([`NotWhole`](Refusal::NotWhole)).
    pub fn load(saved: &[u8]) -> Result<Desk, Refusal> {
        if saved.len() != PAGES + DESK {
            return Err(Refusal::WrongLengths);
        }
        let mut desk = Desk { picture: saved.to_vec() };
        // An empty slice is no request record. A call looks for 11 before 12 and changes nothing
        // with either, so that 12 says: the picture is whole.
        match desk.call(&[]) {
            Err(Refusal::BadRequest) => Ok(desk),
            Err(refusal) => Err(refusal),
            Ok(_) => unreachable!("an empty slice is no request record"),
        }
    }

    /// The bytes to save: the pages, then the desk.
    pub fn saved(&self) -> Vec<u8> {
        self.picture.clone()
    }

    /// The pages as they stand.
    pub fn pages(&self) -> &[u8] {
        &self.picture[..PAGES]
    }

    /// Queue, transactions and locks as they stand.
    pub fn desk(&self) -> &[u8] {
        &self.picture[PAGES..]
    }

    /// Asks one request, and gives the answers to all whom the call has answered, the asker or
    /// others: hand each to the transaction that it names. With a refusal nothing has changed.
    pub fn ask(&mut self, request: Request) -> Result<Answers, Refusal> {
        self.call(&request.record())
    }

    fn call(&mut self, record: &[u8]) -> Result<Answers, Refusal> {
        let (pages, desk) = self.picture.split_at_mut(PAGES);
        let mut answers = [0; ANSWERS];
        let returned = library::serve(pages, desk, &mut answers, record);
        match Refusal::returned(returned.number) {
            Some(refusal) => Err(refusal),
            None => Ok(Answers::written(answers, returned.bytes as usize)),
        }
    }
}
