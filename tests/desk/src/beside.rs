//! The same calls to a desk under test and to the model. What is expected always comes from the
//! model; every byte of pages, desk and answer space and the returned value are compared.

use crate::under_test::UnderTest;
use keydesk::Returned;
use model::desk::{ANSWERS_LENGTH, Picture, fresh, serve};
use model::generators::random::Random;
use model::key::Key;
use model::layout::answer::Answer;
use model::layout::desk::DESK_LENGTH;
use model::layout::pages::PAGES_LENGTH;
use model::layout::request::{KeyRequest, Request, RequestKind};
use model::picture::Tables;

/// The lengths and bytes that a call is made on, before or after it.
#[derive(Clone)]
pub struct Lent {
    pub picture: Picture,
    pub answers: Vec<u8>,
}

impl Lent {
    /// A picture, lent with answer space of any bytes: as much as a call asks for, or at times more.
    pub fn with_space(random: &mut Random, picture: Picture) -> Lent {
        let length = ANSWERS_LENGTH + if random.chance(25) { random.between(1, 90) } else { 0 };
        Lent { picture, answers: any_bytes(random, length) }
    }

    /// Asserts that every byte is as expected; names the first place that isn't.
    pub fn assert_is(&self, expected: &Lent, about: &str) {
        assert_same("pages", &self.picture.pages, &expected.picture.pages, about);
        assert_same("desk", &self.picture.desk, &expected.picture.desk, about);
        assert_same("answers", &self.answers, &expected.answers, about);
    }
}

pub fn any_bytes(random: &mut Random, length: usize) -> Vec<u8> {
    (0..length).map(|_| random.bits() as u8).collect()
}

fn assert_same(what: &str, found: &[u8], expected: &[u8], about: &str) {
    assert_eq!(found.len(), expected.len(), "length of the {what}, {about}");
    if let Some(at) = (0..found.len()).find(|at| found[*at] != expected[*at]) {
        panic!("byte {at} of the {what} is {} and not {}, {about}", found[at], expected[at]);
    }
}

/// Makes one call to the desk under test and one to the model, on any lengths and bytes. Both must
/// return the same and leave the same; gives that.
pub fn call(under_test: UnderTest, lent: &Lent, request: &[u8], about: &str) -> (Returned, Lent) {
    let mut expected = lent.clone();
    let Picture { pages, desk } = &mut expected.picture;
    let returned = serve(pages, desk, &mut expected.answers, request);
    let returned = Returned { number: returned.number.into(), bytes: returned.written as u32 };
    let mut found = lent.clone();
    let Picture { pages, desk } = &mut found.picture;
    assert_eq!((under_test.serve)(pages, desk, &mut found.answers, request), returned, "{about}");
    found.assert_is(&expected, about);
    (returned, found)
}

/// A run of both desks from one picture. The model goes on with its plain values from call to call:
/// a picture that it has made is whole, which its own tests see to.
pub struct Beside {
    under_test: UnderTest,
    random: Random,
    tables: Tables,
    picture: Picture,
}

impl Beside {
    /// A run from fresh; the seed is for the answer space.
    pub fn fresh(under_test: UnderTest, seed: u64) -> Beside {
        let mut random = Random::new(seed);
        let pages = any_bytes(&mut random, PAGES_LENGTH);
        let mut made = Picture { pages, desk: any_bytes(&mut random, DESK_LENGTH) };
        assert_eq!((under_test.fresh)(&mut made.pages, &mut made.desk), 0);
        assert!(made == fresh(), "fresh is as the model has it");
        Beside { under_test, random, tables: Tables::fresh(), picture: made }
    }

    /// A run from a whole picture.
    pub fn from(under_test: UnderTest, seed: u64, picture: Picture) -> Beside {
        let tables = picture.decode().expect("a whole picture follows the layouts");
        Beside { under_test, random: Random::new(seed), tables, picture }
    }

    /// Where both stand, as plain values.
    pub fn tables(&self) -> &Tables {
        &self.tables
    }

    /// Where both stand, as bytes.
    pub fn picture(&self) -> &Picture {
        &self.picture
    }

    /// Asks both a good request and gives the answers.
    pub fn ask(&mut self, request: Request) -> Vec<Answer> {
        let answers = self.tables.answer(request);
        let written: Vec<u8> = answers.iter().flat_map(Answer::encode).collect();
        let picture = std::mem::replace(&mut self.picture, self.tables.encode());
        let mut found = Lent::with_space(&mut self.random, picture);
        let mut expected = Lent { picture: self.picture.clone(), answers: found.answers.clone() };
        expected.answers[..written.len()].copy_from_slice(&written);

        let Picture { pages, desk } = &mut found.picture;
        let returned = (self.under_test.serve)(pages, desk, &mut found.answers, &request.encode());
        let about = format!("after {request:?}");
        assert_eq!(returned, Returned { number: 0, bytes: written.len() as u32 }, "{about}");
        found.assert_is(&expected, &about);
        answers
    }

    pub fn begin(&mut self, transaction: u16) -> Vec<Answer> {
        self.ask(Request { transaction, kind: RequestKind::Begin })
    }

    pub fn commit(&mut self, transaction: u16) -> Vec<Answer> {
        self.ask(Request { transaction, kind: RequestKind::Commit })
    }

    pub fn rollback(&mut self, transaction: u16) -> Vec<Answer> {
        self.ask(Request { transaction, kind: RequestKind::Rollback })
    }

    pub fn read(&mut self, transaction: u16, lo: u64, hi: u64) -> Vec<Answer> {
        self.ask_keys(transaction, KeyRequest::Read { lo: Key(lo), hi: Key(hi) })
    }

    pub fn insert(&mut self, transaction: u16, key: u64, record: u32) -> Vec<Answer> {
        self.ask_keys(transaction, KeyRequest::Insert { key: Key(key), record })
    }

    pub fn delete(&mut self, transaction: u16, key: u64) -> Vec<Answer> {
        self.ask_keys(transaction, KeyRequest::Delete { key: Key(key) })
    }

    fn ask_keys(&mut self, transaction: u16, request: KeyRequest) -> Vec<Answer> {
        self.ask(Request { transaction, kind: RequestKind::Keys(request) })
    }
}
