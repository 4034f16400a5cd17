//! A desk with its picture, to be asked one request after another.

use crate::desk::{ANSWERS_LENGTH, Picture, fresh, serve};
use crate::key::Key;
use crate::layout::answer::{ANSWER_LENGTH, Answer, number};
use crate::layout::request::{KeyRequest, Request, RequestKind};
use crate::picture::Tables;

/// Each method asks for one transaction and gives the answers of that call.
pub struct Session {
    pub picture: Picture,
}

impl Session {
    pub fn fresh() -> Session {
        Session { picture: fresh() }
    }

    /// A session that starts from any whole picture.
    pub fn at(tables: &Tables) -> Session {
        Session { picture: tables.encode() }
    }

    /// A session with settled keys, each with itself as record: put there by transaction 16, which
    /// begins, inserts them and commits.
    pub fn settled(keys: &[u64]) -> Session {
        let mut session = Session::fresh();
        session.begin(16);
        for key in keys {
            session.insert(16, *key, *key as u32);
        }
        session.commit(16);
        session
    }

    pub fn begin(&mut self, transaction: u16) -> Vec<Answer> {
        self.ask(Request { transaction, kind: RequestKind::Begin })
    }

    pub fn commit(&mut self, transaction: u16) -> Vec<Answer> {
        self.ask(Request { transaction, kind: RequestKind::Commit })
    }

    pub fn rollback(&mut self, transaction: u16) -> Vec<Answer> {
        self.ask(Request { transaction, kind: RequestKind::Rollback })
    }

    pub fn read(&mut self, transaction: u16, lo: u64, hi: u64) -> Vec<Answer> {
        let read = KeyRequest::Read { lo: Key(lo), hi: Key(hi) };
        self.ask(Request { transaction, kind: RequestKind::Keys(read) })
    }

    pub fn insert(&mut self, transaction: u16, key: u64, record: u32) -> Vec<Answer> {
        let insert = KeyRequest::Insert { key: Key(key), record };
        self.ask(Request { transaction, kind: RequestKind::Keys(insert) })
    }

    pub fn delete(&mut self, transaction: u16, key: u64) -> Vec<Answer> {
        let delete = KeyRequest::Delete { key: Key(key) };
        self.ask(Request { transaction, kind: RequestKind::Keys(delete) })
    }

    /// Asks a good request of a whole picture.
    pub fn ask(&mut self, request: Request) -> Vec<Answer> {
        let mut answers = [0; ANSWERS_LENGTH];
        let Picture { pages, desk } = &mut self.picture;
        let returned = serve(pages, desk, &mut answers, &request.encode());
        assert_eq!(returned.number, number::DONE, "{request:?} is served");
        let records = answers[..returned.written].chunks(ANSWER_LENGTH);
        records.map(|record| Answer::decode(record).expect("answers are answer records")).collect()
    }

    /// The picture as plain values.
    pub fn tables(&self) -> Tables {
        self.picture.decode().expect("a session's picture follows the layouts")
    }
}
