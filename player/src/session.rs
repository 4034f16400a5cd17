//! A session: lines played one after another on a fresh desk.

use crate::circle::Call;
use crate::keys::Forms;
use crate::picture::Standing;
use crate::text::{self, Asks, Request, Slip};
use crate::words;
use keydesk::{Desk, Number, Refusal};
use std::collections::BTreeMap;

/// What came of a line.
#[derive(Clone, Debug, PartialEq, Eq)]
pub enum Outcome {
    /// The line has no request.
    Nothing,
    /// The line can't be read, and nothing was asked.
    Slip(Slip),
    /// The call was made with this record, and said this.
    Called { record: Vec<u8>, said: Vec<Said> },
}

/// One thing that the desk says in a call.
#[derive(Clone, Debug, PartialEq, Eq)]
pub struct Said {
    /// Whom it is said to.
    pub transaction: u16,
    /// Document 01's number for it.
    pub number: u32,
    pub words: String,
    /// The line that asked, where it is an earlier one.
    pub asked_in: Option<usize>,
    /// The answer record; empty where the call itself refused.
    pub record: Vec<u8>,
}

/// A request that waits, and the line that asked it.
#[derive(Clone, Copy)]
struct Asked {
    line: usize,
    asks: Asks,
}

pub struct Session {
    desk: Desk,
    waiting: BTreeMap<u16, Asked>,
    forms: Forms,
}

impl Session {
    /// A session on a fresh desk.
    pub fn fresh() -> Session {
        Session { desk: Desk::fresh(), waiting: BTreeMap::new(), forms: Forms::default() }
    }

    /// Where things stand now.
    pub fn standing(&self) -> Standing {
        Standing::of(&self.desk, &self.forms)
    }

    /// Plays the line of this number.
    pub fn play(&mut self, line: usize, text: &str) -> Outcome {
        match text::parse(text) {
            Ok(None) => Outcome::Nothing,
            Err(slip) => Outcome::Slip(slip),
            Ok(Some(request)) => {
                request.asks.keys().into_iter().for_each(|written| self.forms.note(written));
                self.call(line, request)
            }
        }
    }

    fn call(&mut self, line: usize, request: Request) -> Outcome {
        let asked = request.for_the_desk();
        let record = asked.record().to_vec();
        let before = self.standing();
        let answers = match self.desk.ask(asked) {
            Ok(answers) => answers,
            Err(refusal) => {
                return Outcome::Called { record, said: vec![refused(&request, refusal)] };
            }
        };
        let records: Vec<Vec<u8>> = answers.records().map(<[u8]>::to_vec).collect();
        let call = Call { before, after: self.standing(), request, answers: answers.collect() };
        let said = records.into_iter().enumerate();
        let said = said.map(|(place, record)| self.said(line, &call, place, record)).collect();
        Outcome::Called { record, said }
    }

    /// The answer at this place in words, with the request that it answers: the asker's is this
    /// line's, any other's the one it waited with. A call answers a transaction at most once.
    fn said(&mut self, line: usize, call: &Call, place: usize, record: Vec<u8>) -> Said {
        let answer = &call.answers[place];
        let this = Asked { line, asks: call.request.asks };
        let asked = if answer.transaction == call.request.transaction {
            self.keep_waiting(answer.transaction, this, answer.says);
            this
        } else {
            self.waiting.remove(&answer.transaction).unwrap_or(this)
        };
        Said {
            transaction: answer.transaction,
            number: u32::from(answer.says.code()),
            words: words::said(call, place, &asked.asks),
            asked_in: (asked.line != line).then_some(asked.line),
            record,
        }
    }

    /// Remembers a request that waits. One refused 13 to 15 leaves an earlier one waiting; whatever
    /// else is answered ends it.
    fn keep_waiting(&mut self, asker: u16, asked: Asked, said: Number) {
        match said {
            Number::StillQueued { .. } => {
                self.waiting.insert(asker, asked);
            }
            Number::AlreadyRunning | Number::NotRunning | Number::IsWaiting => {}
            _ => {
                self.waiting.remove(&asker);
            }
        }
    }
}

/// What is said where the call itself refused.
fn refused(request: &Request, refusal: Refusal) -> Said {
    Said {
        transaction: request.transaction,
        number: refusal.code(),
        words: words::refusal(refusal, request),
        asked_in: None,
        record: vec![],
    }
}
