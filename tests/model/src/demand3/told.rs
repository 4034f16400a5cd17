//! What was told to whom and what was changed since, from requests and answers alone: "told about:
//! lo to the key found (1), lo..hi (2 to a read), the key (2 to a delete, 16). Changed: presence or
//! record now" (document 01, last section).

use super::Breach;
use crate::key::Key;
use crate::layout::answer::{Answer, number};
use crate::layout::desk::TRANSACTION_COUNT;
use crate::layout::request::{KeyRequest, Request, RequestKind};
use crate::picture::Tables;
use std::collections::BTreeMap;

/// The index as the answers describe it, and each running transaction since its begin.
pub struct Told {
    now: BTreeMap<Key, u32>,
    running: BTreeMap<u16, SinceBegin>,
}

#[derive(Default)]
struct SinceBegin {
    waiting: Option<KeyRequest>,
    /// The ranges it was told about, both ends included.
    told: Vec<(Key, Key)>,
    /// The keys it changed, each with what was there before its first change.
    before: BTreeMap<Key, Option<u32>>,
}

impl Told {
    /// A run from fresh: no key, nobody running.
    pub fn fresh() -> Told {
        Told { now: BTreeMap::new(), running: BTreeMap::new() }
    }

    /// A run from another whole picture, in which nobody has been told anything yet.
    pub fn starting_from(tables: &Tables) -> Told {
        let mut told = Told::fresh();
        for transaction in 1..=TRANSACTION_COUNT {
            if tables.desk.is_running(transaction) {
                let waiting = tables.desk.waiting_request(transaction);
                told.running.insert(transaction, SinceBegin { waiting, ..Default::default() });
            }
        }
        for entry in tables.index.entries() {
            told.now.extend(entry.now.map(|record| (entry.key, record)));
            if let Some(owner) = told.running.get_mut(&entry.owner) {
                owner.before.insert(entry.key, entry.before);
            }
        }
        told
    }

    /// The keys that are present now and their records, as the answers have it.
    pub fn now(&self) -> &BTreeMap<Key, u32> {
        &self.now
    }

    /// Takes in one call: the request, and its answers in the order they were given.
    pub fn hear(&mut self, request: &Request, answers: &[Answer]) -> Result<(), Breach> {
        for answer in answers {
            if answer.transaction == request.transaction {
                self.hear_asker(request.kind, answer)?;
            } else {
                self.hear_waiter(answer)?;
            }
        }
        Ok(())
    }

    /// An answer to whoever made the call: always to the new request, since an older one of the
    /// same transaction is either in the way (15) or dropped (rollback).
    fn hear_asker(&mut self, kind: RequestKind, answer: &Answer) -> Result<(), Breach> {
        let asker = answer.transaction;
        let runs = self.running.contains_key(&asker);
        let waits = self.running.get(&asker).is_some_and(|since| since.waiting.is_some());
        match (kind, answer.number) {
            (RequestKind::Begin, number::ALREADY_RUNNING) if runs => {}
            (RequestKind::Begin, number::DONE) if !runs => {
                self.running.insert(asker, SinceBegin::default());
            }
            (RequestKind::Begin, _) => return Err(not_an_answer(answer)),
            (_, number::NOT_RUNNING) if !runs => {}
            (RequestKind::Rollback, number::DONE) if runs => return self.roll_back(asker),
            (RequestKind::Rollback, _) => return Err(not_an_answer(answer)),
            (_, number::IS_WAITING) if waits => {}
            (RequestKind::Commit, number::DONE) if runs && !waits => {
                self.running.remove(&asker);
            }
            (RequestKind::Keys(request), number::STILL_QUEUED) if runs && !waits => {
                self.ask_for_name(answer)?;
                self.since_begin(asker).waiting = Some(request);
            }
            (RequestKind::Keys(request), _) if runs && !waits => {
                return self.hear_run(request, answer);
            }
            _ => return Err(not_an_answer(answer)),
        }
        Ok(())
    }

    /// An answer to the request that another transaction waits with.
    fn hear_waiter(&mut self, answer: &Answer) -> Result<(), Breach> {
        let waiter = self.running.get_mut(&answer.transaction);
        match waiter.and_then(|waiter| waiter.waiting.take()) {
            Some(request) => self.hear_run(request, answer),
            None => Err(not_an_answer(answer)),
        }
    }

    /// The answer to a request that has left the queue.
    fn hear_run(&mut self, request: KeyRequest, answer: &Answer) -> Result<(), Breach> {
        self.ask_for_truth(request, answer)?;
        let transaction = answer.transaction;
        match (request, answer.number) {
            (KeyRequest::Insert { key, record }, number::DONE) => {
                return self.change(transaction, key, Some(record));
            }
            (KeyRequest::Delete { key }, number::DONE) => {
                return self.change(transaction, key, None);
            }
            (KeyRequest::Read { lo, .. }, number::FOUND) => {
                self.since_begin(transaction).told.push((lo, answer.key));
            }
            (KeyRequest::Read { lo, hi }, number::NOTHING) => {
                self.since_begin(transaction).told.push((lo, hi));
            }
            (KeyRequest::Delete { key }, number::NOTHING)
            | (KeyRequest::Insert { key, .. }, number::KEY_PRESENT) => {
                self.since_begin(transaction).told.push((key, key));
            }
            (_, number::LOCKS_IN_USE | number::CIRCLE) => {}
            (KeyRequest::Insert { .. }, number::PAGES_SHORT) => {}
            _ => return Err(not_an_answer(answer)),
        }
        Ok(())
    }

    /// Whether an answer fits what the answers before it make of the index.
    fn ask_for_truth(&self, request: KeyRequest, answer: &Answer) -> Result<(), Breach> {
        let shown = (answer.key, answer.record);
        let is_true = match (request, answer.number) {
            (KeyRequest::Read { lo, hi }, number::FOUND) => {
                let first = self.now.range(lo..=hi).next();
                first.map(|(key, record)| (*key, *record)) == Some(shown)
            }
            (KeyRequest::Read { lo, hi }, number::NOTHING) => {
                self.now.range(lo..=hi).next().is_none()
            }
            (KeyRequest::Insert { key, .. }, number::KEY_PRESENT) => {
                shown.0 == key && self.now.get(&key) == Some(&shown.1)
            }
            (KeyRequest::Insert { key, .. }, number::DONE | number::PAGES_SHORT) => {
                !self.now.contains_key(&key)
            }
            (KeyRequest::Delete { key }, number::DONE) => self.now.contains_key(&key),
            (KeyRequest::Delete { key }, number::NOTHING) => !self.now.contains_key(&key),
            _ => true,
        };
        let Answer { transaction, number, .. } = *answer;
        if is_true { Ok(()) } else { Err(Breach::Untrue { transaction, number }) }
    }

    /// A 3 shows no key, and names another transaction that runs; which one is for `waits` to say.
    fn ask_for_name(&self, answer: &Answer) -> Result<(), Breach> {
        let Answer { transaction, number, key, record } = *answer;
        let mut others = self.running.keys().filter(|other| **other != transaction);
        let names_another = others.any(|other| u32::from(*other) == record);
        let is_true = key == Key(0) && names_another;
        if is_true { Ok(()) } else { Err(Breach::Untrue { transaction, number }) }
    }

    /// A key's presence or record now becomes `to`, by the hand of a running transaction.
    fn change(&mut self, by: u16, key: Key, to: Option<u32>) -> Result<(), Breach> {
        let was = self.now.get(&key).copied();
        self.since_begin(by).before.entry(key).or_insert(was);
        self.set_now(by, key, to)
    }

    /// Every key that the transaction changed becomes what it was before, and the transaction ends.
    fn roll_back(&mut self, transaction: u16) -> Result<(), Breach> {
        let ended = self.running.remove(&transaction).unwrap_or_default();
        for (key, before) in ended.before {
            self.set_now(transaction, key, before)?;
        }
        Ok(())
    }

    /// Writes what a key is now. Where that is a change, nobody else may have been told about it.
    fn set_now(&mut self, by: u16, key: Key, to: Option<u32>) -> Result<(), Breach> {
        let was = match to {
            Some(record) => self.now.insert(key, record),
            None => self.now.remove(&key),
        };
        let is_told =
            |since: &SinceBegin| since.told.iter().any(|(lo, hi)| *lo <= key && key <= *hi);
        let mut others = self.running.iter().filter(|(other, _)| **other != by);
        match others.find(|(_, since)| is_told(since)) {
            Some((told, _)) if was != to => Err(Breach::ChangedByAnother { told: *told, by, key }),
            _ => Ok(()),
        }
    }

    fn since_begin(&mut self, transaction: u16) -> &mut SinceBegin {
        self.running.get_mut(&transaction).expect("only a running transaction gets here")
    }
}

fn not_an_answer(answer: &Answer) -> Breach {
    Breach::NotAnAnswer { transaction: answer.transaction, number: answer.number }
}
