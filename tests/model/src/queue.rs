//! Beginning, ending and working the queue (document 01, Working the queue; document 02, [14]).

use crate::entry::Entry;
use crate::key::Key;
use crate::layout::answer::{Answer, number};
use crate::layout::desk::{Lock, Mode, Slot, Transaction};
use crate::layout::pages::PAGE_COUNT;
use crate::layout::request::{KeyRequest, Request, RequestKind};
use crate::locks::Target;
use crate::picture::Tables;

impl Tables {
    /// Everything a good request leads to: its answers, in the order they are given. Begin, commit
    /// and rollback act first and answer first; a read, insert or delete joins the queue, and if it
    /// is still there at rest, its 3 comes last and names who is in the way then.
    pub fn answer(&mut self, request: Request) -> Vec<Answer> {
        let asker = request.transaction;
        if let Some(refusal) = self.refusal(request) {
            return vec![Answer::plain(asker, refusal)];
        }
        self.act(request);
        let mut answers = match request.kind {
            RequestKind::Keys(_) => Vec::new(),
            _ => vec![Answer::plain(asker, number::DONE)],
        };
        self.work_queue(&mut answers);
        if self.desk.waiting_request(asker).is_some() {
            let behind = self.blocker(asker).expect("whoever still waits at rest is blocked");
            answers.push(Answer::waiting(asker, behind));
        }
        answers
    }

    /// What a request does before the queue is worked.
    pub fn act(&mut self, Request { transaction: asker, kind }: Request) {
        match kind {
            RequestKind::Begin => self.desk.set_transaction(asker, Transaction::Running),
            RequestKind::Commit => self.end(asker, Entry::committed),
            RequestKind::Rollback => self.end(asker, Entry::rolled_back),
            RequestKind::Keys(request) => self.join_queue(asker, request),
        }
    }

    /// 13, 14 or 15 where one is due, in that order (document 01, What the desk says).
    fn refusal(&self, request: Request) -> Option<u16> {
        match (request.kind, self.desk.transaction(request.transaction)) {
            (RequestKind::Begin, Transaction::NotRunning) => None,
            (RequestKind::Begin, _) => Some(number::ALREADY_RUNNING),
            (_, Transaction::NotRunning) => Some(number::NOT_RUNNING),
            (RequestKind::Rollback, _) => None,
            (_, Transaction::Waiting(_)) => Some(number::IS_WAITING),
            (_, Transaction::Running) => None,
        }
    }

    /// Ends a transaction: its entries settle, its locks are released, and a request it still has
    /// in the queue is dropped without an answer. Which entries are its own goes by their owner,
    /// not by its X locks.
    pub fn end(&mut self, transaction: u16, ended: fn(Entry) -> Option<Entry>) {
        self.index.settle(transaction, ended);
        for slot in &mut self.desk.slots {
            if matches!(slot, Slot::Taken(lock) if lock.holder == transaction) {
                *slot = Slot::Free;
            }
        }
        self.desk.queue.retain(|waiter| *waiter != transaction);
        self.desk.set_transaction(transaction, Transaction::NotRunning);
    }

    pub fn join_queue(&mut self, asker: u16, request: KeyRequest) {
        self.desk.queue.push(asker);
        self.desk.set_transaction(asker, Transaction::Waiting(request));
    }

    /// Takes a waiting transaction out of the queue, and gives the request it waited with.
    pub fn leave_queue(&mut self, waiter: u16) -> KeyRequest {
        let request = self.desk.waiting_request(waiter).expect("whoever is queued waits");
        self.desk.queue.retain(|other| *other != waiter);
        self.desk.set_transaction(waiter, Transaction::Running);
        request
    }

    /// Works the queue until it is at rest. After each run and each 19 everything is worked out
    /// again from the oldest on: a run can free an older request, and a 19 a later one.
    fn work_queue(&mut self, answers: &mut Vec<Answer>) {
        loop {
            if let Some(waiter) = self.oldest_unblocked() {
                let request = self.leave_queue(waiter);
                answers.push(self.run(waiter, request));
            } else if let Some(waiter) = self.lightest_on_circle() {
                self.leave_queue(waiter);
                answers.push(Answer::plain(waiter, number::CIRCLE));
            } else {
                return;
            }
        }
    }

    fn oldest_unblocked(&self) -> Option<u16> {
        let mut oldest_first = self.desk.queue.iter().copied();
        oldest_first.find(|waiter| self.blocker(*waiter).is_none())
    }

    /// "Of the queued requests on a circle, the one whose transaction holds the fewest locks"; "of
    /// equals, the newest" (document 02, [14]): the first of equals, newest first. All who lie on
    /// any circle are looked at together.
    fn lightest_on_circle(&self) -> Option<u16> {
        let newest_first = self.desk.queue.iter().rev().copied();
        let on_circle = newest_first.filter(|waiter| self.is_on_circle(*waiter));
        on_circle.min_by_key(|waiter| self.locks_held(*waiter))
    }

    /// Runs an unblocked request. 17 comes before every other number. Being unblocked, the asker
    /// meets no ghost but its own: the owner of any other holds X on it.
    fn run(&mut self, asker: u16, request: KeyRequest) -> Answer {
        let lasting = self.lasting_lock(asker, request);
        if self.held(asker, lasting.name).is_none() && self.lowest_free_slot().is_none() {
            return Answer::plain(asker, number::LOCKS_IN_USE);
        }
        match request {
            KeyRequest::Read { hi, .. } => self.run_read(asker, lasting, hi),
            KeyRequest::Insert { key, record } => self.run_insert(asker, lasting, key, record),
            KeyRequest::Delete { key } => self.run_delete(asker, lasting, key),
        }
    }

    /// The lock that a run leaves behind: X on its key for an insert of a missing key, whose lock
    /// on the target is for the instant only; the target's lock in every other case.
    fn lasting_lock(&self, asker: u16, request: KeyRequest) -> Target {
        match request {
            KeyRequest::Insert { key, .. } if self.is_missing(key) => {
                Target { name: key, mode: Mode::X }
            }
            _ => self.target(asker, request),
        }
    }

    fn is_missing(&self, key: Key) -> bool {
        self.index.entry(key).is_none_or(|entry| entry.is_ghost())
    }

    fn run_read(&mut self, asker: u16, lasting: Target, hi: Key) -> Answer {
        self.take_lock(asker, lasting);
        let found = self.index.entry(lasting.name).filter(|entry| entry.key <= hi);
        match found.and_then(|entry| entry.now) {
            Some(record) => Answer::showing(asker, number::FOUND, lasting.name, record),
            None => Answer::plain(asker, number::NOTHING),
        }
    }

    fn run_insert(&mut self, asker: u16, lasting: Target, key: Key, record: u32) -> Answer {
        let entry = self.index.entry(key);
        if entry.is_none() && self.index.used() + self.index.pages_needed(key) > PAGE_COUNT {
            return Answer::plain(asker, number::PAGES_SHORT);
        }
        self.take_lock(asker, lasting);
        match entry.map(|entry| (entry, entry.now)) {
            None => self.index.add(Entry::inserted(key, record, asker)),
            Some((own_ghost, None)) => self.index.replace(own_ghost.inserted_again(record)),
            Some((_, Some(record_now))) => {
                return Answer::showing(asker, number::KEY_PRESENT, key, record_now);
            }
        }
        Answer::plain(asker, number::DONE)
    }

    fn run_delete(&mut self, asker: u16, lasting: Target, key: Key) -> Answer {
        self.take_lock(asker, lasting);
        match self.index.entry(key) {
            Some(entry) if !entry.is_ghost() => {
                self.index.replace(entry.deleted(asker));
                Answer::plain(asker, number::DONE)
            }
            _ => Answer::plain(asker, number::NOTHING),
        }
    }

    pub fn lowest_free_slot(&self) -> Option<usize> {
        self.desk.slots.iter().position(|slot| *slot == Slot::Free)
    }

    /// Takes a lock for good. "X replaces S in its slot and is never weakened"; a new lock takes
    /// the lowest free slot, of which the run has made sure.
    pub fn take_lock(&mut self, holder: u16, wanted: Target) {
        let lock = Lock { name: wanted.name, holder, mode: wanted.mode };
        let slot = match self.held(holder, wanted.name) {
            Some(Mode::X) => return,
            Some(Mode::S) => {
                let held = Slot::Taken(Lock { mode: Mode::S, ..lock });
                self.desk.slots.iter().position(|slot| *slot == held)
            }
            None => self.lowest_free_slot(),
        };
        self.desk.slots[slot.expect("a run first makes sure of its slot")] = Slot::Taken(lock);
    }
}
