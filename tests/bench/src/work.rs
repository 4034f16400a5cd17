//! What the desks are given to do: pictures to judge and read from, commits, and sessions.

use crate::timing::{PLAIN, SESSION_ROUNDS, Times, median};
use desk::pictures::all_running;
use desk::under_test::{LIBRARY, UnderTest};
use model::desk::{Picture, fresh};
use model::generators::random::Random;
use model::generators::requests::{Bias, Requests};
use model::key::Key;
use model::layout::answer::Answer;
use model::layout::desk::{LOCK_COUNT, Lock, Mode, Slot};
use model::layout::pages::LEAF_FULL;
use model::layout::request::{KeyRequest, Request, RequestKind};
use model::picture::Tables;
use std::collections::BTreeMap;
use std::hint::black_box;
use std::time::Instant;

/// The picture with its locks in any slots: where they lie in order, ordering them costs nothing.
pub fn in_any_slots(mut tables: Tables) -> Picture {
    let order = Random::new(1).order(0, LOCK_COUNT - 1);
    tables.desk.slots = order.into_iter().map(|slot| tables.desk.slots[slot]).collect();
    tables.encode()
}

/// The picture with its first lock moved to another name.
pub fn with_lock_on(name: Key, mut tables: Tables) -> Tables {
    tables.desk.slots[0] = Slot::Taken(Lock { name, holder: 1, mode: Mode::S });
    tables
}

/// A picture with so many entries and S locks of sixteen holders. Transaction 1 holds S on the key
/// in the middle, or on the end of an empty index.
pub fn reader(keys: u64, locks: usize) -> Picture {
    let mut tables = all_running(keys);
    let own = Lock { name: middle(keys), holder: 1, mode: Mode::S };
    tables.desk.slots[0] = Slot::Taken(own);
    for slot in 1..locks {
        let name = Key(1 + (slot as u64 / 16) * 16);
        let holder = (slot % 16) as u16 + 1;
        tables.desk.slots[slot] = Slot::Taken(Lock { name, holder, mode: Mode::S });
    }
    in_any_slots(tables)
}

/// The key in the middle of so many, none of `reader`'s other locks' names; the end where there is
/// none.
fn middle(keys: u64) -> Key {
    if keys == 0 { Key::END } else { Key(keys / 2 / 16 * 16 + 8) }
}

/// Transaction 1's read of the key it holds, or of the highest in an empty index: it takes no lock,
/// so that it can be asked again and again.
pub fn read_on(picture: &Picture) -> Vec<u8> {
    let tables = picture.decode().expect("a whole picture follows the layouts");
    read_of(middle(tables.index.entries().count() as u64).min(Key::HIGHEST))
}

/// Transaction 1's read of one key.
pub fn read_of(key: Key) -> Vec<u8> {
    asked(1, KeyRequest::Read { lo: key, hi: key }).encode()
}

fn asked(transaction: u16, request: KeyRequest) -> Request {
    Request { transaction, kind: RequestKind::Keys(request) }
}

/// The lowest and the highest key of `full_leaf`.
pub const FIRST: Key = Key(1);
pub const LAST: Key = Key(LEAF_FULL as u64);

/// An index that is one full leaf. Transaction 1 holds S on its last key and on its first, and so
/// many others wait to delete the last: that lock stands in the first slot, so that a look at one of
/// these is little more than the search for its target.
pub fn full_leaf(waiting: u16) -> Picture {
    let mut tables = all_running(LEAF_FULL as u64);
    for key in [LAST, FIRST] {
        tables.answer(asked(1, KeyRequest::Read { lo: key, hi: key }));
    }
    for transaction in 2..=waiting + 1 {
        tables.answer(asked(transaction, KeyRequest::Delete { key: LAST }));
    }
    tables.encode()
}

/// A commit of transaction 1: the picture that it is asked on, and what the model answers and leaves.
pub struct Commit {
    pub before: Picture,
    pub request: Vec<u8>,
    pub answers: Vec<u8>,
    pub after: Picture,
}

/// As many entries as fill the pages, where each of their keys is above the one before.
const ENTRIES: u64 = 778;

impl Commit {
    /// Transaction 1 has deleted so many of 778 entries, spread evenly, and so many others wait to
    /// read the first of these: each is answered once it is gone.
    pub fn of(owned: u64, waiting: u16) -> Commit {
        let mut tables = all_running(ENTRIES);
        let apart = ENTRIES / owned;
        let first = Key(1 + apart / 2);
        for place in 0..owned {
            tables.answer(asked(1, KeyRequest::Delete { key: first.up(place * apart) }));
        }
        for transaction in 2..=waiting + 1 {
            tables.answer(asked(transaction, KeyRequest::Read { lo: first, hi: first }));
        }
        let commit = Commit::on(in_any_slots(tables));
        assert_eq!(commit.answers.len(), 20 * (1 + usize::from(waiting)), "all are answered");
        commit
    }

    fn on(before: Picture) -> Commit {
        let mut tables = before.decode().expect("a whole picture follows the layouts");
        let request = Request { transaction: 1, kind: RequestKind::Commit };
        let answers = tables.answer(request).iter().flat_map(Answer::encode).collect();
        Commit { before, request: request.encode(), answers, after: tables.encode() }
    }
}

/// Requests of a mixed session with sixteen transactions, and where it starts and ends.
pub struct Session {
    start: Picture,
    requests: Vec<Vec<u8>>,
    end: Picture,
    numbers: BTreeMap<u16, usize>,
}

/// Waits, circles, ghosts and ends among a few hundred keys.
const MIXED: Bias = Bias {
    settled: 200,
    transactions: 16,
    span: 1000,
    reach: 10,
    existing: 50,
    again: 10,
    weights: [8, 4, 48, 24, 16],
};

impl Session {
    pub fn from_fresh(requests: usize) -> Session {
        Session::chosen(fresh(), Requests::new(1, MIXED), requests)
    }

    pub fn from(picture: Picture, requests: usize) -> Session {
        Session::chosen(picture, Requests::without_opening(1, MIXED), requests)
    }

    /// The model chooses the requests and says where they lead.
    fn chosen(start: Picture, mut stream: Requests, count: usize) -> Session {
        let mut tables = start.decode().expect("a whole picture follows the layouts");
        let mut numbers = BTreeMap::new();
        let mut requests = Vec::new();
        for _ in 0..count {
            let request = stream.next(&tables);
            for Answer { number, .. } in tables.answer(request) {
                *numbers.entry(number).or_default() += 1;
            }
            requests.push(request.encode());
        }
        Session { start, requests, end: tables.encode(), numbers }
    }

    /// The time of the whole session: the sum of the medians of its calls.
    pub fn times(&self) -> Times {
        let mut taken = vec![(Vec::new(), Vec::new()); self.requests.len()];
        for _ in 0..SESSION_ROUNDS {
            self.play(LIBRARY, |call, time| taken[call].0.push(time));
            self.play(PLAIN, |call, time| taken[call].1.push(time));
        }
        let (library, plain): (Vec<_>, Vec<_>) = taken.into_iter().unzip();
        let sum = |calls: Vec<Vec<f64>>| calls.into_iter().map(median).sum();
        Times { library: sum(library), plain: sum(plain) }
    }

    /// Plays the session and notes each call's time. A desk must end where the model does.
    fn play(&self, desk: UnderTest, mut note: impl FnMut(usize, f64)) {
        let Picture { mut pages, desk: mut tables } = self.start.clone();
        let mut answers = [0; keydesk::ANSWERS];
        for (call, request) in self.requests.iter().enumerate() {
            let start = Instant::now();
            let returned = (desk.serve)(&mut pages, &mut tables, &mut answers, black_box(request));
            black_box(returned);
            note(call, start.elapsed().as_secs_f64() * 1e6);
        }
        assert!(pages == self.end.pages && tables == self.end.desk, "the model's end");
    }

    /// How often each number was answered.
    pub fn answers(&self) -> String {
        let counted = self.numbers.iter().map(|(number, times)| format!("{times} of {number}"));
        counted.collect::<Vec<_>>().join(", ")
    }
}
