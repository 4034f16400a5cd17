//! Request records, biased towards waits, circles, ghosts, upgrades, splits and full tables.

use super::random::Random;
use crate::key::Key;
use crate::layout::desk::Transaction;
use crate::layout::request::{KeyRequest, Request, RequestKind};
use crate::picture::Tables;

/// What a stream of requests is likely to ask.
#[derive(Clone, Copy, Debug)]
pub struct Bias {
    /// How many keys are put in and settled before anything else, spread evenly.
    pub settled: u64,
    /// Transactions 1 to this many take part.
    pub transactions: u16,
    /// Keys are drawn below this.
    pub span: u64,
    /// A read's hi is at most this far above its lo.
    pub reach: u64,
    /// How often, in a hundred, a key is one that has an entry.
    pub existing: u64,
    /// How often, in a hundred, a transaction comes back to the key it asked for last.
    pub again: u64,
    /// The weights of commit, rollback, read, insert and delete for one that runs and isn't
    /// waiting.
    pub weights: [u64; 5],
}

impl Bias {
    /// Many transactions around few keys.
    pub const WAITS: Bias = Bias {
        settled: 20,
        transactions: 16,
        span: 100,
        reach: 6,
        existing: 40,
        again: 20,
        weights: [6, 4, 40, 30, 20],
    };
    /// Locks on a key here and there and then writes on what others hold, with few ends.
    pub const CIRCLES: Bias = Bias {
        settled: 24,
        transactions: 16,
        span: 240,
        reach: 0,
        existing: 80,
        again: 5,
        weights: [2, 3, 45, 15, 35],
    };
    /// Deletes, and comebacks to what was deleted.
    pub const GHOSTS: Bias = Bias {
        settled: 10,
        transactions: 5,
        span: 40,
        reach: 20,
        existing: 60,
        again: 60,
        weights: [4, 4, 20, 35, 37],
    };
    /// Reads of a key and then deletes of it.
    pub const UPGRADES: Bias = Bias {
        settled: 40,
        transactions: 4,
        span: 400,
        reach: 0,
        existing: 90,
        again: 45,
        weights: [8, 6, 56, 10, 20],
    };
    /// Inserts all over the range of keys, until the pages are short.
    pub const SPLITS: Bias = Bias {
        settled: 0,
        transactions: 2,
        span: u64::MAX,
        reach: 1 << 56,
        existing: 3,
        again: 2,
        weights: [40, 3, 20, 910, 27],
    };
    /// Readers that hardly ever end, until the locks are all in use, and some writers among them.
    pub const FULL_LOCKS: Bias = Bias {
        settled: 60,
        transactions: 16,
        span: 600,
        reach: 0,
        existing: 90,
        again: 2,
        weights: [1, 1, 940, 40, 18],
    };
    pub const ALL: [Bias; 6] =
        [Bias::WAITS, Bias::CIRCLES, Bias::GHOSTS, Bias::UPGRADES, Bias::SPLITS, Bias::FULL_LOCKS];
}

/// A stream of requests under one bias.
pub struct Requests {
    bias: Bias,
    random: Random,
    /// What is still to be asked first, the next at the end.
    opening: Vec<Request>,
    /// The key that each transaction asked for last, transaction t at t - 1.
    last: [Key; 16],
}

/// Transaction 1 begins, inserts the keys to be settled and commits; the last of these comes first.
fn opening(bias: Bias) -> Vec<Request> {
    let keys = (0..bias.settled).map(|place| Key(place * (bias.span / bias.settled)));
    let inserts = keys.map(|key| RequestKind::Keys(KeyRequest::Insert { key, record: 1 }));
    let mut kinds = vec![RequestKind::Begin];
    kinds.extend(inserts);
    kinds.push(RequestKind::Commit);
    kinds.into_iter().rev().map(|kind| Request { transaction: 1, kind }).collect()
}

impl Requests {
    pub fn new(seed: u64, bias: Bias) -> Requests {
        let last = [Key::LOWEST; 16];
        Requests { bias, random: Random::new(seed), opening: opening(bias), last }
    }

    /// A stream that has no keys settled first, for a picture that has its own.
    pub fn without_opening(seed: u64, bias: Bias) -> Requests {
        Requests { opening: Vec::new(), ..Requests::new(seed, bias) }
    }

    /// The next request, chosen with an eye on the picture: mostly one that makes sense there.
    pub fn next(&mut self, tables: &Tables) -> Request {
        if let Some(request) = self.opening.pop() {
            return request;
        }
        let transaction = self.transaction(tables);
        let kind = match tables.desk.transaction(transaction) {
            _ if self.random.chance(6) => self.any_kind(tables, transaction),
            Transaction::NotRunning => RequestKind::Begin,
            Transaction::Waiting(_) => RequestKind::Rollback,
            Transaction::Running => self.weighted_kind(tables, transaction),
        };
        Request { transaction, kind }
    }

    /// Some transaction; seldom one that waits, since rollback is all it can ask.
    fn transaction(&mut self, tables: &Tables) -> u16 {
        loop {
            let transaction = self.random.between(1, self.bias.transactions.into()) as u16;
            let waits = tables.desk.waiting_request(transaction).is_some();
            if !waits || self.random.chance(8) {
                return transaction;
            }
        }
    }

    /// A request whether or not it makes sense: this is where 13, 14 and 15 come from.
    fn any_kind(&mut self, tables: &Tables, transaction: u16) -> RequestKind {
        if self.random.chance(50) {
            return RequestKind::Begin;
        }
        self.weighted_kind(tables, transaction)
    }

    fn weighted_kind(&mut self, tables: &Tables, transaction: u16) -> RequestKind {
        let [commit, rollback, read, insert, delete] = self.bias.weights;
        let drawn = self.random.below(commit + rollback + read + insert + delete);
        if drawn < commit {
            return RequestKind::Commit;
        }
        if drawn < commit + rollback {
            return RequestKind::Rollback;
        }
        let key = self.key(tables, transaction);
        RequestKind::Keys(if drawn < commit + rollback + read {
            KeyRequest::Read { lo: key, hi: key.up(self.random.below(self.bias.reach + 1)) }
        } else if drawn < commit + rollback + read + insert {
            KeyRequest::Insert { key, record: self.random.bits() as u32 }
        } else {
            KeyRequest::Delete { key }
        })
    }

    fn key(&mut self, tables: &Tables, transaction: u16) -> Key {
        let last = usize::from(transaction - 1);
        let key = if self.random.chance(self.bias.again) {
            self.last[last]
        } else if self.random.chance(self.bias.existing) {
            self.existing_key(tables)
        } else if self.random.chance(1) {
            Key::HIGHEST
        } else {
            Key(self.random.below(self.bias.span))
        };
        self.last[last] = key;
        key
    }

    /// The key of some entry, or the lowest where there is none.
    fn existing_key(&mut self, tables: &Tables) -> Key {
        let keys: Vec<Key> = tables.index.entries().map(|entry| entry.key).collect();
        self.random.pick(&keys).unwrap_or(Key::LOWEST)
    }
}

/// A request record with something wrong, most of the time; a changed bit may leave it good.
pub fn spoiled(random: &mut Random, request: &Request) -> Vec<u8> {
    let mut bytes = request.encode();
    let at = random.between(0, bytes.len() - 1);
    match random.below(5) {
        0 => bytes.truncate(at),
        1 => bytes.extend([0; 8]),
        2 => bytes[2] = random.bits() as u8,
        3 => bytes[at / 8 * 8..][..8].fill(0xFF),
        _ => bytes[at] ^= 1 << random.below(8),
    }
    bytes
}
