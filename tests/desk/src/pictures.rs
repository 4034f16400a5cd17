//! Whole pictures to start from: those of the model's generator, most of them not at rest, and
//! those that the model's own sessions come to, small and full, all at rest.

use model::entry::Entry;
use model::generators::pictures::picture;
use model::generators::random::Random;
use model::generators::requests::{Bias, Requests};
use model::key::Key;
use model::layout::desk::{LOCK_COUNT, Lock, Mode, Slot, TRANSACTION_COUNT, Transaction};
use model::layout::request::{KeyRequest, Request, RequestKind};
use model::locks::Target;
use model::picture::Tables;

/// So many pictures of the model's generator: any page numbering, holes in the lock table, X on the
/// end and on settled entries, up to sixteen waiting, unblocked or in circles.
pub fn not_at_rest(seed: u64, count: usize) -> Vec<Tables> {
    let mut random = Random::new(seed);
    (0..count).map(|_| decoded(&picture(&mut random))).collect()
}

fn decoded(picture: &model::desk::Picture) -> Tables {
    picture.decode().expect("a whole picture follows the layouts")
}

/// A picture that is not at rest, and a request that has to wait: those in its way at rest are others
/// than when it joins, since two have run, since one on a circle got 19, or since one has run and
/// holds now what the asker holds too. Which of them are lower is up to chance.
pub fn others_in_the_way_at_rest(random: &mut Random) -> (Tables, Request) {
    let mut tables = running(settled_apart(2, 10));
    let members: Vec<u16> = random.order(1, 16).into_iter().map(|member| member as u16).collect();
    let [asker, one, other, ..] = members[..] else { panic!("there are sixteen") };
    let (low, high) = (Key(10), Key(20));
    let read = |key| KeyRequest::Read { lo: key, hi: key };
    let request = match random.below(3) {
        0 => {
            tables.join_queue(one, KeyRequest::Insert { key: Key(15), record: 0 });
            tables.join_queue(other, KeyRequest::Delete { key: high });
            KeyRequest::Read { lo: Key(12), hi: Key(18) }
        }
        1 => {
            tables.take_lock(one, Target { name: low, mode: Mode::X });
            tables.take_lock(other, Target { name: high, mode: Mode::X });
            tables.join_queue(other, read(low));
            tables.join_queue(one, KeyRequest::Delete { key: high });
            read(high)
        }
        _ => {
            tables.take_lock(asker, Target { name: high, mode: Mode::S });
            tables.take_lock(other, Target { name: high, mode: Mode::S });
            tables.join_queue(one, read(high));
            KeyRequest::Delete { key: high }
        }
    };
    (tables, Request { transaction: asker, kind: RequestKind::Keys(request) })
}

/// Where sessions from fresh stand after few, some and many requests, under every bias.
pub fn at_rest() -> Vec<Tables> {
    let mut pictures = vec![Tables::fresh()];
    for bias in Bias::ALL {
        let mut tables = Tables::fresh();
        let mut requests = Requests::new(1, bias);
        for count in [30, 60, 120, 300, 600, 900] {
            for _ in 0..count {
                let request = requests.next(&tables);
                tables.answer(request);
            }
            pictures.push(tables.clone());
        }
    }
    pictures
}

/// So many ascending keys from 1 on, each settled: 778 fill the pages (document 01, Overs).
pub fn settled(keys: u64) -> Tables {
    settled_apart(keys, 1)
}

/// How far apart up to 778 keys can lie: they then differ in every byte.
pub const FAR: u64 = 0x0053_9b17_6d2f_a3c5;

/// So many keys this far apart, each settled.
pub fn settled_apart(keys: u64, apart: u64) -> Tables {
    let mut tables = Tables::fresh();
    for key in 1..=keys {
        tables.index.add(Entry::settled(Key(key * apart), key as u32));
    }
    tables
}

/// All slots in use by S locks: sixteen transactions have each read the same sixteen keys of an
/// index with so many, this far apart.
pub fn all_locks_s(keys: u64, apart: u64) -> Tables {
    let mut tables = running(settled_apart(keys, apart));
    for slot in 0..LOCK_COUNT {
        let name = Key((1 + (slot / 16) as u64 * (keys / 16)) * apart);
        let holder = (slot % 16) as u16 + 1;
        tables.desk.slots[slot] = Slot::Taken(Lock { name, holder, mode: Mode::S });
    }
    tables
}

/// All slots in use by X locks on as many entries, of an index with so many, that sixteen
/// transactions have deleted.
pub fn all_locks_x(keys: u64) -> Tables {
    let mut tables = all_running(keys);
    for place in 0..LOCK_COUNT as u64 {
        let key = Key(1 + place * (keys / LOCK_COUNT as u64));
        let transaction = (place % 16) as u16 + 1;
        let kind = RequestKind::Keys(KeyRequest::Delete { key });
        tables.answer(Request { transaction, kind });
    }
    tables
}

/// So many ascending keys, each settled, and sixteen transactions that run.
pub fn all_running(keys: u64) -> Tables {
    running(settled(keys))
}

fn running(mut tables: Tables) -> Tables {
    for transaction in 1..=TRANSACTION_COUNT {
        tables.desk.set_transaction(transaction, Transaction::Running);
    }
    tables
}
