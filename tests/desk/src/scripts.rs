//! Requests that lead a fresh desk to what chance alone seldom reaches, in many variations.

use model::generators::random::Random;
use model::key::Key;
use model::layout::request::{KeyRequest, Request, RequestKind};

/// Settled keys are so far apart, from 0 on; the gaps between them stay empty.
pub const GAP: u64 = 10;

/// Transaction 16 begins, inserts so many keys and commits.
pub fn settled(keys: u64) -> Vec<Request> {
    let mut script = vec![Request { transaction: 16, kind: RequestKind::Begin }];
    script.extend((0..keys).map(|place| insert(16, place * GAP)));
    script.push(Request { transaction: 16, kind: RequestKind::Commit });
    script
}

/// How many settled keys a circle needs beside those of its members, for what they hold besides.
pub const WEIGHTS: u64 = 2;

/// A circle of so many, on as many settled keys: each holds a key, S or X, and some locks besides,
/// and then asks for the next one's in a conflicting mode. They ask in any order; the last of them
/// closes the circle. At times one more, which holds nothing, asks before it: for what the first of
/// them waits for, and so it is on no circle, or for what the last will ask for, and it is.
pub fn circle(random: &mut Random, length: usize) -> Vec<Request> {
    let everyone = begun(random, 16);
    let (members, others) = everyone.split_at(length);
    let keys: Vec<u64> =
        random.order(0, length - 1).into_iter().map(|place| place as u64 * GAP).collect();
    let mut script = begins(members);
    let mut holds_x = Vec::new();
    for (member, key) in members.iter().zip(&keys) {
        holds_x.push(random.chance(50));
        let is_x = holds_x[holds_x.len() - 1];
        script.push(if is_x { delete(*member, *key) } else { read(*member, *key) });
    }
    script.extend(weights(random, members));
    let order = random.order(0, length - 1);
    let wanted = |turn: usize| (order[turn] + 1) % length;
    for turn in 0..length {
        if let Some(one_more) = others.first().filter(|_| turn == length - 1 && random.chance(50)) {
            let beside = if random.chance(50) { 0 } else { turn };
            script.extend(begins(&[*one_more]));
            script.push(delete(*one_more, keys[wanted(beside)]));
        }
        let next = wanted(turn);
        script.push(conflicting(random, members[order[turn]], keys[next], holds_x[next]));
    }
    script
}

/// Reads that lock settled keys above those of a circle, and then the end: as many for all members,
/// none for one of them and some for the others, or any number for each.
fn weights(random: &mut Random, members: &[u16]) -> Vec<Request> {
    let (most, lowest) = (WEIGHTS + 1, members.len() as u64);
    let (kind, for_all) = (random.below(3), random.below(most + 1));
    let light = random.between(0, members.len() - 1);
    let mut script = Vec::new();
    for (place, member) in members.iter().enumerate() {
        let count = match kind {
            0 => for_all,
            1 if place == light => 0,
            1 => 1 + random.below(most),
            _ => random.below(most + 1),
        };
        script.extend((lowest..lowest + count).map(|place| read(*member, place * GAP)));
    }
    script
}

/// A request that has to wait for a key that another holds, in X or in S.
fn conflicting(random: &mut Random, asker: u16, key: u64, is_x: bool) -> Request {
    match random.below(if is_x { 4 } else { 2 }) {
        0 => delete(asker, key),
        1 if key > 0 => insert(asker, key - 1 - random.below(GAP - 1)),
        1 => delete(asker, key),
        2 => read(asker, key),
        _ => insert(asker, key),
    }
}

/// A circle of three in which the lightest holds nothing and only its request is in the way of the
/// last, which wants S beside another's S: its 19 lets the last one run. Needs two settled keys.
pub fn reader_let_past(random: &mut Random) -> Vec<Request> {
    let members = begun(random, 3);
    let [holder, writer, reader] = members[..] else { panic!("there are three") };
    let in_the_gap = 1 + random.below(GAP - 1);
    let mut script = begins(&members);
    script.push(read(holder, GAP));
    script.push(read(reader, 0));
    let writes = if random.chance(50) { delete(writer, GAP) } else { insert(writer, in_the_gap) };
    let waits = [writes, delete(holder, 0)];
    script.extend(random.order(0, 1).into_iter().map(|place| waits[place]));
    script.push(match random.below(4) {
        0 => read(reader, GAP),
        1 => read(reader, in_the_gap),
        2 => insert(reader, GAP),
        _ => delete(reader, in_the_gap),
    });
    script
}

/// An insert in a gap whose run moves the target of one older request and so frees another that
/// waited behind it. Needs two settled keys.
pub fn older_freed(random: &mut Random) -> Vec<Request> {
    let members = begun(random, 3);
    let low = 1 + random.below(3);
    let middle = low + 1 + random.below(2);
    let high = middle + 1 + random.below(2);
    let mut script = begins(&members);
    script.push(read(members[0], GAP));
    script.push(insert(members[1], low));
    script.push(delete(members[2], high));
    script.push(insert(members[0], middle));
    script
}

/// Fifteen wait to read a key that another has deleted, which then ends. Needs one settled key.
pub fn sixteen_answers(random: &mut Random) -> Vec<Request> {
    let members = begun(random, 16);
    let mut script = begins(&members);
    script.push(delete(members[0], 0));
    script.extend(members[1..].iter().map(|member| read(*member, 0)));
    let kind = if random.chance(50) { RequestKind::Commit } else { RequestKind::Rollback };
    script.push(Request { transaction: members[0], kind });
    script
}

/// So many transactions in any order.
fn begun(random: &mut Random, count: usize) -> Vec<u16> {
    random.order(1, 16).into_iter().take(count).map(|transaction| transaction as u16).collect()
}

fn begins(members: &[u16]) -> Vec<Request> {
    let begin = |member: &u16| Request { transaction: *member, kind: RequestKind::Begin };
    members.iter().map(begin).collect()
}

fn read(transaction: u16, key: u64) -> Request {
    let read = KeyRequest::Read { lo: Key(key), hi: Key(key) };
    Request { transaction, kind: RequestKind::Keys(read) }
}

fn insert(transaction: u16, key: u64) -> Request {
    let insert = KeyRequest::Insert { key: Key(key), record: key as u32 };
    Request { transaction, kind: RequestKind::Keys(insert) }
}

fn delete(transaction: u16, key: u64) -> Request {
    Request { transaction, kind: RequestKind::Keys(KeyRequest::Delete { key: Key(key) }) }
}
