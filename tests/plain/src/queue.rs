//! Serving a good request on a whole picture: beginning, ending, and working the queue.

use crate::bytes::{DeskBytes, END, PagesBytes, put_u16, put_u32, put_u64};
use crate::locks::{self, Place, S, X};
use crate::request::{INSERT, Keys, Kind, READ, Request};
use crate::transactions::{
    is_running, is_waiting, join_queue, leave_queue, place_of, queue_length, queued, set_running,
    waiting,
};
use crate::tree::{self, Found, first_at_or_above};
use keydesk::number;

/// The answers written so far.
struct Answers<'a> {
    space: &'a mut [u8],
    written: usize,
}

impl Answers<'_> {
    fn plain(&mut self, transaction: u16, number: u32) {
        self.showing(transaction, number, 0, 0);
    }

    fn showing(&mut self, transaction: u16, number: u32, key: u64, record: u32) {
        let answer = &mut self.space[self.written..self.written + 20];
        put_u16(answer, 0, 20);
        put_u16(answer, 2, 7);
        put_u16(answer, 4, transaction);
        put_u16(answer, 6, number as u16);
        put_u64(answer, 8, key);
        put_u32(answer, 16, record);
        self.written += 20;
    }
}

/// Answers a request and gives the number of answer bytes.
pub fn answer(
    pages: &mut PagesBytes,
    desk: &mut DeskBytes,
    space: &mut [u8],
    request: Request,
) -> usize {
    let asker = request.transaction;
    let mut answers = Answers { space, written: 0 };
    if let Some(number) = refusal(desk, request) {
        answers.plain(asker, number);
        return answers.written;
    }
    match request.kind {
        Kind::Begin => set_running(desk, asker, true),
        Kind::Commit => end(pages, desk, asker, true),
        Kind::Rollback => end(pages, desk, asker, false),
        Kind::Keys(keys) => join_queue(desk, asker, keys),
    }
    if !matches!(request.kind, Kind::Keys(_)) {
        answers.plain(asker, number::DONE);
    }
    let at_rest = loop {
        if let Some(blockers) = work_queue(pages, desk, &mut answers) {
            break blockers;
        }
    };
    if let Some(behind) = lowest(at_rest[usize::from(asker)]) {
        answers.showing(asker, number::STILL_QUEUED, 0, behind);
    }
    answers.written
}

/// 13, 14 or 15 where one is due.
fn refusal(desk: &DeskBytes, request: Request) -> Option<u32> {
    let (runs, waits) =
        (is_running(desk, request.transaction), is_waiting(desk, request.transaction));
    match request.kind {
        Kind::Begin => runs.then_some(number::ALREADY_RUNNING),
        _ if !runs => Some(number::NOT_RUNNING),
        Kind::Rollback => None,
        _ => waits.then_some(number::IS_WAITING),
    }
}

/// Ends a transaction. Whoever holds no X owns no entry.
fn end(pages: &mut PagesBytes, desk: &mut DeskBytes, transaction: u16, commits: bool) {
    if let Some(place) = place_of(desk, transaction) {
        leave_queue(desk, place);
    }
    if locks::release(desk, transaction) {
        tree::settle(pages, transaction, commits);
    }
    set_running(desk, transaction, false);
}

/// What a request is about to lock, and the entry there unless it is the end.
#[derive(Clone, Copy)]
struct Target {
    name: u64,
    mode: u16,
    entry: Option<Found>,
}

fn target(pages: &PagesBytes, asker: u16, keys: Keys) -> Target {
    let mut entry = first_at_or_above(pages, keys.lo);
    if keys.kind == READ {
        let is_skipped = |found: &Found| {
            found.key <= keys.hi && found.is_ghost(pages) && found.is_owned_by(pages, asker)
        };
        while let Some(own_ghost) = entry.filter(is_skipped) {
            entry = first_at_or_above(pages, own_ghost.key + 1);
        }
    }
    let name = entry.map_or(END, |found| found.key);
    let mode = match keys.kind {
        READ => S,
        INSERT if name == keys.lo => S,
        INSERT => X,
        _ if name == keys.lo => X,
        _ => S,
    };
    Target { name, mode, entry }
}

/// Everyone who blocks each transaction, a bit each; none of one that doesn't wait.
type Blockers = [u32; 17];

/// The lowest-numbered of those who block a request; nobody where it isn't blocked.
fn lowest(blocking: u32) -> Option<u32> {
    (blocking != 0).then(|| blocking.trailing_zeros())
}

/// One step of the queue: the oldest request that isn't blocked runs, or else the lightest on a
/// circle is refused. Where there is neither it is at rest, and those who block are given.
fn work_queue(
    pages: &mut PagesBytes,
    desk: &mut DeskBytes,
    answers: &mut Answers,
) -> Option<Blockers> {
    let length = queue_length(desk);
    let mut targets = [(0, 0); 16];
    let mut blockers = [0; 17];
    for place in 0..length {
        let waiter = queued(desk, place);
        let keys = waiting(desk, waiter);
        let target = target(pages, waiter, keys);
        let (mut blocking, holds) = locks::conflicts(desk, waiter, target.name, target.mode);
        if !holds {
            for (earlier, (name, mode)) in targets[..place].iter().enumerate() {
                if *name == target.name && (target.mode == X || *mode == X) {
                    blocking |= 1 << queued(desk, earlier);
                }
            }
        }
        if lowest(blocking).is_none() {
            leave_queue(desk, place);
            run(pages, desk, answers, waiter, keys, target);
            return None;
        }
        targets[place] = (target.name, target.mode);
        blockers[usize::from(waiter)] = blocking;
    }
    let Some(place) = lightest_on_circle(desk, &blockers) else { return Some(blockers) };
    let waiter = queued(desk, place);
    leave_queue(desk, place);
    answers.plain(waiter, number::CIRCLE);
    None
}

/// The place of the request on a circle whose transaction holds the fewest locks: of equals the
/// newest, which is the first to be looked at. Locks are counted where somebody is on a circle.
fn lightest_on_circle(desk: &DeskBytes, blockers: &Blockers) -> Option<usize> {
    let newest_first = (0..queue_length(desk)).rev();
    let on_circle = newest_first.filter(|place| is_on_circle(blockers, queued(desk, *place)));
    let mut on_circle = on_circle.peekable();
    on_circle.peek()?;
    let held = locks::held_by_each(desk);
    on_circle.min_by_key(|place| held[usize::from(queued(desk, *place))])
}

/// Whether the waits lead from a transaction back to itself.
fn is_on_circle(blockers: &Blockers, waiter: u16) -> bool {
    let (mut reached, mut looked_at) = (blockers[usize::from(waiter)], 0u32);
    while reached & !looked_at != 0 {
        let next = (reached & !looked_at).trailing_zeros();
        looked_at |= 1 << next;
        reached |= blockers[next as usize];
    }
    reached >> waiter & 1 != 0
}

/// Runs an unblocked request, which has left the queue.
fn run(
    pages: &mut PagesBytes,
    desk: &mut DeskBytes,
    answers: &mut Answers,
    asker: u16,
    keys: Keys,
    target: Target,
) {
    let there = target.entry.filter(|found| found.key == keys.lo);
    let present = there.filter(|found| !found.is_ghost(pages));
    let is_insert_of_missing = keys.kind == INSERT && present.is_none();
    let (name, mode) = if is_insert_of_missing { (keys.lo, X) } else { (target.name, target.mode) };
    let place = locks::place_for(desk, asker, name, mode);
    if matches!(place, Place::None) {
        return answers.plain(asker, number::LOCKS_IN_USE);
    }
    match keys.kind {
        READ => match target.entry.filter(|found| found.key <= keys.hi) {
            Some(found) => answers.showing(asker, number::FOUND, found.key, found.record(pages)),
            None => answers.plain(asker, number::NOTHING),
        },
        INSERT => match (present, there) {
            (Some(found), _) => {
                answers.showing(asker, number::KEY_PRESENT, found.key, found.record(pages));
            }
            (None, Some(own_ghost)) => {
                own_ghost.insert_again(pages, keys.record);
                answers.plain(asker, number::DONE);
            }
            (None, None) => {
                if !tree::add(pages, keys.lo, keys.record, asker) {
                    return answers.plain(asker, number::PAGES_SHORT);
                }
                answers.plain(asker, number::DONE);
            }
        },
        _ => match present {
            Some(found) => {
                found.delete(pages, asker);
                answers.plain(asker, number::DONE);
            }
            None => answers.plain(asker, number::NOTHING),
        },
    }
    locks::take(desk, place, asker, name, mode);
}
