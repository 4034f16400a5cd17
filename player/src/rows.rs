//! What both drawings say. Of the index, row by row: an entry with its state, who holds it and who
//! waits at it; in a large index entries that look alike stand together in one row. And the words
//! for how large things are and what a waiting request wants.

use crate::behind::{Target, target};
use crate::keys::Key;
use crate::picture::{Entry, LOCK_COUNT, Mode, PAGE_COUNT, Standing, Waiting};
use crate::plain::plain;
use crate::text::trimmed;

/// The place in a session that is drawn.
pub struct Place<'a> {
    /// The session's name.
    pub name: &'a str,
    /// The last line that asked something: its number and its text.
    pub played: Option<(usize, &'a str)>,
}

impl Place<'_> {
    /// The place in words, fit to be printed and drawn.
    pub fn title(&self) -> String {
        match self.played {
            None => "Before the first request".to_string(),
            Some((line, text)) => format!("After line {line}: {}", plain(trimmed(text))),
        }
    }

    /// The session's name and how large its index is, fit to be printed and drawn.
    pub fn size(&self, standing: &Standing) -> String {
        let entries = counted(standing.entries().len(), "entry", "entries");
        let levels = counted(usize::from(standing.height), "level", "levels");
        let (name, used) = (plain(self.name), standing.used);
        format!("{name}: {entries}, {levels}, {used} of {PAGE_COUNT} pages used")
    }
}

/// What an entry looks like.
#[derive(Clone, Copy, Debug, PartialEq, Eq)]
pub enum State {
    Settled,
    /// Owned and present.
    Owned(u16),
    /// Owned and absent now.
    Ghost(u16),
}

/// Who holds a name, and in which mode. Locks on a name go together, so that it is one mode.
#[derive(Clone, Debug, PartialEq, Eq)]
pub struct Held {
    pub mode: Mode,
    pub holders: Vec<u16>,
}

/// A row: one entry, or several that look alike and lie side by side.
pub struct Row<'a> {
    pub entries: &'a [Entry],
    pub state: State,
    pub held: Option<Held>,
    /// The requests whose target this is, oldest first.
    pub waiters: Vec<(Waiting, Target)>,
}

/// An index with at most so many entries is drawn entry by entry.
const DRAWN_ONE_BY_ONE: usize = 30;
/// So many alike are drawn as one row in a larger index.
const DRAWN_TOGETHER: usize = 4;

pub fn state(entry: &Entry) -> State {
    match entry.owner {
        0 => State::Settled,
        owner if entry.is_ghost() => State::Ghost(owner),
        owner => State::Owned(owner),
    }
}

/// Who holds a name, if anyone does.
pub fn held(standing: &Standing, name: Key) -> Option<Held> {
    let locks = || standing.locks.iter().filter(|lock| lock.name == name);
    let mode = locks().next()?.mode;
    let mut holders: Vec<u16> = locks().map(|lock| lock.holder).collect();
    holders.sort();
    Some(Held { mode, holders })
}

/// The queued requests whose target is this name, oldest first.
pub fn waiters(standing: &Standing, name: Key) -> Vec<(Waiting, Target)> {
    let wanted = standing.queue.iter().map(|waiting| (*waiting, target(standing, waiting)));
    wanted.filter(|(_, target)| target.name == name).collect()
}

/// The rows of a leaf.
pub fn rows<'a>(standing: &Standing, entries: &'a [Entry]) -> Vec<Row<'a>> {
    let single = entries.chunks(1).map(|entry| row(standing, entry));
    if standing.entries().len() <= DRAWN_ONE_BY_ONE {
        return single.collect();
    }
    let single: Vec<Row> = single.collect();
    let (mut rows, mut from) = (Vec::new(), 0);
    for alike in single.chunk_by(look_alike) {
        let run = &entries[from..from + alike.len()];
        let at_a_time = if run.len() >= DRAWN_TOGETHER { run.len() } else { 1 };
        rows.extend(run.chunks(at_a_time).map(|entries| row(standing, entries)));
        from += run.len();
    }
    rows
}

/// The row of entries that look like the first of them.
fn row<'a>(standing: &Standing, entries: &'a [Entry]) -> Row<'a> {
    let first = &entries[0];
    Row {
        entries,
        state: state(first),
        held: held(standing, first.key),
        waiters: waiters(standing, first.key),
    }
}

fn look_alike(one: &Row, other: &Row) -> bool {
    let nobody_waits = one.waiters.is_empty() && other.waiters.is_empty();
    nobody_waits && one.state == other.state && one.held == other.held
}

/// Numbers in ascending order with neighbours drawn together: 1-3, 5.
pub fn numbers(ascending: &[u16]) -> String {
    let runs = ascending.chunk_by(|one, next| one + 1 == *next);
    let run = |run: &[u16]| match run {
        [one] => one.to_string(),
        [one, next] => format!("{one}, {next}"),
        _ => format!("{}-{}", run[0], run[run.len() - 1]),
    };
    runs.map(run).collect::<Vec<String>>().join(", ")
}

/// How many locks are in use.
pub fn locks_in_use(standing: &Standing) -> String {
    format!("{} of {LOCK_COUNT} locks in use", standing.locks.len())
}

/// What a waiting request wants.
pub fn wants(standing: &Standing, waiting: &Waiting) -> String {
    let Target { name, mode, instant } = target(standing, waiting);
    let instant = if instant { " for the instant" } else { "" };
    format!("wants {mode} on {}{instant}", standing.name(name))
}

/// A count with its noun.
pub fn counted(count: usize, one: &str, many: &str) -> String {
    format!("{count} {}", if count == 1 { one } else { many })
}
