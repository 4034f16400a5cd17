//! What changed from one line of a session to the next, in words: worked out from where things
//! stood before and stand after.

use crate::behind::target;
use crate::keys::Key;
use crate::picture::{Entry, Lock, Mode, Standing, Waiting};
use crate::rows::{State, counted, state, wants};
use std::collections::BTreeMap;

/// So many names are written out. Where more than one is left, they are counted.
const NAMED: usize = 4;

/// The changes, a sentence for each: of transactions, waits, entries, locks, pages, in this order.
pub fn changes(before: &Standing, after: &Standing) -> Vec<String> {
    let parts = [transactions, waits, entries, locks, pages];
    parts.iter().flat_map(|part| part(before, after)).collect()
}

/// Names of which the same is said, in the order in which they come; a long list is cut.
#[derive(Default)]
struct Groups(Vec<(String, Vec<String>)>);

impl Groups {
    /// Adds a name to those of which this is said.
    fn add(&mut self, said: String, name: String) {
        match self.0.iter_mut().find(|(earlier, _)| *earlier == said) {
            Some((_, names)) => names.push(name),
            None => self.0.push((said, vec![name])),
        }
    }

    /// A sentence for each group, made from what is said, the names, and whether it is one name.
    fn sentences(&self, sentence: impl Fn(&str, &str, bool) -> String) -> Vec<String> {
        let groups = self.0.iter();
        groups.map(|(said, names)| sentence(said, &listed(names), names.len() == 1)).collect()
    }
}

fn listed(names: &[String]) -> String {
    if names.len() <= NAMED + 1 {
        return names.join(", ");
    }
    format!("{} and {} more", names[..NAMED].join(", "), names.len() - NAMED)
}

/// Who began, and who ended.
fn transactions(before: &Standing, after: &Standing) -> Vec<String> {
    let began = after.running.iter().filter(|who| !before.running.contains(who));
    let ended = before.running.iter().filter(|who| !after.running.contains(who));
    let began = began.map(|who| format!("{who} began"));
    began.chain(ended.map(|who| format!("{who} ended"))).collect()
}

/// Who waits now, who waits no more, and who still waits but for something else.
fn waits(before: &Standing, after: &Standing) -> Vec<String> {
    let now = |waiting: &Waiting| {
        let who = waiting.transaction;
        match before.waiting(who) {
            None => Some(format!("{who} waits now: {}", waiting.asks)),
            Some(earlier) if target(before, earlier) != target(after, waiting) => {
                Some(format!("{who} still waits, and now {}", wants(after, waiting)))
            }
            Some(_) => None,
        }
    };
    let no_more = before.queue.iter().map(|waiting| waiting.transaction);
    let no_more = no_more.filter(|who| after.waiting(*who).is_none());
    let no_more = no_more.map(|who| format!("{who} waits no more"));
    after.queue.iter().filter_map(now).chain(no_more).collect()
}

/// Entries that came, that were taken out, and that are something else now.
fn entries(before: &Standing, after: &Standing) -> Vec<String> {
    let by_key = |standing: &Standing| -> BTreeMap<Key, Entry> {
        standing.entries().into_iter().map(|entry| (entry.key, entry)).collect()
    };
    let (was, is) = (by_key(before), by_key(after));
    let (mut came, mut gone, mut changed) = <(Groups, Groups, Groups)>::default();
    for (key, entry) in &is {
        let name = after.written(*key).to_string();
        match was.get(key) {
            None => came.add(looks(entry, None), name),
            Some(earlier) if earlier != entry => changed.add(looks(entry, earlier.now), name),
            Some(_) => {}
        }
    }
    for key in was.keys().filter(|key| !is.contains_key(key)) {
        gone.add("taken out".to_string(), after.written(*key).to_string());
    }
    let entries = |one: bool| if one { "entry" } else { "entries" };
    let came = came.sentences(|said, names, one| format!("{} {names} came, {said}", entries(one)));
    let gone = gone.sentences(|said, names, one| {
        format!("{} {names} {} {said}", entries(one), if one { "was" } else { "were" })
    });
    let changed = changed.sentences(|said, names, one| {
        format!("{} {names} {} now {said}", entries(one), if one { "is" } else { "are" })
    });
    [came, gone, changed].concat()
}

/// What an entry is, with its record where it had another one before, or none.
fn looks(entry: &Entry, earlier: Option<u32>) -> String {
    let record = entry.now.filter(|record| earlier != Some(*record));
    let record = record.map_or(String::new(), |record| format!(", with record {record}"));
    match state(entry) {
        State::Settled => format!("settled{record}"),
        State::Owned(owner) => format!("owned by {owner}{record}"),
        State::Ghost(owner) => format!("a ghost of {owner}"),
    }
}

/// Locks that were taken, upgraded or released, by holder and name.
fn locks(before: &Standing, after: &Standing) -> Vec<String> {
    let by_holder = |standing: &Standing| -> BTreeMap<(u16, Key), Mode> {
        let named = |lock: &Lock| ((lock.holder, lock.name), lock.mode);
        standing.locks.iter().map(named).collect()
    };
    let (was, is) = (by_holder(before), by_holder(after));
    let (mut taken, mut upgraded, mut released) = <(Groups, Groups, Groups)>::default();
    for ((holder, name), mode) in &is {
        let named = after.name(*name);
        match was.get(&(*holder, *name)) {
            None => taken.add(format!("{holder} took {mode}"), named),
            Some(earlier) if earlier != mode => {
                upgraded.add(format!("{holder} upgraded {earlier} to {mode}"), named);
            }
            Some(_) => {}
        }
    }
    for ((holder, name), mode) in was.iter().filter(|(held, _)| !is.contains_key(held)) {
        released.add(format!("{holder} released {mode}"), after.name(*name));
    }
    let on = |said: &str, names: &str, _: bool| format!("{said} on {names}");
    [taken.sentences(on), upgraded.sentences(on), released.sentences(on)].concat()
}

/// How large the tree is, where that changed.
fn pages(before: &Standing, after: &Standing) -> Vec<String> {
    let used = (before.used != after.used)
        .then(|| format!("{} pages are used, {} before", after.used, before.used));
    let height = (before.height != after.height).then(|| {
        let levels = counted(usize::from(after.height), "level", "levels");
        format!("the tree has {levels}, {} before", before.height)
    });
    used.into_iter().chain(height).collect()
}
