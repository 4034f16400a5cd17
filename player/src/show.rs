//! Where things stand, drawn as text: the tree of pages with its entries, who holds which lock on
//! what, who waits behind whom.

use crate::keys::Key;
use crate::picture::{Entry, Holds, INNER_FULL, LEAF_FULL, Lock, Page, Standing};
use crate::rows::{
    Held, Place, Row, State, counted, held, locks_in_use, numbers, rows, waiters, wants,
};
use crate::words::{Waits, waits};

/// The drawing, with the place in the session as its title.
pub fn show(standing: &Standing, place: &Place) -> String {
    let mut lines = vec![place.title(), place.size(standing)];
    lines.push(String::new());
    tree(standing, &standing.root, Key::LOWEST, 0, &mut lines);
    lines.push(String::new());
    locks(standing, &mut lines);
    lines.push(String::new());
    transactions(standing, &mut lines);
    lines.iter().map(|line| format!("{}\n", line.trim_end())).collect()
}

/// A page and everything below it, each level further in. `low` is where the page's range starts.
fn tree(standing: &Standing, page: &Page, low: Key, depth: usize, lines: &mut Vec<String>) {
    let margin = "  ".repeat(depth);
    let from = if low == Key::LOWEST {
        "from the start".to_string()
    } else {
        format!("from {}", standing.written(low))
    };
    match &page.holds {
        Holds::Entries(entries) => {
            let count = entries.len();
            lines.push(format!(
                "{margin}page {}, leaf, {from}: {count} of {LEAF_FULL} entries",
                page.number
            ));
            let last = standing.leaves().last().is_some_and(|(number, _)| *number == page.number);
            leaf(standing, entries, last, &margin, lines);
        }
        Holds::Children { level, children } => {
            let count = children.len();
            lines.push(format!(
                "{margin}page {}, inner, level {level}, {from}: {count} of {INNER_FULL} children",
                page.number
            ));
            for (place, child) in children.iter().enumerate() {
                let low = if place == 0 { low } else { child.separator };
                tree(standing, &child.page, low, depth + 1, lines);
            }
        }
    }
}

/// A leaf as a table of its rows; the last leaf's has the end below.
fn leaf(standing: &Standing, entries: &[Entry], last: bool, margin: &str, lines: &mut Vec<String>) {
    let mut table: Vec<Vec<String>> =
        rows(standing, entries).iter().map(|row| cells(standing, row)).collect();
    if last {
        table.push(cells_of_end(standing));
    }
    let width = |column: usize| table.iter().map(|row| row[column].len()).max().unwrap_or(0);
    let widths: Vec<usize> = (0..4).map(width).collect();
    for row in &table {
        let padded = row.iter().zip(&widths).map(|(cell, width)| format!("{cell:<width$}  "));
        lines.push(format!("{margin}    {}{}", padded.collect::<String>(), row[4]));
    }
}

/// Key, now, state and before, locks, waiters.
fn cells(standing: &Standing, row: &Row) -> Vec<String> {
    let [first, .., last] = row.entries else {
        return cells_of_entry(standing, &row.entries[0], row);
    };
    vec![
        format!("{}..{}", standing.written(first.key), standing.written(last.key)),
        format!("{} entries", row.entries.len()),
        owned(row.state),
        locked(&row.held),
        String::new(),
    ]
}

fn cells_of_entry(standing: &Standing, entry: &Entry, row: &Row) -> Vec<String> {
    let said = |record: Option<u32>| match record {
        Some(record) => format!("record {record}"),
        None => "absent".to_string(),
    };
    let state = match row.state {
        State::Settled => "settled".to_string(),
        changed => format!("{}, before: {}", owned(changed), said(entry.before)),
    };
    vec![
        standing.written(entry.key).to_string(),
        said(entry.now),
        state,
        locked(&row.held),
        waiting_here(standing, entry.key),
    ]
}

fn cells_of_end(standing: &Standing) -> Vec<String> {
    let locked = locked(&held(standing, Key::END));
    vec!["end".into(), String::new(), String::new(), locked, waiting_here(standing, Key::END)]
}

fn owned(state: State) -> String {
    match state {
        State::Settled => "settled".to_string(),
        State::Owned(owner) => format!("owned by {owner}"),
        State::Ghost(owner) => format!("ghost of {owner}"),
    }
}

fn locked(held: &Option<Held>) -> String {
    held.as_ref()
        .map_or(String::new(), |held| format!("{} by {}", held.mode, numbers(&held.holders)))
}

/// Those who wait at a name; what they ask stands with the transactions.
fn waiting_here(standing: &Standing, name: Key) -> String {
    let mut here: Vec<u16> =
        waiters(standing, name).iter().map(|(waiting, _)| waiting.transaction).collect();
    here.sort();
    match here.len() {
        0 => String::new(),
        1 => format!("<- {} waits", here[0]),
        _ => format!("<- {} wait", numbers(&here)),
    }
}

/// Who holds what. Locks of one holder and mode that lie side by side are said together: they cover
/// one range.
fn locks(standing: &Standing, lines: &mut Vec<String>) {
    let in_use = locks_in_use(standing);
    lines.push(format!("{in_use}, each covers its key and the gap below it"));
    let names: Vec<Key> =
        standing.entries().iter().map(|entry| entry.key).chain([Key::END]).collect();
    let place = |lock: &Lock| names.iter().position(|name| *name == lock.name);
    let mut locks = standing.locks.clone();
    locks.sort_by_key(|lock| (lock.holder, lock.name));
    let side_by_side = |one: &Lock, next: &Lock| {
        let follows = place(one).map(|place| place + 1) == place(next);
        one.holder == next.holder && one.mode == next.mode && follows
    };
    let said = locks.chunk_by(side_by_side).map(|run| lock_run(standing, run));
    lines.extend(said);
}

fn lock_run(standing: &Standing, run: &[Lock]) -> String {
    let (first, last) = (&run[0], &run[run.len() - 1]);
    let (from, to) = (standing.name(first.name), standing.name(last.name));
    let named = match run {
        [_one] => to.clone(),
        _ => format!("{from} to {to} ({} locks)", run.len()),
    };
    let (Lock { holder, mode, .. }, covered) = (first, standing.covered_from(first.name));
    format!("    {holder} holds {mode} on {named}, covering {covered} to {to}")
}

/// Who runs, who waits behind whom, and for what; who else is in the way stands below.
fn transactions(standing: &Standing, lines: &mut Vec<String>) {
    let running = counted(standing.running.len(), "transaction runs", "transactions run");
    let waiting = counted(standing.queue.len(), "waits", "wait");
    lines.push(format!("{running}, {waiting}"));
    for transaction in &standing.running {
        let Some(waiting) = standing.waiting(*transaction) else {
            lines.push(format!("    {transaction} runs"));
            continue;
        };
        let (Waits { behind, also }, wants) = (waits(standing, waiting), wants(standing, waiting));
        lines.push(format!("    {transaction} {behind}: {} {wants}", waiting.asks));
        lines.extend(also.map(|also| format!("        {also}")));
    }
}
