//! What a whole picture is: the **Whole** paragraph of document 01, Records and pages, clause by
//! clause in its order.

use crate::key::Key;
use crate::layout::desk::{Mode, TRANSACTION_COUNT};
use crate::layout::pages::{Child, INNER_FULL, Index, Page};
use crate::picture::Tables;
use std::collections::BTreeSet;

/// The clauses of the paragraph, in its order and words.
#[derive(Clone, Copy, Debug, PartialEq, Eq)]
pub enum Clause {
    /// "These layouts"
    Layouts,
    /// "and entry rules"
    EntryRules,
    /// "a tree of pages 1 to used-1, each reached once"
    EachPageReachedOnce,
    /// "leaves all at level 0, an inner page one above its children"
    Levels,
    /// "height the root's level plus 1"
    Height,
    /// "root with 2 to 30 children or a leaf, other inner pages with 15 to 30"
    ChildCounts,
    /// "keys, and separators after a page's first, strictly ascending"
    Ascending,
    /// "and in that page's range (a separator above its low end)"
    InRange,
    /// "none of them the end"
    NoneIsTheEnd,
    /// "owners running and holding X on their entry"
    Owners,
    /// "locks only on entries or the end"
    LockNames,
    /// "held by running transactions"
    LockHolders,
    /// "compatible"
    LocksCompatible,
    /// "one per holder and name"
    OneLockPerHolderAndName,
    /// "queue without repeats"
    QueueWithoutRepeats,
    /// "exactly the waiting ones"
    QueueIsTheWaiting,
    /// "each legal by 12"
    WaitingLegal,
}

/// Whether a picture that follows the layouts keeps a clause.
type Holds = fn(&Tables) -> bool;

/// Every clause but the layouts, with its question. All may be asked of any decoded picture,
/// except that those after the tree need it to be one.
const CLAUSES: [(Clause, Holds); 16] = [
    (Clause::EntryRules, entry_rules_hold),
    (Clause::EachPageReachedOnce, each_page_is_reached_once),
    (Clause::Levels, levels_fall_by_one),
    (Clause::Height, height_is_the_roots_level_plus_1),
    (Clause::ChildCounts, child_counts_hold),
    (Clause::Ascending, keys_and_separators_ascend),
    (Clause::InRange, keys_and_separators_are_in_range),
    (Clause::NoneIsTheEnd, no_key_or_separator_is_the_end),
    (Clause::Owners, owners_run_and_hold_x),
    (Clause::LockNames, locks_are_on_entries_or_the_end),
    (Clause::LockHolders, locks_are_held_by_running_transactions),
    (Clause::LocksCompatible, locks_are_compatible),
    (Clause::OneLockPerHolderAndName, one_lock_per_holder_and_name),
    (Clause::QueueWithoutRepeats, queue_is_without_repeats),
    (Clause::QueueIsTheWaiting, queue_is_exactly_the_waiting_ones),
    (Clause::WaitingLegal, each_waiting_request_is_legal),
];

/// Whether the picture is whole, for any bytes at all.
pub fn whole(pages: &[u8], desk: &[u8]) -> bool {
    match Tables::decode(pages, desk) {
        None => false,
        Some(tables) => CLAUSES.iter().all(|(_, holds)| holds(&tables)),
    }
}

/// The clauses that the picture breaks, in the document's order. Without the layouts nothing more
/// can be asked, and without a tree nothing after it.
pub fn broken_clauses(pages: &[u8], desk: &[u8]) -> Vec<Clause> {
    let Some(tables) = Tables::decode(pages, desk) else {
        return vec![Clause::Layouts];
    };
    let mut broken = Vec::new();
    for (clause, holds) in CLAUSES {
        if !holds(&tables) {
            broken.push(clause);
            if clause == Clause::EachPageReachedOnce {
                break;
            }
        }
    }
    broken
}

/// Owner 0 or 1 to 16; "owner 0 means settled: present, with now and before equal" (document 01,
/// Keys and entries).
fn entry_rules_hold(tables: &Tables) -> bool {
    tables.index.entries().all(|entry| match entry.owner {
        0 => entry.now.is_some() && entry.now == entry.before,
        owner => owner <= TRANSACTION_COUNT,
    })
}

/// Going down from the root meets every page from 1 to used-1, none of them twice and no other.
/// No page is opened twice, so this ends whatever the pages say.
fn each_page_is_reached_once(tables: &Tables) -> bool {
    let pages = &tables.index.pages;
    let mut reached = BTreeSet::new();
    let mut to_open = vec![tables.index.root];
    while let Some(number) = to_open.pop() {
        let Some(page) = pages.get(&number) else { return false };
        if !reached.insert(number) {
            return false;
        }
        to_open.extend(page.children().iter().map(|child| child.page));
    }
    reached.len() == pages.len()
}

/// The layout already has every leaf at level 0.
fn levels_fall_by_one(tables: &Tables) -> bool {
    let pages = &tables.index.pages;
    pages.values().all(|page| {
        let one_below = page.level().checked_sub(1);
        page.children().iter().all(|child| Some(pages[&child.page].level()) == one_below)
    })
}

fn height_is_the_roots_level_plus_1(tables: &Tables) -> bool {
    let root = &tables.index.pages[&tables.index.root];
    Some(tables.index.height) == root.level().checked_add(1)
}

fn child_counts_hold(tables: &Tables) -> bool {
    tables.index.pages.iter().all(|(number, page)| match page {
        Page::Leaf(_) => true,
        Page::Inner { children, .. } => {
            let fewest = if *number == tables.index.root { 2 } else { 15 };
            (fewest..=INNER_FULL).contains(&children.len())
        }
    })
}

/// The keys of a leaf, or the separators of an inner page after its first.
fn keys_or_separators(page: &Page) -> Vec<Key> {
    match page {
        Page::Leaf(entries) => entries.iter().map(|entry| entry.key).collect(),
        Page::Inner { children, .. } => {
            children.iter().skip(1).map(|child| child.separator).collect()
        }
    }
}

fn keys_and_separators_ascend(tables: &Tables) -> bool {
    tables.index.pages.values().all(|page| keys_or_separators(page).is_sorted_by(|a, b| a < b))
}

fn keys_and_separators_are_in_range(tables: &Tables) -> bool {
    in_range_under(&tables.index, tables.index.root, Key::LOWEST, None)
}

/// Whether all under one page lies at or above `low` and below `next`; the last page of a level
/// has no next. A separator lies above `low`, so that no child is left without a range. Separators
/// are asked by themselves: an empty leaf would hide a bad one from any question about keys.
fn in_range_under(index: &Index, number: u16, low: Key, next: Option<Key>) -> bool {
    let page = &index.pages[&number];
    let is_below_next = |key: Key| next.is_none_or(|next| key < next);
    match page {
        Page::Leaf(entries) => {
            entries.iter().all(|entry| entry.key >= low && is_below_next(entry.key))
        }
        Page::Inner { children, .. } => {
            let separators = keys_or_separators(page);
            separators.iter().all(|separator| *separator > low && is_below_next(*separator))
                && child_ranges(children, low, next)
                    .into_iter()
                    .all(|(child, low, next)| in_range_under(index, child, low, next))
        }
    }
}

/// Each child with its range: "a child holds keys at or above its separator and below the next".
/// The first starts where its parent does, and the last has its parent's next.
fn child_ranges(children: &[Child], low: Key, next: Option<Key>) -> Vec<(u16, Key, Option<Key>)> {
    let range_of = |place: usize| {
        let own_low = if place == 0 { low } else { children[place].separator };
        let own_next = children.get(place + 1).map(|following| following.separator).or(next);
        (children[place].page, own_low, own_next)
    };
    (0..children.len()).map(range_of).collect()
}

fn no_key_or_separator_is_the_end(tables: &Tables) -> bool {
    !tables.index.pages.values().flat_map(keys_or_separators).any(|key| key == Key::END)
}

fn owners_run_and_hold_x(tables: &Tables) -> bool {
    tables.index.entries().all(|entry| {
        let holds_x = || {
            let mut locks = tables.desk.locks();
            locks.any(|lock| {
                lock.name == entry.key && lock.holder == entry.owner && lock.mode == Mode::X
            })
        };
        entry.owner == 0 || (tables.desk.is_running(entry.owner) && holds_x())
    })
}

fn locks_are_on_entries_or_the_end(tables: &Tables) -> bool {
    let keys: BTreeSet<Key> = tables.index.entries().map(|entry| entry.key).collect();
    tables.desk.locks().all(|lock| lock.name == Key::END || keys.contains(&lock.name))
}

fn locks_are_held_by_running_transactions(tables: &Tables) -> bool {
    tables.desk.locks().all(|lock| tables.desk.is_running(lock.holder))
}

/// No two transactions hold the same name in conflicting modes.
fn locks_are_compatible(tables: &Tables) -> bool {
    tables.desk.locks().all(|lock| {
        let mut others = tables.desk.locks().filter(|other| other.holder != lock.holder);
        !others.any(|other| other.name == lock.name && other.mode.conflicts(lock.mode))
    })
}

fn one_lock_per_holder_and_name(tables: &Tables) -> bool {
    let mut met = BTreeSet::new();
    tables.desk.locks().all(|lock| met.insert((lock.holder, lock.name)))
}

fn queue_is_without_repeats(tables: &Tables) -> bool {
    let mut met = BTreeSet::new();
    tables.desk.queue.iter().all(|waiter| met.insert(*waiter))
}

fn queue_is_exactly_the_waiting_ones(tables: &Tables) -> bool {
    let queued = |transaction: u16| tables.desk.queue.contains(&transaction);
    let waits = |transaction: u16| tables.desk.waiting_request(transaction).is_some();
    tables.desk.queue.iter().all(|transaction| waits(*transaction))
        && (1..=TRANSACTION_COUNT).all(|transaction| queued(transaction) == waits(transaction))
}

fn each_waiting_request_is_legal(tables: &Tables) -> bool {
    let mut waiting = (1..=TRANSACTION_COUNT).filter_map(|t| tables.desk.waiting_request(t));
    waiting.all(|request| request.is_legal())
}
