//! Damages to a picture's plain values. The layouts mostly hold afterwards, so that the judgement
//! comes to what the paragraph **Whole** of document 01 says beyond them, clause by clause.

use model::entry::Entry;
use model::generators::random::Random;
use model::key::Key;
use model::layout::desk::{LOCK_COUNT, Lock, Mode, Slot, TRANSACTION_COUNT, Transaction};
use model::layout::pages::{Child, INNER_FULL, PAGE_COUNT, Page};
use model::layout::request::KeyRequest;
use model::picture::Tables;

#[derive(Clone, Copy, Debug, PartialEq, Eq, PartialOrd, Ord)]
pub enum Wrong {
    /// An entry of nobody that is absent, or whose now and before differ.
    Unsettled,
    /// An entry's owner changed to any from 0 to 17.
    Owner,
    /// A child's page set to that of another child, to an ancestor or to any page.
    Child,
    /// An inner page's level, or the height, one more or less.
    Level,
    /// The last children of an inner page given to its right neighbour: the counts may stay good.
    ChildrenGivenAway,
    /// A new root over the root alone.
    RootOverOne,
    /// Two entries of a leaf exchanged, or made to have one key.
    EntryOrder,
    /// A separator set to its neighbour's, or to one beside a neighbour's.
    Separator,
    /// An entry's key set to a separator or to one below it: inside its leaf's range or not.
    KeyAtSeparator,
    /// The last key or separator of a page set to the end.
    TheEnd,
    /// A taken slot made free, often that of an owner's X.
    LostLock,
    /// A lock of a running transaction put on a key around an entry's.
    StrayLock,
    /// A lock written again for any holder in any mode: a second of one holder, or a conflict.
    SecondLock,
    /// A running transaction that no longer runs; it may hold, own or wait.
    Stopped,
    /// A transaction put into the queue, twice or without a request.
    Queued,
    /// A waiting transaction taken out of the queue.
    LeftOut,
    /// A waiting request with the end as a key, or with lo above hi.
    BadWait,
}

impl Wrong {
    pub const ALL: [Wrong; 17] = [
        Wrong::Unsettled,
        Wrong::Owner,
        Wrong::Child,
        Wrong::Level,
        Wrong::ChildrenGivenAway,
        Wrong::RootOverOne,
        Wrong::EntryOrder,
        Wrong::Separator,
        Wrong::KeyAtSeparator,
        Wrong::TheEnd,
        Wrong::LostLock,
        Wrong::StrayLock,
        Wrong::SecondLock,
        Wrong::Stopped,
        Wrong::Queued,
        Wrong::LeftOut,
        Wrong::BadWait,
    ];

    /// The values with this done to them, or nothing where there is nothing to do it to.
    pub fn done_to(self, random: &mut Random, tables: &Tables) -> Option<Tables> {
        let mut damaged = tables.clone();
        let to = &mut damaged;
        match self {
            Wrong::Unsettled => unsettle(random, to),
            Wrong::Owner => {
                any_entry(random, to).map(|entry| entry.owner = random.below(18) as u16)
            }
            Wrong::Child => move_child(random, to),
            Wrong::Level => change_level(random, to),
            Wrong::ChildrenGivenAway => give_children_away(random, to),
            Wrong::RootOverOne => put_root_over_one(to),
            Wrong::EntryOrder => disorder_entries(random, to),
            Wrong::Separator => move_separator(random, to),
            Wrong::KeyAtSeparator => move_key_to_separator(random, to),
            Wrong::TheEnd => put_the_end(random, to),
            Wrong::LostLock => {
                any_lock(random, to).map(|(slot, _)| to.desk.slots[slot] = Slot::Free)
            }
            Wrong::StrayLock => put_stray_lock(random, to),
            Wrong::SecondLock => put_second_lock(random, to),
            Wrong::Stopped => stop(random, to),
            Wrong::Queued => put_into_queue(random, to),
            Wrong::LeftOut => leave_out(random, to),
            Wrong::BadWait => spoil_wait(random, to),
        }?;
        Some(damaged)
    }
}

/// Some inner page, if there is one.
fn any_inner(random: &mut Random, tables: &Tables) -> Option<u16> {
    let pages = tables.index.pages.iter();
    let inner: Vec<u16> =
        pages.filter(|(_, page)| !page.children().is_empty()).map(|(number, _)| *number).collect();
    random.pick(&inner)
}

fn children(tables: &mut Tables, page: u16) -> &mut Vec<Child> {
    match tables.index.pages.get_mut(&page) {
        Some(Page::Inner { children, .. }) => children,
        _ => panic!("page {page} is an inner page"),
    }
}

/// The entries of some leaf with at least so many.
fn any_leaf<'a>(
    random: &mut Random,
    tables: &'a mut Tables,
    least: usize,
) -> Option<&'a mut Vec<Entry>> {
    let pages = tables.index.pages.iter();
    let leaves: Vec<u16> =
        pages.filter(|(_, page)| page.entries().len() >= least).map(|(page, _)| *page).collect();
    match tables.index.pages.get_mut(&random.pick(&leaves)?) {
        Some(Page::Leaf(entries)) => Some(entries),
        _ => None,
    }
}

fn any_entry<'a>(random: &mut Random, tables: &'a mut Tables) -> Option<&'a mut Entry> {
    let entries = any_leaf(random, tables, 1)?;
    let place = random.between(0, entries.len() - 1);
    Some(&mut entries[place])
}

/// Some taken slot and its lock, if there is one.
fn any_lock(random: &mut Random, tables: &Tables) -> Option<(usize, Lock)> {
    let slots = tables.desk.slots.iter().enumerate();
    let taken: Vec<(usize, Lock)> = slots
        .filter_map(|(place, slot)| match slot {
            Slot::Free => None,
            Slot::Taken(lock) => Some((place, *lock)),
        })
        .collect();
    random.pick(&taken)
}

fn any_transaction(random: &mut Random) -> u16 {
    random.between(1, usize::from(TRANSACTION_COUNT)) as u16
}

fn any_mode(random: &mut Random) -> Mode {
    if random.chance(50) { Mode::S } else { Mode::X }
}

fn unsettle(random: &mut Random, tables: &mut Tables) -> Option<()> {
    let entry = any_entry(random, tables)?;
    entry.owner = 0;
    match random.below(3) {
        0 => entry.now = None,
        1 => entry.before = None,
        _ => entry.now = entry.before.map_or(Some(1), |record| Some(record ^ 1)),
    }
    Some(())
}

fn move_child(random: &mut Random, tables: &mut Tables) -> Option<()> {
    let page = any_inner(random, tables)?;
    let (root, used) = (tables.index.root, usize::from(tables.index.used()));
    let children = children(tables, page);
    let place = random.between(0, children.len() - 1);
    children[place].page = match random.below(5) {
        0 => root,
        1 => page,
        2 => children[random.between(0, children.len() - 1)].page,
        3 => random.between(0, used + 1) as u16,
        _ => random.bits() as u16,
    };
    Some(())
}

fn change_level(random: &mut Random, tables: &mut Tables) -> Option<()> {
    let changed =
        |level: u16, up: bool| if up { level.wrapping_add(1) } else { level.saturating_sub(1) };
    let up = random.chance(50);
    if random.chance(40) {
        tables.index.height = changed(tables.index.height, up);
        return Some(());
    }
    let page = any_inner(random, tables)?;
    if let Some(Page::Inner { level, .. }) = tables.index.pages.get_mut(&page) {
        *level = if random.chance(20) { random.bits() as u16 } else { changed(*level, up) };
    }
    Some(())
}

/// Everything but the counts stays as good as it was: what lies between the two in the parent, the
/// separator, moves along.
fn give_children_away(random: &mut Random, tables: &mut Tables) -> Option<()> {
    let root = tables.index.root;
    let siblings = tables.index.pages.get(&root)?.children().to_vec();
    let place = random.between(0, siblings.len().checked_sub(2)?);
    let (from, to) = (siblings[place].page, siblings[place + 1]);
    let count = |page: u16| tables.index.pages.get(&page).map_or(0, |page| page.children().len());
    let (from_count, to_count) = (count(from), count(to.page));
    if [from, to.page].contains(&root) || from == to.page || from_count < 2 || to_count == 0 {
        return None;
    }
    let given = random.between(1, (from_count - 1).min(8));
    let mut moved = children(tables, from).split_off(from_count - given);
    let separator = std::mem::replace(&mut moved[0].separator, Key::LOWEST);
    let taker = children(tables, to.page);
    taker[0].separator = to.separator;
    taker.splice(0..0, moved);
    taker.truncate(INNER_FULL + 1);
    children(tables, root)[place + 1].separator = separator;
    Some(())
}

fn put_root_over_one(tables: &mut Tables) -> Option<()> {
    let number = tables.index.used();
    if number == PAGE_COUNT {
        return None;
    }
    let children = vec![Child { separator: Key::LOWEST, page: tables.index.root }];
    let level = tables.index.height;
    tables.index.pages.insert(number, Page::Inner { level, children });
    tables.index.root = number;
    tables.index.height = level.wrapping_add(1);
    Some(())
}

fn disorder_entries(random: &mut Random, tables: &mut Tables) -> Option<()> {
    let entries = any_leaf(random, tables, 2)?;
    let place = random.between(1, entries.len() - 1);
    match random.below(2) {
        0 => entries.swap(place - 1, place),
        _ => entries[place].key = entries[place - 1].key,
    }
    Some(())
}

/// Some separator after its page's first, by page and place.
fn any_separator(random: &mut Random, tables: &Tables) -> Option<(u16, usize)> {
    let page = any_inner(random, tables)?;
    let last = tables.index.pages[&page].children().len().checked_sub(1)?;
    (last > 0).then(|| (page, random.between(1, last)))
}

fn move_separator(random: &mut Random, tables: &mut Tables) -> Option<()> {
    let (page, place) = any_separator(random, tables)?;
    let children = children(tables, page);
    let neighbour = if random.chance(50) { place - 1 } else { (place + 1).min(children.len() - 1) };
    let beside = children[neighbour].separator.0;
    children[place].separator = match random.below(4) {
        0 => Key(beside),
        1 => Key(beside.wrapping_add(1)),
        2 => Key(beside.wrapping_sub(1)),
        _ => Key(children[place].separator.0.wrapping_add(random.below(5)).wrapping_sub(2)),
    };
    Some(())
}

fn move_key_to_separator(random: &mut Random, tables: &mut Tables) -> Option<()> {
    let (page, place) = any_separator(random, tables)?;
    let separator = tables.index.pages[&page].children()[place].separator;
    let key = if random.chance(50) { separator } else { Key(separator.0.wrapping_sub(1)) };
    let entries = any_leaf(random, tables, 1)?;
    let place = if random.chance(50) { 0 } else { entries.len() - 1 };
    entries[place].key = key;
    Some(())
}

fn put_the_end(random: &mut Random, tables: &mut Tables) -> Option<()> {
    if random.chance(50) {
        let page = any_inner(random, tables)?;
        children(tables, page).last_mut()?.separator = Key::END;
    } else {
        any_leaf(random, tables, 1)?.last_mut()?.key = Key::END;
    }
    Some(())
}

fn put_stray_lock(random: &mut Random, tables: &mut Tables) -> Option<()> {
    let key = any_entry(random, tables)?.key;
    let name = Key(key.0.wrapping_add(random.below(5)).wrapping_sub(2));
    let holder = any_transaction(random);
    let slot = random.between(0, LOCK_COUNT - 1);
    tables.desk.slots[slot] = Slot::Taken(Lock { name, holder, mode: any_mode(random) });
    Some(())
}

fn put_second_lock(random: &mut Random, tables: &mut Tables) -> Option<()> {
    let (_, lock) = any_lock(random, tables)?;
    let holder = if random.chance(40) { lock.holder } else { random.below(18) as u16 };
    let free = tables.lowest_free_slot().unwrap_or(LOCK_COUNT - 1);
    let slot = if random.chance(70) { free } else { random.between(0, LOCK_COUNT - 1) };
    tables.desk.slots[slot] = Slot::Taken(Lock { holder, mode: any_mode(random), ..lock });
    Some(())
}

fn stop(random: &mut Random, tables: &mut Tables) -> Option<()> {
    let running = (1..=TRANSACTION_COUNT).filter(|t| tables.desk.is_running(*t));
    let stopped = random.pick(&running.collect::<Vec<u16>>())?;
    tables.desk.set_transaction(stopped, Transaction::NotRunning);
    if random.chance(50) {
        tables.desk.queue.retain(|waiter| *waiter != stopped);
    }
    Some(())
}

fn put_into_queue(random: &mut Random, tables: &mut Tables) -> Option<()> {
    if tables.desk.queue.len() == usize::from(TRANSACTION_COUNT) {
        tables.desk.queue.pop();
    }
    let queued = random.pick(&tables.desk.queue).filter(|_| random.chance(50));
    let place = random.between(0, tables.desk.queue.len());
    tables.desk.queue.insert(place, queued.unwrap_or(random.below(18) as u16));
    Some(())
}

fn leave_out(random: &mut Random, tables: &mut Tables) -> Option<()> {
    let last = tables.desk.queue.len().checked_sub(1)?;
    tables.desk.queue.remove(random.between(0, last));
    Some(())
}

fn spoil_wait(random: &mut Random, tables: &mut Tables) -> Option<()> {
    let waiter = random.pick(&tables.desk.queue)?;
    let spoiled = match tables.desk.waiting_request(waiter)? {
        KeyRequest::Read { lo, .. } if random.chance(50) => {
            KeyRequest::Read { lo, hi: Key(lo.0.wrapping_sub(1)) }
        }
        KeyRequest::Read { lo, .. } => KeyRequest::Read { lo, hi: Key::END },
        KeyRequest::Insert { record, .. } => KeyRequest::Insert { key: Key::END, record },
        KeyRequest::Delete { .. } => KeyRequest::Delete { key: Key::END },
    };
    tables.desk.set_transaction(waiter, Transaction::Waiting(spoiled));
    Some(())
}
