//! Search and splits, with page numbers and separators worked out by hand (document 01, Records and
//! pages).

use model::desk::Picture;
use model::entry::Entry;
use model::key::Key;
use model::layout::answer::Answer;
use model::layout::desk::Desk;
use model::layout::pages::{Child, Index, Page};
use model::picture::Tables;
use model::session::Session;
use model::whole::whole;
use std::collections::BTreeMap;

/// Inserts keys by transaction 1 in this order, settled in groups.
fn settled_in_order(keys: impl Iterator<Item = u64>) -> Session {
    let mut session = Session::fresh();
    session.begin(1);
    for (count, key) in keys.enumerate() {
        if count % 200 == 199 {
            session.commit(1);
            session.begin(1);
        }
        assert_eq!(session.insert(1, key, 0), [Answer::plain(1, 0)]);
    }
    session.commit(1);
    session
}

fn keys(index: &Index, page: u16) -> Vec<u64> {
    index.pages[&page].entries().iter().map(|entry| entry.key.0).collect()
}

fn children(index: &Index, page: u16) -> Vec<(u64, u16)> {
    index.pages[&page].children().iter().map(|child| (child.separator.0, child.page)).collect()
}

/// A leaf with `count` settled keys: low, low + 1, and so on.
fn leaf(low: u64, count: u64) -> Page {
    Page::Leaf((low..low + count).map(|key| Entry::settled(Key(key), 0)).collect())
}

/// An inner page over these pages; the first separator is 0, whatever the caller says.
fn inner(level: u16, children: impl Iterator<Item = (u64, u16)>) -> Page {
    let mut children: Vec<Child> =
        children.map(|(separator, page)| Child { separator: Key(separator), page }).collect();
    children[0].separator = Key(0);
    Page::Inner { level, children }
}

/// A session on a hand-made tree, which has to be whole.
fn session_on(root: u16, height: u16, pages: BTreeMap<u16, Page>) -> Session {
    let tables = Tables { index: Index { root, height, pages }, desk: Desk::empty() };
    let session = Session::at(&tables);
    let Picture { pages, desk } = &session.picture;
    assert!(whole(pages, desk));
    session
}

/// Ascending keys leave 13 in each leaf behind. The 402nd makes the 31st leaf (page 32), so the
/// root (page 3) splits: 16 leaves stay, 15 move to page 33, and page 34 is the root over both. The
/// 17th leaf starts at 16 * 13 + 1 = 209.
#[test]
fn the_402nd_ascending_key_gives_height_3() {
    let index = settled_in_order(1..=401).tables().index;
    assert_eq!((index.root, index.used(), index.height), (3, 32, 2));
    assert_eq!(index.pages[&3].children().len(), 30);

    let index = settled_in_order(1..=402).tables().index;
    assert_eq!((index.root, index.used(), index.height), (34, 35, 3));
    assert_eq!(children(&index, 34), [(0, 3), (209, 33)]);
    assert_eq!(index.pages[&34].level(), 2);
    let left: Vec<(u64, u16)> = children(&index, 3);
    assert_eq!(left.len(), 16);
    assert_eq!(left[..3], [(0, 1), (14, 2), (27, 4)]);
    assert_eq!(left[15], (15 * 13 + 1, 17));
    let right = children(&index, 33);
    assert_eq!(right.len(), 15);
    assert_eq!(right[..2], [(0, 18), (222, 19)]);
    assert_eq!(right[14], (30 * 13 + 1, 32));
    assert_eq!(index.pages[&33].level(), 1);
    assert_eq!(keys(&index, 32), (391..=402).collect::<Vec<u64>>());
}

/// Descending keys leave 12 in each leaf that is moved: splits come with the 25th, 37th and 49th.
#[test]
fn descending_keys_split_the_first_leaf_again_and_again() {
    let index = settled_in_order((1..=49).rev()).tables().index;
    assert_eq!((index.root, index.used(), index.height), (3, 6, 2));
    assert_eq!(children(&index, 3), [(0, 1), (14, 5), (26, 4), (38, 2)]);
    assert_eq!(keys(&index, 1), (1..=13).collect::<Vec<u64>>());
    assert_eq!(keys(&index, 5), (14..=25).collect::<Vec<u64>>());
    assert_eq!(keys(&index, 2), (38..=49).collect::<Vec<u64>>());
}

/// Thirty full leaves, 100 keys apart; a key in the middle of the fifth. The new leaf is page 32,
/// the new inner page 33, the new root 34. Left stay five leaves, the new one and ten more.
#[test]
fn a_split_in_the_middle_of_a_full_root() {
    let mut pages: BTreeMap<u16, Page> =
        (0..30).map(|place| (place + 1, leaf(u64::from(place) * 100, 24))).collect();
    pages.insert(31, inner(1, (0..30).map(|place| (u64::from(place) * 100, place + 1))));
    let mut session = session_on(31, 2, pages);
    assert_eq!(session.tables().index.pages_needed(Key(450)), 3);
    session.begin(1);
    assert_eq!(session.insert(1, 450, 0), [Answer::plain(1, 0)]);

    let index = session.tables().index;
    assert_eq!((index.root, index.used(), index.height), (34, 35, 3));
    assert_eq!(keys(&index, 5), (400..=412).collect::<Vec<u64>>());
    let mut moved: Vec<u64> = (413..=423).collect();
    moved.push(450);
    assert_eq!(keys(&index, 32), moved);
    assert_eq!(children(&index, 34), [(0, 31), (1500, 33)]);
    let left = children(&index, 31);
    assert_eq!(left.len(), 16);
    assert_eq!(left[4..7], [(400, 5), (413, 32), (500, 6)]);
    assert_eq!(left[15], (1400, 15));
    let right = children(&index, 33);
    assert_eq!(right.len(), 15);
    assert_eq!((right[0], right[1], right[14]), ((0, 16), (1600, 17), (2900, 30)));
}

/// A root over a full inner page (leaves 1 to 30, all full) and one with `others` children, each
/// leaf 100 keys apart. Of the latter's leaves only the last is full.
fn full_beside_other(others: u16) -> Session {
    let low = |place: u16| u64::from(place) * 100;
    let last = 30 + others - 1;
    let mut pages = BTreeMap::new();
    for place in 0..=last {
        pages.insert(place + 1, leaf(low(place), if place < 30 || place == last { 24 } else { 1 }));
    }
    let (full, other, root) = (last + 2, last + 3, last + 4);
    pages.insert(full, inner(1, (0..30).map(|place| (low(place), place + 1))));
    pages.insert(other, inner(1, (30..=last).map(|place| (low(place), place + 1))));
    pages.insert(root, inner(2, [(0, full), (low(30), other)].into_iter()));
    session_on(root, 3, pages)
}

/// "18 if used plus needed is over 64": 62 and 2 is not, 63 and 2 is, 63 and 1 is not.
#[test]
fn eighteen_goes_by_used_plus_needed() {
    let mut session = full_beside_other(28);
    session.begin(1);
    assert_eq!(session.tables().index.used(), 62);
    assert_eq!(session.tables().index.pages_needed(Key(50)), 2);
    assert_eq!(session.insert(1, 50, 0), [Answer::plain(1, 0)]);
    assert_eq!(session.tables().index.used(), 64);

    let mut session = full_beside_other(29);
    session.begin(1);
    assert_eq!(session.tables().index.used(), 63);
    assert_eq!(session.insert(1, 50, 0), [Answer::plain(1, 18)]);
    assert_eq!(session.tables().index.pages_needed(Key(5899)), 1);
    assert_eq!(session.insert(1, 5899, 0), [Answer::plain(1, 0)]);
    assert_eq!(session.tables().index.used(), 64);
}

/// A leaf that isn't full breaks the run of full pages: nothing is needed under a full parent.
#[test]
fn a_leaf_with_room_needs_no_page() {
    let mut pages: BTreeMap<u16, Page> =
        (0..30).map(|place| (place + 1, leaf(u64::from(place) * 100, 23))).collect();
    pages.insert(31, inner(1, (0..30).map(|place| (u64::from(place) * 100, place + 1))));
    let session = session_on(31, 2, pages);
    assert_eq!(session.tables().index.pages_needed(Key(450)), 0);
}

/// "Emptied leaves keep their page and range; room in a leaf is used again."
#[test]
fn an_emptied_leaf_keeps_its_page_and_range() {
    let mut session = settled_in_order(1..=38);
    let before = session.tables().index;
    assert_eq!(children(&before, 3), [(0, 1), (14, 2), (27, 4)]);
    session.begin(1);
    for key in 14..=26 {
        assert_eq!(session.delete(1, key), [Answer::plain(1, 0)]);
    }
    session.commit(1);
    let emptied = session.tables().index;
    assert_eq!(keys(&emptied, 2), []);
    assert_eq!(children(&emptied, 3), children(&before, 3));

    session.begin(1);
    let found_27 = [Answer::showing(1, 1, Key(27), 0)];
    assert_eq!(session.read(1, 14, 99), found_27, "search goes into the next child");
    assert_eq!(session.insert(1, 20, 5), [Answer::plain(1, 0)]);
    assert_eq!(keys(&session.tables().index, 2), [20]);
    assert_eq!(session.tables().index.used(), 5);
}
