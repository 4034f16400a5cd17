//! What a line changes, in words. What is expected was worked out from document 01 by hand.

use play::changes::changes;
use play::session::Session;

/// What the last line changes, after the lines before it.
fn last(lines: &str) -> Vec<String> {
    let lines: Vec<&str> = lines.lines().collect();
    let (last, earlier) = lines.split_last().expect("there is a line");
    let mut session = Session::fresh();
    for (number, line) in (1..).zip(earlier) {
        session.play(number, line);
    }
    let before = session.standing();
    session.play(lines.len(), last);
    changes(&before, &session.standing())
}

/// The same on the settled keys 10, 20, 30 and 50, with records 1, 2, 3 and 5, and 1 to 3 begun.
fn last_on_settled(lines: &str) -> Vec<String> {
    let settled = "16 begin\n16 insert 10 record 1\n16 insert 20 record 2\n16 insert 30 record 3\n\
                   16 insert 50 record 5\n16 commit\n1 begin\n2 begin\n3 begin\n";
    last(&format!("{settled}{lines}"))
}

/// A transaction that has inserted the keys from 1 to this one.
fn inserts(keys: u64) -> String {
    let inserts = (1..=keys).map(|key| format!("1 insert {key} record {key}\n"));
    format!("1 begin\n{}", inserts.collect::<String>())
}

#[test]
fn who_began_and_who_ended() {
    assert_eq!(last("1 begin"), ["1 began"]);
    assert_eq!(last("1 begin\n1 commit"), ["1 ended"]);
    assert_eq!(last("1 begin\n1 rollback"), ["1 ended"]);
}

#[test]
fn what_is_refused_or_cannot_be_read_changes_nothing() {
    for line in ["1 commit", "1 read 5..4", "1 reed 5..6", " ", "# a comment"] {
        assert!(last(line).is_empty(), "{line}");
    }
}

#[test]
fn an_insert_brings_an_entry_and_its_lock() {
    let changed = last("1 begin\n1 insert 7/25 record 777");
    assert_eq!(changed, ["entry 7/25 came, owned by 1, with record 777", "1 took X on 7/25"]);
}

#[test]
fn a_read_that_finds_nothing_takes_the_lock_on_the_end() {
    assert_eq!(last("1 begin\n1 read 5..9"), ["1 took S on the end"]);
}

#[test]
fn a_delete_leaves_a_ghost_which_the_commit_takes_out() {
    let delete = "1 delete 20";
    assert_eq!(last_on_settled(delete), ["entry 20 is now a ghost of 1", "1 took X on 20"]);
    let commit = format!("{delete}\n1 commit");
    assert_eq!(
        last_on_settled(&commit),
        ["1 ended", "entry 20 was taken out", "1 released X on 20"]
    );
}

/// "1 deletes 20 (settled) and inserts it with record 9; rollback gives the old record."
#[test]
fn a_ghost_is_made_present_and_rolled_back() {
    let insert = "1 delete 20\n1 insert 20 record 9";
    assert_eq!(last_on_settled(insert), ["entry 20 is now owned by 1, with record 9"]);
    let rollback = format!("{insert}\n1 rollback");
    let expected = ["1 ended", "entry 20 is now settled, with record 2", "1 released X on 20"];
    assert_eq!(last_on_settled(&rollback), expected);
    let commit = format!("{insert}\n1 commit");
    assert_eq!(
        last_on_settled(&commit),
        ["1 ended", "entry 20 is now settled", "1 released X on 20"]
    );
}

/// "X replaces S in its slot."
#[test]
fn a_lock_is_upgraded() {
    let changed = last_on_settled("1 read 20..20\n1 delete 20");
    assert_eq!(changed, ["entry 20 is now a ghost of 1", "1 upgraded S to X on 20"]);
}

#[test]
fn who_waits_now_and_who_waits_no_more() {
    let insert = "1 read 12..18\n2 insert 15 record 6";
    assert_eq!(last_on_settled(insert), ["2 waits now: insert 15 record 6"]);
    let commit = format!("{insert}\n1 commit");
    let expected = [
        "1 ended",
        "2 waits no more",
        "entry 15 came, owned by 2, with record 6",
        "2 took X on 15",
        "1 released S on 20",
    ];
    assert_eq!(last_on_settled(&commit), expected);
    let rollback = format!("{insert}\n2 rollback");
    assert_eq!(last_on_settled(&rollback), ["2 ended", "2 waits no more"]);
}

/// The fourth case of document 01: "1 commits: 0 to 1, 19 to 3; 2 still waits, now at 30."
#[test]
fn who_still_waits_but_elsewhere() {
    let asked = "1 delete 20\n2 read 50..50\n3 read 30..30\n2 insert 15 record 8\n3 delete 50\n\
                 1 commit";
    let expected = [
        "1 ended",
        "2 still waits, and now wants X on 30 for the instant",
        "3 waits no more",
        "entry 20 was taken out",
        "1 released X on 20",
    ];
    assert_eq!(last_on_settled(asked), expected);
}

/// 1 waits, and is turned away when 2 joins, since 2 holds more: now 2 waits, and 1 no more.
#[test]
fn who_waits_now_in_the_place_of_one_that_is_turned_away() {
    let asked = "1 read 10..10\n2 read 20..20\n2 read 30..30\n1 delete 20\n2 delete 10";
    assert_eq!(last_on_settled(asked), ["2 waits now: delete 10", "1 waits no more"]);
}

/// "One transaction inserts 1..24: one leaf. 25: separator 14, used 4."
#[test]
fn a_split_uses_pages_and_makes_the_tree_higher() {
    let expected = [
        "entry 25 came, owned by 1, with record 25",
        "1 took X on 25",
        "4 pages are used, 2 before",
        "the tree has 2 levels, 1 before",
    ];
    assert_eq!(last(&inserts(25)), expected);
}

/// Five names are written out; of six, four and the count of the others.
#[test]
fn a_long_list_is_cut_with_a_count() {
    let committed = |keys| last(&(inserts(keys) + "1 commit"));
    let expected =
        ["1 ended", "entries 1, 2, 3, 4, 5 are now settled", "1 released X on 1, 2, 3, 4, 5"];
    assert_eq!(committed(5), expected);
    let expected = [
        "1 ended",
        "entries 1, 2, 3, 4 and 2 more are now settled",
        "1 released X on 1, 2, 3, 4 and 2 more",
    ];
    assert_eq!(committed(6), expected);
    let expected = [
        "1 ended",
        "entries 1, 2, 3, 4 and 252 more were taken out",
        "1 released X on 1, 2, 3, 4 and 252 more",
    ];
    assert_eq!(last(&(inserts(256) + "1 rollback")), expected);
}
