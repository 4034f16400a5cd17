//! Drawings as text. What is expected was worked out from document 01 by hand.

use play::picture::Standing;
use play::rows::Place;
use play::session::Session;
use play::show::show;

/// Where things stand after all lines of a session.
fn standing(lines: &str) -> Standing {
    let mut session = Session::fresh();
    for (number, line) in (1..).zip(lines.lines()) {
        session.play(number, line);
    }
    session.standing()
}

fn drawn(lines: &str) -> String {
    let played = lines.lines().enumerate().last().map(|(place, line)| (place + 1, line));
    show(&standing(lines), &Place { name: "the test", played })
}

/// Settled keys, each a tenth of itself as its record, put there by 16.
fn settled(keys: &[u64]) -> String {
    let inserts = keys.iter().map(|key| format!("16 insert {key} record {}\n", key / 10));
    format!("16 begin\n{}16 commit\n", inserts.collect::<String>())
}

#[test]
fn a_fresh_desk() {
    let expected = "\
Before the first request
the test: 0 entries, 1 level, 2 of 64 pages used

page 1, leaf, from the start: 0 of 24 entries
    end

0 of 256 locks in use, each covers its key and the gap below it

0 transactions run, 0 wait
";
    assert_eq!(drawn(""), expected);
}

#[test]
fn the_story_while_the_enrolment_waits() {
    let story = include_str!("../../examples/namesake.txt");
    let lines: Vec<&str> = story.lines().take(29).collect();
    let expected = "\
After line 29: 2 insert 7/25 record 777
the test: 5 entries, 1 level, 2 of 64 pages used

page 1, leaf, from the start: 5 of 24 entries
    6/90  record 400  settled
    7/10  record 501  settled  S by 1
    7/20  record 502  settled  S by 1
    7/30  record 503  settled  S by 1  <- 2 waits
    8/10  record 600  settled  S by 1
    end

4 of 256 locks in use, each covers its key and the gap below it
    1 holds S on 7/10 to 8/10 (4 locks), covering 6/91 to 8/10

2 transactions run, 1 waits
    1 runs
    2 waits behind 1, who holds S on 7/30: insert 7/25 record 777 wants X on 7/30 for the instant
";
    assert_eq!(drawn(&lines.join("\n")), expected);
}

/// The fourth case of document 01, before the commit.
#[test]
fn a_chain_of_waits_with_a_ghost() {
    let asked = "1 begin\n2 begin\n3 begin\n1 delete 20\n2 read 50..50\n3 read 30..30\n\
                 2 insert 15 record 8\n3 delete 50";
    let expected = "\
After line 14: 3 delete 50
the test: 4 entries, 1 level, 2 of 64 pages used

page 1, leaf, from the start: 4 of 24 entries
    10   record 1  settled
    20   absent    ghost of 1, before: record 2  X by 1  <- 2 waits
    30   record 3  settled                       S by 3
    50   record 5  settled                       S by 2  <- 3 waits
    end

3 of 256 locks in use, each covers its key and the gap below it
    1 holds X on 20, covering 11 to 20
    2 holds S on 50, covering 31 to 50
    3 holds S on 30, covering 21 to 30

3 transactions run, 2 wait
    1 runs
    2 waits behind 1, who holds X on 20: insert 15 record 8 wants X on 20 for the instant
    3 waits behind 2, who holds S on 50: delete 50 wants X on 50
";
    assert_eq!(drawn(&(settled(&[10, 20, 30, 50]) + asked)), expected);
}

/// 3 waits behind 1, who holds S on 20; and 2, who wants X on it and asked before, stands below.
#[test]
fn behind_a_holder_and_an_earlier_request() {
    let asked = "1 begin\n2 begin\n3 begin\n1 read 20..20\n2 insert 15 record 1\n3 delete 20\n";
    let expected = "
3 transactions run, 2 wait
    1 runs
    2 waits behind 1, who holds S on 20: insert 15 record 1 wants X on 20 for the instant
    3 waits behind 1, who holds S on 20: delete 20 wants X on 20
        also in the way is 2, who asked for it before
";
    let drawn = drawn(&(settled(&[10, 20]) + asked));
    assert!(drawn.ends_with(expected), "{drawn}");
}

/// An answer named 2 to 4; when 2 has ended, a drawing names who is the lowest then.
#[test]
fn who_is_named_is_the_lowest_as_things_stand() {
    let asked = "2 begin\n3 begin\n4 begin\n3 read 20..20\n2 read 20..20\n4 insert 15 record 1\n";
    let before = "
    2 runs
    3 runs
    4 waits behind 2, who holds S on 20: insert 15 record 1 wants X on 20 for the instant
        also in the way is 3, who holds S on it
";
    let after = "
    3 runs
    4 waits behind 3, who holds S on 20: insert 15 record 1 wants X on 20 for the instant
";
    let asked = settled(&[10, 20]) + asked;
    assert!(drawn(&asked).ends_with(before), "{}", drawn(&asked));
    let ended = asked + "2 commit\n";
    assert!(drawn(&ended).ends_with(after), "{}", drawn(&ended));
}

/// Every way in which an entry can be owned, the end locked, and two readers of one key.
#[test]
fn now_and_before() {
    let asked = "1 begin\n2 begin\n1 delete 20\n1 insert 20 record 9\n1 insert 25 record 7\n\
                 1 insert 27 record 8\n1 delete 27\n1 delete 30\n1 read 31..99\n1 read 10..10\n\
                 2 read 10..10\n2 insert 5 record 1\n";
    let expected = "\
page 1, leaf, from the start: 5 of 24 entries
    10   record 1  settled                       S by 1, 2  <- 2 waits
    20   record 9  owned by 1, before: record 2  X by 1
    25   record 7  owned by 1, before: absent    X by 1
    27   absent    ghost of 1, before: absent    X by 1
    30   absent    ghost of 1, before: record 3  X by 1
    end                                          S by 1

7 of 256 locks in use, each covers its key and the gap below it
    1 holds S on 10, covering 0 to 10
    1 holds X on 20 to 30 (4 locks), covering 11 to 30
    1 holds S on the end, covering 31 to the end
    2 holds S on 10, covering 0 to 10

2 transactions run, 1 waits
    1 runs
    2 waits behind 1, who holds S on 10: insert 5 record 1 wants X on 10 for the instant
";
    let drawn = drawn(&(settled(&[10, 20, 30]) + asked));
    assert!(drawn.ends_with(expected), "{drawn}");
}

/// "One transaction inserts 1..24: one leaf. 25: separator 14, used 4."
#[test]
fn a_split() {
    let inserts = (1..=25).map(|key| format!("1 insert {key} record {key}\n"));
    let drawn = drawn(&format!("1 begin\n{}1 commit", inserts.collect::<String>()));
    let pages: Vec<&str> = drawn.lines().filter(|line| line.contains("page ")).collect();
    let expected = [
        "page 3, inner, level 1, from the start: 2 of 30 children",
        "  page 1, leaf, from the start: 13 of 24 entries",
        "  page 2, leaf, from 14: 12 of 24 entries",
    ];
    assert_eq!(pages, expected);
    assert!(drawn.contains("the test: 25 entries, 2 levels, 4 of 64 pages used\n"));
    assert!(drawn.contains("      13  record 13  settled\n  page 2"));
    assert!(drawn.contains("      25   record 25  settled\n      end\n"));
}

/// Settled keys 10, 20 and so on to 400, and what 1 has at work among them.
#[test]
fn in_a_large_index_entries_alike_stand_together() {
    let keys: Vec<u64> = (1..=40).map(|key| 10 * key).collect();
    let asked = "1 begin\n1 delete 60\n1 read 70..70\n";
    let drawn = drawn(&(settled(&keys) + asked));
    let expected = "\
  page 1, leaf, from the start: 13 of 24 entries
      10..50   5 entries  settled
      60       absent     ghost of 1, before: record 6  X by 1
      70       record 7   settled                       S by 1
      80..130  6 entries  settled
  page 2, leaf, from 140: 13 of 24 entries
      140..260  13 entries  settled
  page 4, leaf, from 270: 14 of 24 entries
      270..400  14 entries  settled
      end
";
    assert!(drawn.contains(expected), "{drawn}");
}
