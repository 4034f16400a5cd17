//! The circle that is said at a 19. The cases are worked out from document 01, and from request 14
//! of document 02, by hand; random sessions check the rest: how things stood when it was said, that
//! each link is a wait, and that whoever is turned away is the lightest.

mod dice;

use dice::{sessions, settled};
use keydesk::Answer;
use play::behind::{behind, target};
use play::circle::{Call, Link, circle};
use play::picture::Standing;
use play::session::{Outcome, Said, Session};
use play::text::parse;

/// Plays lines one after another, and gives what is said in the last call.
fn said_last(lines: &str) -> Vec<Said> {
    let mut session = Session::fresh();
    let mut last = vec![];
    for (number, line) in (1..).zip(lines.lines()) {
        match session.play(number, line) {
            Outcome::Called { said, .. } => last = said,
            other => panic!("{line}: {other:?}"),
        }
    }
    last
}

/// What the last call says, as whom, number and words.
fn last(lines: &str) -> Vec<(u16, u32, String)> {
    said_last(lines).into_iter().map(|said| (said.transaction, said.number, said.words)).collect()
}

/// What is said to one who is turned away at 19.
fn turned_away(transaction: u16, links: &str) -> (u16, u32, String) {
    (transaction, 19, format!("turned away, the lightest in a circle: {links}"))
}

#[test]
fn two_who_wait_behind_each_other() {
    let asked = "1 read 7/30..7/30\n2 read 7/40..7/40\n1 delete 7/40\n2 delete 7/30";
    let links = "2 (1 lock) waits behind 1 at 7/30, 1 (1 lock) behind 2 at 7/40";
    assert_eq!(last(&(settled(&["7/30", "7/40"], 1..=2) + asked)), [turned_away(2, links)]);
}

/// "1 and 2 read 12..18; 1 inserts 15: 3; 2 inserts 16: 19": both hold S on 20.
#[test]
fn two_readers_of_one_gap() {
    let asked = "1 read 12..18\n2 read 12..18\n1 insert 15 record 5\n2 insert 16 record 6";
    let links = "2 (1 lock) waits behind 1 at 20, 1 (1 lock) behind 2 at 20";
    assert_eq!(last(&(settled(&["10", "20"], 1..=2) + asked)), [turned_away(2, links)]);
}

#[test]
fn at_the_end_of_the_index() {
    let asked = "1 read 5..9\n2 read 5..9\n1 insert 5 record 1\n2 insert 6 record 2";
    let links = "2 (1 lock) waits behind 1 at the end, 1 (1 lock) behind 2 at the end";
    assert_eq!(last(&format!("1 begin\n2 begin\n{asked}")), [turned_away(2, links)]);
}

/// "1 commits: 0 to 1, 19 to 3; 2 still waits, now at 30."
#[test]
fn a_commit_closes_a_circle() {
    let asked = "1 delete 20\n2 read 50..50\n3 read 30..30\n2 insert 15 record 6\n3 delete 50\n\
                 1 commit";
    let said = last(&(settled(&["10", "20", "30", "50"], 1..=3) + asked));
    assert_eq!(said[0], (1, 0, "committed".to_string()));
    let links = "3 (1 lock) waits behind 2 at 50, 2 (1 lock) behind 3 at 30";
    assert_eq!(said[1..], [turned_away(3, links)]);
}

/// The entry that 1 has inserted is taken out, and the target of 2 moves from 20 to 30.
#[test]
fn a_rollback_closes_a_circle() {
    let asked = "1 insert 20 record 2\n2 read 50..50\n3 read 30..30\n2 insert 15 record 6\n\
                 3 delete 50\n1 rollback";
    let said = last(&(settled(&["10", "30", "50"], 1..=3) + asked));
    assert_eq!(said[0], (1, 0, "rolled back".to_string()));
    let links = "3 (1 lock) waits behind 2 at 50, 2 (1 lock) behind 3 at 30";
    assert_eq!(said[1..], [turned_away(3, links)]);
}

/// The commit of 1 takes out 20 and 40. Then 4 waits at 30, which 2 holds, and 5 at 50, which 3
/// holds; 2 waits at 60 behind 4 and 5, who hold it, and 3 behind the earlier request of 2. Each
/// holds one lock. First 5 is the newest in a circle, then 2; then 3 runs. When 5 was turned away,
/// 2 and 3 still waited, and 3 didn't hold 60.
#[test]
fn what_comes_after_it_in_the_call_is_taken_back() {
    let asked = "1 delete 20\n1 delete 40\n2 read 30..30\n3 read 50..50\n4 read 60..60\n\
                 5 read 60..60\n4 insert 15 record 1\n2 delete 60\n3 read 60..60\n\
                 5 insert 35 record 1\n1 commit";
    let said = last(&(settled(&["10", "20", "30", "40", "50", "60"], 1..=5) + asked));
    let first =
        "5 (1 lock) waits behind 3 at 50, 3 (1 lock) behind 2 at 60, 2 (1 lock) behind 5 at 60";
    let expected = [
        (1, 0, "committed".to_string()),
        turned_away(5, first),
        turned_away(2, "2 (1 lock) waits behind 4 at 60, 4 (1 lock) behind 2 at 30"),
        (3, 1, "found 60 with record 1".to_string()),
    ];
    assert_eq!(said, expected);
}

#[test]
fn three_in_a_circle() {
    let asked =
        "1 read 10..10\n2 read 20..20\n3 read 30..30\n1 delete 20\n2 delete 30\n3 delete 10";
    let links =
        "3 (1 lock) waits behind 1 at 10, 1 (1 lock) behind 2 at 20, 2 (1 lock) behind 3 at 30";
    assert_eq!(last(&(settled(&["10", "20", "30"], 1..=3) + asked)), [turned_away(3, links)]);
}

/// 3 waits behind the earlier request of 2, which nobody's lock says. 2 holds something too, 10.
#[test]
fn a_link_can_be_an_earlier_request() {
    let asked = "3 read 30..30\n1 read 20..20\n2 read 10..10\n2 insert 15 record 1\n\
                 3 read 15..18\n1 delete 30";
    let links =
        "1 (1 lock) waits behind 3 at 30, 3 (1 lock) behind 2 at 20, 2 (1 lock) behind 1 at 20";
    assert_eq!(last(&(settled(&["10", "20", "30"], 1..=3) + asked)), [turned_away(1, links)]);
}

/// 3 waits behind 1 and 2, who both wait behind 3; 2 waits behind 1 too.
#[test]
fn the_shortest_and_of_those_the_lowest_numbers() {
    let asked =
        "1 read 20..20\n2 read 20..20\n3 read 30..30\n1 delete 30\n2 delete 30\n3 delete 20";
    let links = "3 (1 lock) waits behind 1 at 20, 1 (1 lock) behind 3 at 30";
    assert_eq!(last(&(settled(&["10", "20", "30"], 1..=3) + asked)), [turned_away(3, links)]);
}

/// Each holds S on its own key and deletes the next one's: "links left, from 15".
#[test]
fn sixteen_in_a_circle() {
    let keys: Vec<String> = (1..=16).map(|key| (10 * key).to_string()).collect();
    let keys: Vec<&str> = keys.iter().map(String::as_str).collect();
    let reads = (1..=16).map(|t| format!("{t} read {}..{}\n", 10 * t, 10 * t));
    let deletes = (1..=15).map(|t| format!("{t} delete {}\n", 10 * (t + 1)));
    let asked = reads.chain(deletes).collect::<String>() + "16 delete 10";
    let links = "16 (1 lock) waits behind 1 at 10, 1 (1 lock) behind 2 at 20, \
                 2 (1 lock) behind 3 at 30, 3 (1 lock) behind 4 at 40, 4 (1 lock) behind 5 at 50, \
                 5 (1 lock) behind 6 at 60, 6 (1 lock) behind 7 at 70, 7 (1 lock) behind 8 at 80, \
                 8 (1 lock) behind 9 at 90, 9 (1 lock) behind 10 at 100, \
                 10 (1 lock) behind 11 at 110, 11 (1 lock) behind 12 at 120, \
                 12 (1 lock) behind 13 at 130, 13 (1 lock) behind 14 at 140, \
                 14 (1 lock) behind 15 at 150, 15 (1 lock) behind 16 at 160";
    assert_eq!(last(&(settled(&keys, 1..=16) + &asked)), [turned_away(16, links)]);
}

/// 2 to 15 hold S on 30, and 2 to 16 insert 15: first at 20, which 1 deletes, then at 30. 16 holds
/// nothing, and nobody waits behind it. Of the others, who hold one lock each, one after another is
/// turned away, the newest first, and each lies on a circle with 2, until only 2 is left.
#[test]
fn thirteen_in_one_call() {
    let reads = (2..=15).map(|t| format!("{t} read 30..30\n"));
    let inserts = (2..=16).map(|t| format!("{t} insert 15 record {t}\n"));
    let asked = reads.chain(inserts).collect::<String>() + "1 commit";
    let begun = settled(&["10", "20", "30"], 1..=16) + "1 delete 20\n";
    let said = last(&(begun + &asked));
    assert_eq!(said[0], (1, 0, "committed".to_string()));
    let expected: Vec<(u16, u32, String)> = (3..=15)
        .rev()
        .map(|t| {
            let links = format!("{t} (1 lock) waits behind 2 at 30, 2 (1 lock) behind {t} at 30");
            turned_away(t, &links)
        })
        .collect();
    assert_eq!(said[1..], expected);
}

/// "A case where the older loses": 2 is the newest, and holds three locks.
#[test]
fn the_older_is_turned_away_where_it_holds_fewer() {
    let asked = "1 read 10..10\n2 read 20..20\n2 read 30..30\n2 read 40..40\n1 delete 20\n\
                 2 delete 10";
    let expected = [
        turned_away(1, "1 (1 lock) waits behind 2 at 20, 2 (3 locks) behind 1 at 10"),
        (2, 3, "waits behind 1, who holds S on 10".to_string()),
    ];
    assert_eq!(last(&(settled(&["10", "20", "30", "40"], 1..=2) + asked)), expected);
}

/// 1 holds X on 10, which was S in the same slot, and S on the end. 2 holds X on 25, S on 20 and on
/// the end; it had 30 for the instant only.
#[test]
fn slots_are_counted_s_and_x_and_the_end_alike() {
    let asked = "1 read 10..10\n1 delete 10\n1 read 40..50\n2 insert 25 record 1\n2 read 20..20\n\
                 2 read 40..50\n1 delete 20\n2 delete 10";
    let expected = [
        turned_away(1, "1 (2 locks) waits behind 2 at 20, 2 (3 locks) behind 1 at 10"),
        (2, 3, "waits behind 1, who holds X on 10".to_string()),
    ];
    assert_eq!(last(&(settled(&["10", "20", "30"], 1..=2) + asked)), expected);
}

#[test]
fn of_equals_the_newest() {
    let asked = "1 read 10..10\n1 read 20..20\n2 read 30..30\n2 read 40..40\n1 delete 30\n\
                 2 delete 10";
    let links = "2 (2 locks) waits behind 1 at 10, 1 (2 locks) behind 2 at 30";
    assert_eq!(last(&(settled(&["10", "20", "30", "40"], 1..=2) + asked)), [turned_away(2, links)]);
}

/// 3 is the newest and holds more than 1 and 2, who hold as many: of these, 2.
#[test]
fn of_equals_the_newest_though_a_heavier_one_is_newer() {
    let asked = "1 read 10..10\n2 read 20..20\n3 read 30..30\n3 read 40..40\n1 delete 20\n\
                 2 delete 30\n3 delete 10";
    let links =
        "2 (1 lock) waits behind 3 at 30, 3 (2 locks) behind 1 at 10, 1 (1 lock) behind 2 at 20";
    let expected = [turned_away(2, links), (3, 3, "waits behind 1, who holds S on 10".to_string())];
    assert_eq!(last(&(settled(&["10", "20", "30", "40"], 1..=3) + asked)), expected);
}

/// 3 waits behind 1 and holds nothing, but nobody waits behind 3.
#[test]
fn who_lies_on_no_circle_is_not_turned_away_though_it_holds_fewer() {
    let asked = "1 read 10..10\n1 read 30..30\n2 read 20..20\n2 read 40..40\n2 read 50..50\n\
                 3 delete 30\n1 delete 20\n2 delete 10";
    let expected = [
        turned_away(1, "1 (2 locks) waits behind 2 at 20, 2 (3 locks) behind 1 at 10"),
        (2, 3, "waits behind 1, who holds S on 10".to_string()),
    ];
    assert_eq!(last(&(settled(&["10", "20", "30", "40", "50"], 1..=3) + asked)), expected);
}

/// 2 holds nothing, and lies on the circle by its earlier request. Without it the read of 3, who
/// has just joined, goes with what 1 holds: 3 runs in this call, and held one lock before it.
#[test]
fn one_that_holds_no_locks_and_then_the_asker_runs() {
    let asked = "1 read 20..20\n3 read 30..30\n2 delete 20\n1 delete 30\n3 read 20..20";
    let links =
        "2 (no locks) waits behind 1 at 20, 1 (1 lock) behind 3 at 30, 3 (1 lock) behind 2 at 20";
    let expected = [turned_away(2, links), (3, 1, "found 20 with record 1".to_string())];
    assert_eq!(last(&(settled(&["10", "20", "30"], 1..=3) + asked)), expected);
}

/// The same circle, closed by 1: 2 is turned away, 3 runs, who has waited, and 1 waits.
#[test]
fn one_that_holds_no_locks_then_another_runs_and_the_asker_waits() {
    let asked = "1 read 20..20\n3 read 30..30\n2 delete 20\n3 read 20..20\n1 delete 30";
    let links =
        "2 (no locks) waits behind 1 at 20, 1 (1 lock) behind 3 at 30, 3 (1 lock) behind 2 at 20";
    let expected = [
        turned_away(2, links),
        (3, 1, "found 20 with record 1".to_string()),
        (1, 3, "waits behind 3, who holds S on 30".to_string()),
    ];
    assert_eq!(last(&(settled(&["10", "20", "30"], 1..=3) + asked)), expected);
}

/// 2 waits at 20 behind 3, who holds it, and behind the earlier request of 1; 3 waits behind 2. The
/// first to be turned away is 1, who holds nothing, then 3. Then 2 waits behind 3: whom it is told
/// is how it stands at rest, and not when it joined.
#[test]
fn two_in_the_call_of_one_who_then_waits() {
    let asked = "3 read 20..20\n2 read 30..30\n2 read 40..40\n1 delete 20\n3 delete 30\n\
                 2 delete 20";
    let first =
        "1 (no locks) waits behind 3 at 20, 3 (1 lock) behind 2 at 30, 2 (2 locks) behind 1 at 20";
    let expected = [
        turned_away(1, first),
        turned_away(3, "3 (1 lock) waits behind 2 at 30, 2 (2 locks) behind 3 at 20"),
        (2, 3, "waits behind 3, who holds S on 20".to_string()),
    ];
    assert_eq!(last(&(settled(&["10", "20", "30", "40"], 1..=3) + asked)), expected);
}

/// The commit of 5 takes out 20 and 60 and closes two circles, of 3 and 4 at 70 and 90, and of 1
/// and 2 at 30 and 50. 3 is the lightest of all four, and the oldest; of 1 and 2, who hold as many,
/// 2 is the newest.
#[test]
fn the_lightest_of_all_circles_together() {
    let asked = "5 delete 20\n5 delete 60\n3 read 90..90\n4 read 70..70\n4 read 80..80\n\
                 4 read 95..99\n1 read 50..50\n1 read 80..80\n2 read 30..30\n2 read 80..80\n\
                 3 insert 55 record 1\n4 delete 90\n1 insert 15 record 1\n2 delete 50\n5 commit";
    let keys = ["10", "20", "30", "50", "60", "70", "80", "90"];
    let expected = [
        (5, 0, "committed".to_string()),
        turned_away(3, "3 (1 lock) waits behind 4 at 70, 4 (3 locks) behind 3 at 90"),
        turned_away(2, "2 (2 locks) waits behind 1 at 50, 1 (2 locks) behind 2 at 30"),
    ];
    assert_eq!(last(&(settled(&keys, 1..=5) + asked)), expected);
}

/// What was met among the 19s of many sessions.
#[derive(Default)]
struct Met {
    circles: usize,
    in_anothers_call: usize,
    a_second_in_its_call: usize,
    followed_by_a_run: usize,
    of_three_or_more: usize,
    /// A newer one lay on a circle too.
    older: usize,
    /// Another on a circle held as few, and was older.
    newest_of_equals: usize,
    /// Of those on circles, some held more than others.
    differing: usize,
    /// Someone who waited on no circle held fewer.
    lighter_on_no_circle: usize,
    without_locks: usize,
    /// The asker waits, and is told so at the end.
    the_asker_waits: usize,
    the_asker_runs: usize,
}

#[test]
fn every_19_of_random_sessions_has_its_circle() {
    let mut met = Met::default();
    for lines in sessions() {
        let mut session = Session::fresh();
        for (number, line) in (1..).zip(&lines) {
            let before = session.standing();
            let Outcome::Called { said, .. } = session.play(number, line) else {
                panic!("{line} can be read")
            };
            let request = parse(line).expect("a request").expect("a request");
            let answers = said.iter().map(|said| read(&said.record)).collect();
            let call = Call { before, after: session.standing(), request, answers };
            look_at_circles(&call, &said, &mut met);
        }
    }
    assert!(met.circles > 500, "{} circles", met.circles);
    assert!(met.in_anothers_call > 200, "{} in another's call", met.in_anothers_call);
    assert!(met.a_second_in_its_call > 50, "{} second ones", met.a_second_in_its_call);
    assert!(met.followed_by_a_run > 100, "{} followed by a run", met.followed_by_a_run);
    assert!(met.of_three_or_more > 50, "{} of three or more", met.of_three_or_more);
    assert!(met.older > 200, "{} not the newest", met.older);
    assert!(met.newest_of_equals > 200, "{} the newest of equals", met.newest_of_equals);
    assert!(met.differing > 300, "{} with differing counts", met.differing);
    assert!(met.lighter_on_no_circle > 100, "{} beside a lighter one", met.lighter_on_no_circle);
    assert!(met.without_locks > 50, "{} without locks", met.without_locks);
    assert!(met.the_asker_waits > 100, "{} before the asker's 3", met.the_asker_waits);
    assert!(met.the_asker_runs > 5, "{} before the asker's run", met.the_asker_runs);
}

/// Checks each 19 of a call: how things stood when it was said, its links, and its words.
fn look_at_circles(call: &Call, said: &[Said], met: &mut Met) {
    let circles = said.iter().enumerate().filter(|(_, said)| said.number == 19);
    for (earlier, (place, said)) in circles.enumerate() {
        let stood = call.stood_at(place);
        check_turn(call, &stood, place);
        let links = circle(&stood, said.transaction).expect("there is a circle");
        check_links(&stood, said.transaction, &links);
        check_words(call, &links, &said.words);
        let after = &call.answers[place + 1..];
        // only requests for S run after a 19, so that nothing is inserted or deleted
        assert!(after.iter().all(|answer| answer.says.code() != 0 && answer.says.code() != 18));
        met.a_second_in_its_call += usize::from(earlier > 0);
        met.of_three_or_more += usize::from(links.len() > 2);
        met.count_choice(&stood, said.transaction);
        met.count_call(call, said.transaction, after);
    }
}

impl Met {
    /// Counts who else could have been turned away.
    fn count_choice(&mut self, stood: &Standing, turned_away: u16) {
        let fewest = held(stood, turned_away);
        let on_circles = on_circles(stood);
        let counts: Vec<usize> = on_circles.iter().map(|other| held(stood, *other)).collect();
        let as_few = counts.iter().filter(|count| **count == fewest).count();
        let mut waits = stood.queue.iter().map(|waiting| held(stood, waiting.transaction));
        self.older += usize::from(on_circles.last() != Some(&turned_away));
        self.newest_of_equals += usize::from(as_few > 1);
        self.differing += usize::from(as_few < counts.len());
        self.lighter_on_no_circle += usize::from(waits.any(|count| count < fewest));
        self.without_locks += usize::from(fewest == 0);
    }

    /// Counts whose call it was, and what came after.
    fn count_call(&mut self, call: &Call, turned_away: u16, after: &[Answer]) {
        let asker = call.request.transaction;
        let askers = after.iter().find(|answer| answer.transaction == asker);
        let askers = askers.map(|answer| answer.says.code());
        self.circles += 1;
        self.in_anothers_call += usize::from(turned_away != asker);
        self.followed_by_a_run += usize::from(after.iter().any(|answer| ran(answer.says.code())));
        self.the_asker_waits += usize::from(askers == Some(3));
        self.the_asker_runs += usize::from(askers.is_some_and(ran));
    }
}

/// The words name each link, in order, and what each one held: who is queued still holds what it
/// held before the call.
fn check_words(call: &Call, links: &[Link], words: &str) {
    let said = words.strip_prefix("turned away, the lightest in a circle: ").expect(words);
    let said: Vec<&str> = said.split(", ").collect();
    assert_eq!(said.len(), links.len());
    for (place, (said, link)) in said.iter().zip(links).enumerate() {
        let Link { waits, behind, at } = *link;
        let (verb, at) = (if place == 0 { " waits" } else { "" }, call.after.name(at));
        let locks = match held(&call.before, waits) {
            0 => "no locks".to_string(),
            1 => "1 lock".to_string(),
            many => format!("{many} locks"),
        };
        assert_eq!(*said, format!("{waits} ({locks}){verb} behind {behind} at {at}"));
    }
}

/// An answer by its record.
fn read(record: &[u8]) -> Answer {
    Answer::read(record.try_into().expect("20 bytes")).expect("an answer record")
}

/// Whether a number is said by a run.
fn ran(number: u16) -> bool {
    number != 3 && number != 19
}

/// How many locks a transaction holds.
fn held(standing: &Standing, transaction: u16) -> usize {
    standing.locks.iter().filter(|lock| lock.holder == transaction).count()
}

/// Links lead from the one that is turned away back to it, each over a target to one who blocks.
fn check_links(stood: &Standing, turned_away: u16, links: &[Link]) {
    assert_eq!(links[0].waits, turned_away);
    assert_eq!(links[links.len() - 1].behind, turned_away);
    assert!(links.windows(2).all(|pair| pair[0].behind == pair[1].waits));
    for link in links {
        let waiting = stood.waiting(link.waits).expect("who is on a circle waits");
        assert_eq!(target(stood, waiting).name, link.at);
        assert!(behind(stood, waiting).contains(&link.behind));
    }
}

/// By document 01, Working the queue, and request 14: everyone was blocked, the lightest on a
/// circle was turned away, and without it the queue goes on as the next answer says.
fn check_turn(call: &Call, stood: &Standing, place: usize) {
    assert_eq!(next(stood), Some((call.answers[place].transaction, true)));
    let mut without = stood.clone();
    without.queue.retain(|waiting| waiting.transaction != call.answers[place].transaction);
    let follows = call.answers.get(place + 1).filter(|answer| answer.says.code() != 3);
    assert_eq!(
        next(&without),
        follows.map(|answer| (answer.transaction, !ran(answer.says.code())))
    );
}

/// Whose turn it is: the oldest that isn't blocked runs, or else the lightest on a circle is turned
/// away (true); nobody's at rest.
fn next(standing: &Standing) -> Option<(u16, bool)> {
    let runs = standing.queue.iter().find(|waiting| behind(standing, waiting).is_empty());
    runs.map(|waiting| (waiting.transaction, false))
        .or_else(|| lightest(standing).map(|transaction| (transaction, true)))
}

/// Those who lie on any circle, oldest first.
fn on_circles(standing: &Standing) -> Vec<u16> {
    let waits = standing.queue.iter().map(|waiting| waiting.transaction);
    waits.filter(|transaction| circle(standing, *transaction).is_some()).collect()
}

/// Of all who lie on any circle the one that holds the fewest locks; of equals the newest.
fn lightest(standing: &Standing) -> Option<u16> {
    let on_circles = on_circles(standing);
    let fewest = on_circles.iter().map(|transaction| held(standing, *transaction)).min()?;
    on_circles.into_iter().rfind(|transaction| held(standing, *transaction) == fewest)
}
