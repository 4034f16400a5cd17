//! Who waits behind whom, worked out from document 01, Locks, by hand; that at rest nobody waits
//! behind nobody; and that an answer 3 names the lowest-numbered of those who are in the way.

mod dice;

use dice::sessions;
use play::behind::{Blocker, Target, Why, behind, blockers, named, target};
use play::keys::Key;
use play::picture::Mode;
use play::session::{Outcome, Session};
use play::words;
use std::fs;
use std::path::Path;

/// A session on the settled keys 10, 20, 30, with 1 to 4 begun.
fn played(asked: &str) -> Session {
    let settled = "16 begin\n16 insert 10 record 1\n16 insert 20 record 2\n16 insert 30 record 3\n\
                   16 commit\n1 begin\n2 begin\n3 begin\n4 begin\n";
    let mut session = Session::fresh();
    for line in settled.lines().chain(asked.lines()) {
        session.play(0, line);
    }
    session
}

/// The waiting requests after a session: who, target, behind whom.
fn waits(asked: &str) -> Vec<(u16, Target, Vec<u16>)> {
    let standing = played(asked).standing();
    let queue = standing.queue.iter();
    queue.map(|w| (w.transaction, target(&standing, w), behind(&standing, w))).collect()
}

fn wants(name: u64, mode: Mode, instant: bool) -> Target {
    Target { name: Key(name), mode, instant }
}

#[test]
fn a_read_waits_for_s_behind_the_holder_of_x() {
    for read in ["read 11..15", "read 11..25"] {
        let expected = (2, wants(20, Mode::S, false), vec![1]);
        assert_eq!(waits(&format!("1 delete 20\n2 {read}")), [expected]);
    }
}

#[test]
fn an_insert_waits_for_the_instant_x_on_the_next_entry_or_the_end() {
    let expected = (2, wants(20, Mode::X, true), vec![1, 3]);
    assert_eq!(waits("1 read 20..20\n3 read 20..20\n2 insert 15 record 1"), [expected]);
    let expected = (2, wants(u64::MAX, Mode::X, true), vec![1]);
    assert_eq!(waits("1 read 40..50\n2 insert 45 record 1"), [expected]);
}

#[test]
fn an_insert_of_a_key_that_is_there_waits_for_s() {
    let expected = (2, wants(20, Mode::S, false), vec![1]);
    assert_eq!(waits("1 delete 20\n2 insert 20 record 1"), [expected]);
}

#[test]
fn a_delete_waits_for_x_on_its_key_and_for_s_on_the_next() {
    let expected = (2, wants(20, Mode::X, false), vec![1]);
    assert_eq!(waits("1 read 20..20\n2 delete 20"), [expected]);
    let expected = (2, wants(20, Mode::S, false), vec![1]);
    assert_eq!(waits("1 delete 20\n2 delete 15"), [expected]);
}

/// "Or if T holds no lock on it and U has an earlier waiting request with the same target and a
/// conflicting mode."
#[test]
fn one_waits_behind_earlier_waiters_unless_one_holds_the_target() {
    let x = wants(20, Mode::X, true);
    let queued = waits("1 read 20..20\n2 insert 15 record 1\n3 read 15..18");
    assert_eq!(queued, [(2, x, vec![1]), (3, wants(20, Mode::S, false), vec![2])]);
    let holding = waits("1 read 20..20\n3 read 20..20\n2 insert 15 record 1\n3 insert 16 record 1");
    assert_eq!(holding, [(2, x, vec![1, 3]), (3, x, vec![1])]);
}

/// What the last of those who wait is said to wait behind.
fn last_waits(asked: &str) -> String {
    let standing = played(asked).standing();
    words::waits(&standing, standing.queue.last().expect("someone waits")).to_string()
}

#[test]
fn in_words_with_what_is_in_the_way() {
    let holds = "1 read 20..20\n2 insert 15 record 1";
    assert_eq!(last_waits(holds), "waits behind 1, who holds S on 20");
    let end = "1 insert 45 record 1\n1 read 46..50\n2 insert 47 record 1";
    assert_eq!(last_waits(end), "waits behind 1, who holds S on the end");
    let asked = "1 read 20..20\n2 insert 15 record 1\n3 read 15..18";
    assert_eq!(last_waits(asked), "waits behind 2, who asked for 20 before");
}

/// The one that is named holds the target, and others are in the way too.
#[test]
fn in_words_behind_a_holder_and_others() {
    let holds =
        |others: &str| format!("waits behind 1, who holds S on 20; also in the way {others}");
    let holder = "3 read 20..20\n1 read 20..20\n2 insert 15 record 1";
    assert_eq!(last_waits(holder), holds("is 3, who holds S on it"));
    let holders = "4 read 20..20\n2 read 20..20\n1 read 20..20\n3 insert 15 record 1";
    assert_eq!(last_waits(holders), holds("are 2, 4, who hold S on it"));
    let asker = "1 read 20..20\n2 insert 15 record 1\n3 insert 16 record 1";
    assert_eq!(last_waits(asker), holds("is 2, who asked for it before"));
    let askers = "1 read 20..20\n4 delete 20\n2 insert 15 record 1\n3 insert 16 record 1";
    assert_eq!(last_waits(askers), holds("are 2, 4, who asked for it before"));
    let both = "1 read 20..20\n4 read 20..20\n2 insert 15 record 1\n3 insert 16 record 1";
    assert_eq!(last_waits(both), holds("are 4, who holds S on it, and 2, who asked for it before"));
    let holds_and_asked =
        "1 read 20..20\n3 read 20..20\n3 insert 16 record 1\n2 insert 15 record 1";
    assert_eq!(last_waits(holds_and_asked), holds("is 3, who holds S on it"));
}

/// The one that is named has asked before, and others are in the way too. A read is blocked by
/// nobody who holds S.
#[test]
fn in_words_behind_an_earlier_request_and_others() {
    let asked =
        |others: &str| format!("waits behind 1, who asked for 20 before; also in the way {others}");
    let holder = "2 read 20..20\n1 insert 15 record 1\n3 insert 16 record 1";
    assert_eq!(last_waits(holder), asked("is 2, who holds S on it"));
    let holders = "4 read 20..20\n2 read 20..20\n1 insert 15 record 1\n3 insert 16 record 1";
    assert_eq!(last_waits(holders), asked("are 2, 4, who hold S on it"));
    let asker = "2 read 20..20\n3 insert 15 record 1\n1 delete 20\n4 read 15..18";
    assert_eq!(last_waits(asker), asked("is 3, who asked for it before"));
    let both = "2 read 20..20\n3 insert 15 record 1\n1 delete 20\n4 insert 16 record 1";
    assert_eq!(last_waits(both), asked("are 2, who holds S on it, and 3, who asked for it before"));
}

/// 3 came first, and 1 is the lowest-numbered.
#[test]
fn the_lowest_number_is_named_whoever_came_first() {
    let standing = played("3 read 20..20\n1 read 20..20\n2 insert 15 record 1").standing();
    assert_eq!(named(&standing, &standing.queue[0]), Some(1));
    let standing = played("3 read 20..20\n4 insert 15 record 1\n2 delete 20").standing();
    assert_eq!(named(&standing, &standing.queue[0]), Some(3), "4 waits behind its holder");
    assert_eq!(named(&standing, &standing.queue[1]), Some(3), "2 behind 3 and 4");
    let standing = played("4 read 20..20\n3 insert 15 record 1\n2 delete 20").standing();
    assert_eq!(named(&standing, &standing.queue[1]), Some(3), "2 behind the earlier request");
}

/// Nothing of an answer is hidden: whom it names is said, also where that one doesn't block or a
/// lower one does. Then the words are these.
#[test]
fn a_name_that_is_not_the_lowest_in_the_way_is_said_all_the_same() {
    let mut standing = played("3 read 20..20\n1 read 20..20\n2 insert 15 record 1").standing();
    let waiting = standing.queue[0];
    let said = |named: u16| words::waits_behind(&standing, &waiting, named).to_string();
    assert_eq!(
        said(3),
        "waits behind 3, who holds S on 20; also in the way is 1, who holds S on it"
    );
    assert_eq!(said(4), "waits behind 4; also in the way are 1, 3, who hold S on 20");
    standing.locks.clear();
    assert_eq!(words::waits_behind(&standing, &waiting, 4).to_string(), "waits behind 4");
    assert_eq!(named(&standing, &waiting), None);
    assert_eq!(words::waits(&standing, &waiting).to_string(), "waits");
}

/// "First entry at or above lo that is above hi or isn't the asker's own ghost".
#[test]
fn a_read_passes_its_own_ghosts() {
    let queued = waits("2 delete 10\n1 delete 20\n2 read 5..25");
    assert_eq!(queued, [(2, wants(20, Mode::S, false), vec![1])]);
}

/// The sessions under examples/, each by its lines.
fn examples() -> Vec<Vec<String>> {
    let folder = Path::new(env!("CARGO_MANIFEST_DIR")).join("../examples");
    let files = fs::read_dir(folder).expect("the examples are there");
    let texts = files.filter_map(|file| fs::read_to_string(file.expect("a file").path()).ok());
    texts.map(|text| text.lines().map(String::from).collect()).collect()
}

#[test]
fn at_rest_everyone_who_waits_waits_behind_someone() {
    for lines in examples() {
        let mut session = Session::fresh();
        for (number, line) in (1..).zip(&lines) {
            session.play(number, line);
            let standing = session.standing();
            for waiting in &standing.queue {
                assert!(!behind(&standing, waiting).is_empty(), "{} {number}", lines[0]);
            }
        }
    }
}

/// What was met among the 3s of sessions.
#[derive(Default)]
struct Met {
    waits: usize,
    behind_several: usize,
    named_asked_before: usize,
    /// An earlier request is named, and whoever holds the target has a higher number.
    holders_are_higher: usize,
    /// Others were turned away in the same call, and the name is that of the rest after them.
    after_a_19: usize,
}

/// Plays a session and checks each 3 in it: it comes last, "Answer 3 then carries that number in
/// its record field" (document 02, request 4), and the key field stays zero.
fn look_at_names(lines: &[String], met: &mut Met) {
    let mut session = Session::fresh();
    for (number, line) in (1..).zip(lines) {
        let Outcome::Called { said, .. } = session.play(number, line) else { continue };
        let standing = session.standing();
        for (place, told) in said.iter().enumerate().filter(|(_, told)| told.number == 3) {
            assert_eq!(place + 1, said.len(), "{}, line {number}: a 3 comes last", lines[0]);
            let waiting = standing.waiting(told.transaction).expect("who is told 3 waits");
            let blockers = blockers(&standing, waiting);
            let lowest = blockers.iter().min_by_key(|blocker| blocker.transaction);
            let lowest = *lowest.expect("who waits at rest is blocked");
            let key_and_record = [0, 0, 0, 0, 0, 0, 0, 0, lowest.transaction as u8, 0, 0, 0];
            assert_eq!(told.record[8..20], key_and_record, "{}, line {number}", lines[0]);
            let words = format!("waits behind {}, who ", lowest.transaction);
            assert!(told.words.starts_with(&words), "{}", told.words);
            met.count(lowest, &blockers);
            met.after_a_19 += usize::from(said.iter().any(|said| said.number == 19));
        }
    }
}

impl Met {
    fn count(&mut self, named: Blocker, blockers: &[Blocker]) {
        let asked_before = named.why == Why::AskedBefore;
        let held = blockers.iter().any(|blocker| blocker.why != Why::AskedBefore);
        self.waits += 1;
        self.behind_several += usize::from(blockers.len() > 1);
        self.named_asked_before += usize::from(asked_before);
        self.holders_are_higher += usize::from(asked_before && held);
    }
}

#[test]
fn every_3_of_the_examples_names_the_lowest_in_the_way() {
    let mut met = Met::default();
    examples().iter().for_each(|lines| look_at_names(lines, &mut met));
    assert!(met.waits > 10, "{} wait", met.waits);
    assert!(met.behind_several >= 3, "{} behind several", met.behind_several);
    assert!(met.holders_are_higher >= 1, "{} before higher holders", met.holders_are_higher);
    assert!(met.after_a_19 >= 1, "{} after a 19", met.after_a_19);
}

#[test]
fn every_3_of_random_sessions_names_the_lowest_in_the_way() {
    let mut met = Met::default();
    sessions().for_each(|lines| look_at_names(&lines, &mut met));
    assert!(met.waits > 1000, "{} wait", met.waits);
    assert!(met.behind_several > 300, "{} behind several", met.behind_several);
    assert!(met.named_asked_before > 300, "{} behind earlier requests", met.named_asked_before);
    assert!(met.holders_are_higher > 50, "{} before higher holders", met.holders_are_higher);
    assert!(met.after_a_19 > 50, "{} after a 19", met.after_a_19);
}
