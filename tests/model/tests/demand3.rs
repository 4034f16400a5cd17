//! The checker of demand 3 is itself checked: made-up answers and pictures that break the demand
//! are caught, and those that keep it are not.

use model::demand3::Breach;
use model::demand3::told::Told;
use model::demand3::turned_away;
use model::demand3::waits::{self, Waits};
use model::entry::Entry;
use model::key::Key;
use model::layout::answer::Answer;
use model::layout::desk::{Lock, Mode, Slot, Transaction};
use model::layout::pages::Page;
use model::layout::request::{KeyRequest, Request, RequestKind};
use model::picture::Tables;

const BEGIN: RequestKind = RequestKind::Begin;
const COMMIT: RequestKind = RequestKind::Commit;
const ROLLBACK: RequestKind = RequestKind::Rollback;

fn read(lo: u64, hi: u64) -> RequestKind {
    RequestKind::Keys(KeyRequest::Read { lo: Key(lo), hi: Key(hi) })
}

fn insert(key: u64, record: u32) -> RequestKind {
    RequestKind::Keys(KeyRequest::Insert { key: Key(key), record })
}

fn delete(key: u64) -> RequestKind {
    RequestKind::Keys(KeyRequest::Delete { key: Key(key) })
}

/// One call that gives the asker this number and nobody else an answer.
fn hear(told: &mut Told, asker: u16, kind: RequestKind, number: u16) -> Result<(), Breach> {
    hear_all(told, asker, kind, &[Answer::plain(asker, number)])
}

fn hear_all(
    told: &mut Told,
    asker: u16,
    kind: RequestKind,
    answers: &[Answer],
) -> Result<(), Breach> {
    told.hear(&Request { transaction: asker, kind }, answers)
}

/// Settled 10 and 20 with records 1 and 2; transactions 1 and 2 have begun.
fn two_keys_and_two_transactions() -> Told {
    let mut told = Told::fresh();
    for (kind, number) in [(BEGIN, 0), (insert(10, 1), 0), (insert(20, 2), 0), (COMMIT, 0)] {
        hear(&mut told, 3, kind, number).expect("settling keeps demand 3");
    }
    hear(&mut told, 1, BEGIN, 0).expect("a begin keeps demand 3");
    hear(&mut told, 2, BEGIN, 0).expect("a begin keeps demand 3");
    told
}

/// "Lo..hi (2 to a read)": both ends and between, and nothing outside.
#[test]
fn a_read_that_found_nothing_is_told_about_lo_to_hi() {
    for (key, is_told) in [(11, false), (12, true), (15, true), (18, true), (19, false)] {
        let mut told = two_keys_and_two_transactions();
        assert_eq!(hear(&mut told, 1, read(12, 18), 2), Ok(()));
        let breach = Breach::ChangedByAnother { told: 1, by: 2, key: Key(key) };
        let expected = if is_told { Err(breach) } else { Ok(()) };
        assert_eq!(hear(&mut told, 2, insert(key, 0), 0), expected);
    }
}

/// "Lo to the key found (1)": up to the key, and not up to hi.
#[test]
fn a_read_that_found_a_key_is_told_about_lo_to_that_key() {
    for (change, key, is_told) in [
        (insert(14, 0), 14, false),
        (insert(15, 0), 15, true),
        (delete(20), 20, true),
        (insert(21, 0), 21, false),
    ] {
        let mut told = two_keys_and_two_transactions();
        let found = [Answer::showing(1, 1, Key(20), 2)];
        assert_eq!(hear_all(&mut told, 1, read(15, 90), &found), Ok(()));
        let breach = Breach::ChangedByAnother { told: 1, by: 2, key: Key(key) };
        let expected = if is_told { Err(breach) } else { Ok(()) };
        assert_eq!(hear(&mut told, 2, change, 0), expected);
    }
}

/// "The key (2 to a delete, 16)".
#[test]
fn a_delete_of_nothing_and_a_key_already_there_are_told_about_the_key() {
    let mut told = two_keys_and_two_transactions();
    assert_eq!(hear(&mut told, 1, delete(15), 2), Ok(()));
    assert_eq!(hear(&mut told, 2, insert(14, 0), 0), Ok(()));
    let breach = Breach::ChangedByAnother { told: 1, by: 2, key: Key(15) };
    assert_eq!(hear(&mut told, 2, insert(15, 0), 0), Err(breach));

    let mut told = two_keys_and_two_transactions();
    let present = [Answer::showing(1, 16, Key(20), 2)];
    assert_eq!(hear_all(&mut told, 1, insert(20, 7), &present), Ok(()));
    let breach = Breach::ChangedByAnother { told: 1, by: 2, key: Key(20) };
    assert_eq!(hear(&mut told, 2, delete(20), 0), Err(breach));
}

/// One's own changes and those before the answer or after the end don't count.
#[test]
fn only_changes_by_another_since_the_answer_count() {
    let mut told = two_keys_and_two_transactions();
    assert_eq!(hear(&mut told, 2, insert(15, 0), 0), Ok(()));
    assert_eq!(hear(&mut told, 2, delete(15), 0), Ok(()));
    assert_eq!(hear(&mut told, 2, COMMIT, 0), Ok(()));
    assert_eq!(hear(&mut told, 1, read(12, 18), 2), Ok(()));
    assert_eq!(hear(&mut told, 1, insert(15, 0), 0), Ok(()));
    assert_eq!(hear(&mut told, 1, COMMIT, 0), Ok(()));
    assert_eq!(hear(&mut told, 1, BEGIN, 0), Ok(()));
    assert_eq!(hear(&mut told, 2, BEGIN, 0), Ok(()));
    assert_eq!(hear(&mut told, 2, delete(15), 0), Ok(()));
}

/// A desk that took another's ghost for nothing is found out when that one rolls back.
#[test]
fn a_rollback_is_a_change() {
    let mut told = two_keys_and_two_transactions();
    assert_eq!(hear(&mut told, 2, delete(20), 0), Ok(()));
    assert_eq!(hear(&mut told, 1, read(12, 30), 2), Ok(()));
    let breach = Breach::ChangedByAnother { told: 1, by: 2, key: Key(20) };
    assert_eq!(hear(&mut told, 2, ROLLBACK, 0), Err(breach));
}

/// A delete and an insert of the same record leave nothing for the rollback to change.
#[test]
fn a_rollback_to_the_same_record_is_no_change() {
    let mut told = two_keys_and_two_transactions();
    assert_eq!(hear(&mut told, 2, delete(20), 0), Ok(()));
    assert_eq!(hear(&mut told, 2, insert(20, 2), 0), Ok(()));
    let found = [Answer::showing(1, 1, Key(20), 2)];
    assert_eq!(hear_all(&mut told, 1, read(12, 30), &found), Ok(()));
    assert_eq!(hear(&mut told, 2, ROLLBACK, 0), Ok(()));
}

/// Within a call, answers count in the order they are given.
#[test]
fn a_waiting_request_is_heard_when_it_is_answered() {
    let mut told = two_keys_and_two_transactions();
    assert_eq!(hear(&mut told, 1, insert(15, 7), 0), Ok(()));
    assert_eq!(hear_all(&mut told, 2, read(12, 18), &[Answer::waiting(2, 1)]), Ok(()));
    let found = Answer::showing(2, 1, Key(15), 7);
    assert_eq!(hear_all(&mut told, 1, COMMIT, &[Answer::plain(1, 0), found]), Ok(()));
    assert_eq!(hear(&mut told, 3, BEGIN, 0), Ok(()));
    let breach = Breach::ChangedByAnother { told: 2, by: 3, key: Key(15) };
    assert_eq!(hear(&mut told, 3, delete(15), 0), Err(breach));
}

#[test]
fn untrue_answers_are_caught() {
    let shown = |number, key, record| [Answer::showing(1, number, Key(key), record)];
    let cases = [
        (read(5, 25), shown(1, 20, 2), "10 comes first"),
        (read(5, 25), shown(1, 10, 2), "10 has another record"),
        (read(11, 15), shown(1, 20, 2), "20 is above hi"),
        (read(5, 25), shown(2, 0, 0), "10 is there"),
        (insert(10, 5), shown(0, 0, 0), "10 is there"),
        (insert(15, 5), shown(16, 15, 5), "15 is not there"),
        (delete(15), shown(0, 0, 0), "15 is not there"),
        (delete(10), shown(2, 0, 0), "10 is there"),
    ];
    for (kind, answers, why) in cases {
        let mut told = two_keys_and_two_transactions();
        let untrue = Breach::Untrue { transaction: 1, number: answers[0].number };
        assert_eq!(hear_all(&mut told, 1, kind, &answers), Err(untrue), "{why}");
    }
}

/// A 3 without a key that names another running transaction (document 02, [4]): not 0, not the asker,
/// not 4 and 17, which don't run, and not 2^16 + 2, whose low half is 2.
#[test]
fn a_3_that_names_nobody_who_runs_is_caught() {
    for named in [0, 1, 4, 17, 65_538] {
        let mut told = two_keys_and_two_transactions();
        let untrue = Err(Breach::Untrue { transaction: 1, number: 3 });
        let answer = Answer { record: named, ..Answer::waiting(1, 2) };
        assert_eq!(hear_all(&mut told, 1, read(12, 18), &[answer]), untrue, "{named} is named");
    }
    let mut told = two_keys_and_two_transactions();
    let untrue = Err(Breach::Untrue { transaction: 1, number: 3 });
    let with_a_key = Answer { key: Key(20), ..Answer::waiting(1, 2) };
    assert_eq!(hear_all(&mut told, 1, read(12, 18), &[with_a_key]), untrue);
    assert_eq!(hear_all(&mut told, 1, read(12, 18), &[Answer::waiting(1, 2)]), Ok(()));
}

#[test]
fn answers_without_a_request_are_caught() {
    let not_an_answer = |transaction, number| Err(Breach::NotAnAnswer { transaction, number });
    let mut told = two_keys_and_two_transactions();
    let to_one_not_waiting = [Answer::plain(1, 0), Answer::plain(2, 2)];
    assert_eq!(hear_all(&mut told, 1, COMMIT, &to_one_not_waiting), not_an_answer(2, 2));
    let mut told = two_keys_and_two_transactions();
    assert_eq!(hear(&mut told, 1, BEGIN, 0), not_an_answer(1, 0));
    assert_eq!(hear(&mut told, 1, BEGIN, 14), not_an_answer(1, 14));
    assert_eq!(hear(&mut told, 5, BEGIN, 13), not_an_answer(5, 13));
    assert_eq!(hear(&mut told, 5, COMMIT, 0), not_an_answer(5, 0));
    assert_eq!(hear(&mut told, 5, COMMIT, 15), not_an_answer(5, 15));
    assert_eq!(hear(&mut told, 1, ROLLBACK, 15), not_an_answer(1, 15));
    assert_eq!(hear(&mut told, 1, COMMIT, 15), not_an_answer(1, 15));
    assert_eq!(hear(&mut told, 1, read(12, 18), 16), not_an_answer(1, 16));
    assert_eq!(hear(&mut told, 1, delete(12), 18), not_an_answer(1, 18));
    assert_eq!(hear_all(&mut told, 1, read(12, 18), &[Answer::waiting(1, 2)]), Ok(()));
    assert_eq!(hear(&mut told, 1, COMMIT, 0), not_an_answer(1, 0));
    assert_eq!(hear(&mut told, 1, COMMIT, 15), Ok(()));
}

/// Transactions 1 to 16 run; settled keys 10, 20, up to 160, of which each transaction holds its
/// own in mode X.
fn sixteen_holders() -> Tables {
    let mut tables = Tables::fresh();
    let keys = (1..=16u16).map(|transaction| (transaction, Key(u64::from(transaction) * 10)));
    let entries = keys.clone().map(|(_, key)| Entry::settled(key, 0)).collect();
    tables.index.pages.insert(1, Page::Leaf(entries));
    for (transaction, name) in keys {
        tables.desk.set_transaction(transaction, Transaction::Running);
        let lock = Lock { name, holder: transaction, mode: Mode::X };
        tables.desk.slots[usize::from(transaction)] = Slot::Taken(lock);
    }
    tables
}

/// Lets a transaction wait to read the key that another holds.
fn wait_for(tables: &mut Tables, waiter: u16, holder: u16) {
    let key = Key(u64::from(holder) * 10);
    let read = KeyRequest::Read { lo: key, hi: key };
    tables.desk.set_transaction(waiter, Transaction::Waiting(read));
    tables.desk.queue.push(waiter);
}

#[test]
fn a_chain_of_fifteen_waiting_ends() {
    let mut tables = sixteen_holders();
    for waiter in 1..=15 {
        wait_for(&mut tables, waiter, waiter + 1);
    }
    assert_eq!(waits::check(&tables), Ok(()));
    assert_eq!(Waits::of(&tables).shortest_circle(1), None);
}

#[test]
fn a_circle_of_sixteen_is_caught() {
    let mut tables = sixteen_holders();
    for waiter in 1..=16 {
        wait_for(&mut tables, waiter, waiter % 16 + 1);
    }
    assert_eq!(waits::check(&tables), Err(Breach::WaitsInACircle { waiter: 1 }));
    assert_eq!(Waits::of(&tables).shortest_circle(9), Some(16));
}

#[test]
fn waiting_behind_nobody_is_caught() {
    let mut tables = sixteen_holders();
    wait_for(&mut tables, 3, 3);
    assert_eq!(waits::check(&tables), Err(Breach::WaitsBehindNobody { waiter: 3 }));
}

#[test]
fn waiting_behind_one_that_is_not_running_is_caught() {
    let mut tables = sixteen_holders();
    wait_for(&mut tables, 3, 4);
    tables.desk.set_transaction(4, Transaction::NotRunning);
    assert_eq!(waits::check(&tables), Err(Breach::ChainDoesNotEnd { waiter: 3 }));
}

/// 2 and 3 hold S on 50, and 1 waits there to delete it: in the way of 4's delete are the holders 2 and
/// 3 and the earlier waiter 1.
fn two_holders_and_two_waiters() -> Tables {
    let mut tables = sixteen_holders();
    for (slot, holder) in [(0, 3), (5, 2)] {
        tables.desk.slots[slot] = Slot::Taken(Lock { name: Key(50), holder, mode: Mode::S });
    }
    for waiter in [1, 4] {
        let delete = KeyRequest::Delete { key: Key(50) };
        tables.desk.set_transaction(waiter, Transaction::Waiting(delete));
        tables.desk.queue.push(waiter);
    }
    tables
}

/// Of everyone who blocks only the lowest-numbered may be named, holder or earlier waiter.
#[test]
fn a_3_that_names_another_than_the_lowest_is_caught() {
    let tables = two_holders_and_two_waiters();
    assert_eq!(Waits::of(&tables).behind(4), Some(&[1, 2, 3].into()));
    for (waiter, lowest) in [(1, 2), (4, 1)] {
        for named in 0..=16 {
            let answers = [Answer::plain(5, 0), Answer::waiting(waiter, named)];
            let breach = Breach::NamesAnother { waiter, named: named.into() };
            let expected = if named == lowest { Ok(()) } else { Err(breach) };
            assert_eq!(waits::check_named(&tables, &answers), expected);
        }
    }
}

/// A 3 to one that doesn't wait is wrong whomever it names.
#[test]
fn a_3_to_one_that_does_not_wait_is_caught() {
    let tables = two_holders_and_two_waiters();
    let breach = Breach::NamesAnother { waiter: 6, named: 5 };
    assert_eq!(waits::check_named(&tables, &[Answer::waiting(6, 5)]), Err(breach));
}

/// The chain of the named ones, which the other checks would catch too: it goes round, comes to one
/// that waits behind nobody, or to one that doesn't run.
#[test]
fn a_named_chain_that_does_not_end_is_caught() {
    let named_chains = |tables: &Tables| Waits::of(tables).every_named_chain_ends(tables);
    let caught = |waiter| Err(Breach::NamedChainDoesNotEnd { waiter });
    let mut tables = sixteen_holders();
    for waiter in 1..=15 {
        wait_for(&mut tables, waiter, waiter + 1);
    }
    assert_eq!(named_chains(&tables), Ok(()), "fifteen links");
    wait_for(&mut tables, 16, 1);
    assert_eq!(named_chains(&tables), caught(1), "round");

    let mut tables = sixteen_holders();
    wait_for(&mut tables, 2, 3);
    wait_for(&mut tables, 3, 3);
    assert_eq!(named_chains(&tables), caught(2), "3 waits behind nobody");

    let mut tables = sixteen_holders();
    wait_for(&mut tables, 3, 4);
    tables.desk.set_transaction(4, Transaction::NotRunning);
    assert_eq!(named_chains(&tables), caught(3), "4 doesn't run");
}

/// "Circles, and demand 3's links, still go by everyone who blocks and not only by the one named"
/// (document 02, [4]). 1 and 3 hold S on 50; 2 waits to delete it, and 3 waits for 2. From both the
/// named ones lead to 1, which runs, past the circle of 2 and 3.
#[test]
fn a_circle_past_the_one_named_is_caught() {
    let mut tables = sixteen_holders();
    for (slot, holder) in [(0, 1), (5, 3)] {
        tables.desk.slots[slot] = Slot::Taken(Lock { name: Key(50), holder, mode: Mode::S });
    }
    let delete = KeyRequest::Delete { key: Key(50) };
    tables.desk.set_transaction(2, Transaction::Waiting(delete));
    tables.desk.queue.push(2);
    wait_for(&mut tables, 3, 2);
    let waits = Waits::of(&tables);
    assert_eq!((waits.named(3), waits.named(2)), (Some(2), Some(1)));
    assert_eq!(waits.every_named_chain_ends(&tables), Ok(()));
    assert_eq!(waits::check(&tables), Err(Breach::WaitsInACircle { waiter: 2 }));
    assert!(tables.is_on_circle(2) && tables.is_on_circle(3));
}

/// 1 waits for 2 and 2 for 3; 4 waits for 1, and nobody for 4. When 3 asks for what 1 holds, the
/// circle is 1, 2, 3. Only 3 holds a second lock: of 1 and 2 the newer is 2. Its 19 opens the
/// circle, and a second one is wrong whoever gets it.
#[test]
fn a_19_to_another_than_the_lightest_is_caught() {
    let mut tables = sixteen_holders();
    tables.desk.slots[0] = Slot::Taken(Lock { name: Key::END, holder: 3, mode: Mode::S });
    for (waiter, holder) in [(1, 2), (2, 3), (4, 1)] {
        wait_for(&mut tables, waiter, holder);
    }
    let request = Request { transaction: 3, kind: read(10, 10) };
    let check = |answers: &[Answer]| turned_away::check(&request, answers, &tables);
    let told_19 = |waiter| Answer::plain(waiter, 19);
    let caught = |waiter| Err(Breach::TurnsAwayAnother { waiter });
    assert_eq!(check(&[told_19(2), Answer::waiting(3, 1)]), Ok(()));
    for wrong in [1, 3, 4] {
        assert_eq!(check(&[told_19(wrong)]), caught(wrong));
        assert_eq!(check(&[told_19(2), told_19(wrong)]), caught(wrong));
    }
}

#[test]
fn conflicting_locks_are_caught() {
    let mut tables = sixteen_holders();
    tables.desk.slots[0] = Slot::Taken(Lock { name: Key(20), holder: 1, mode: Mode::S });
    let breach = Breach::ConflictingLocks { name: Key(20), holders: (1, 2) };
    assert_eq!(waits::check(&tables), Err(breach));
}
