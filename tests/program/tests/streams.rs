//! The program beside the model's, stream by stream: what it answers, and why it says that it has
//! stopped.

use model::generators::random::Random;
use model::generators::requests::Bias;
use model::program::program;
use program::{Ended, Running, expected, keydesk, output_of, session};
use std::fs::File;
use std::process::Stdio;

const BEGIN_1: [u8; 8] = [8, 0, 1, 0, 1, 0, 0, 0];
const COMMIT_1: [u8; 8] = [8, 0, 2, 0, 1, 0, 0, 0];
const DONE_1: [u8; 20] = [20, 0, 7, 0, 1, 0, 0, 0, 0, 0, 0, 0, 0, 0, 0, 0, 0, 0, 0, 0];

#[test]
fn sessions_in_pieces_of_any_length() {
    for (seed, bias) in (0..).zip(Bias::ALL) {
        let input = session(seed, bias, 700).concat();
        let expected = expected(&input);
        assert!(expected.answers.len() > 700 * 10, "most requests are answered");
        for piece in [1 + seed as usize, 24, 4096, input.len()] {
            assert!(output_of(&input, piece) == expected, "seed {seed}, pieces of {piece}");
        }
    }
}

#[test]
fn an_answer_comes_before_the_next_record() {
    let mut running = Running::start();
    let mut sent = Vec::new();
    let mut answered = Vec::new();
    for record in session(7, Bias::WAITS, 120) {
        running.write(&record);
        sent.extend(record);
        let so_far = program(&sent);
        let more = running.read(so_far.len() - answered.len());
        answered.extend(more);
        assert_eq!(answered, so_far);
    }
    let why = format!("keydesk: the input ended, at byte {}\n", sent.len());
    assert_eq!(running.end(), Ended { answers: vec![], why });
}

#[test]
fn it_stops_at_the_first_12_and_at_a_rest() {
    let mut random = Random::new(11);
    let records = session(3, Bias::GHOSTS, 60);
    let bad: [&[u8]; 8] = [
        &[0, 0],
        &[1, 0],
        &[6, 0, 1, 0, 1, 0],
        &[8, 0, 9, 0, 1, 0, 0, 0],
        &[8, 0, 1, 0, 17, 0, 0, 0],
        &[8, 0, 1, 0, 1, 0, 1, 0],
        &[255, 255],
        &[25, 0, 4, 0, 1, 0, 0, 0],
    ];
    for bytes in bad {
        let place = random.between(1, records.len());
        let before = records[..place].concat();
        let input = [&before, bytes, &records[place..].concat()].concat();
        let stops = |wrong: &str| Ended {
            answers: program(&before),
            why: format!("keydesk: {wrong} record at byte {}\n", before.len()),
        };
        assert_eq!(output_of(&input, 13), stops("bad"));
        assert_eq!(expected(&input), stops("bad"), "nothing behind it is answered");
        assert_eq!(output_of(&[&before, &bytes[..1]].concat(), 13), stops("cut"));
    }
}

#[test]
fn a_12_ends_it_while_the_input_stays_open() {
    for bad in [&[255, 255][..], &[25, 0], &[8, 0, 9, 0, 1, 0, 0, 0]] {
        let mut running = Running::start();
        running.write(&BEGIN_1);
        assert_eq!(running.read(20), DONE_1);
        running.write(bad);
        running.write(&COMMIT_1);
        let why = "keydesk: bad record at byte 8\n".to_string();
        let ended = Ended { answers: vec![], why };
        assert_eq!(running.ended(), ended, "the commit behind it is not answered");
    }
}

#[test]
fn no_input_gives_no_output() {
    let said = |why: &str| Ended { answers: vec![], why: format!("keydesk: {why}\n") };
    assert_eq!(output_of(&[], 1), said("the input ended, at byte 0"));
    assert_eq!(output_of(&[8], 1), said("cut record at byte 0"));
}

/// Every record of a session cut at every byte.
#[test]
fn a_cut_record_is_named_by_its_byte() {
    let records = session(5, Bias::WAITS, 12);
    let input = records.concat();
    for cut in 0..=input.len() {
        let ended = output_of(&input[..cut], 64);
        assert_eq!(ended, expected(&input[..cut]), "cut at {cut}");
        let whole = records.iter().scan(0, |at, record| {
            *at += record.len();
            Some(*at)
        });
        let at = [0].into_iter().chain(whole).filter(|at| *at <= cut).max().expect("0 is one");
        assert!(ended.why.ends_with(&format!(" byte {at}\n")), "{}", ended.why);
        assert_eq!(ended.why.contains("cut record"), at < cut, "{}", ended.why);
    }
}

/// A device that takes no byte: the answers to the first record are lost, and that is said.
#[test]
fn a_write_that_fails_is_not_silent() {
    let full = File::options().write(true).open("/dev/full").expect("Linux has it");
    let input = File::open(concat!(env!("CARGO_MANIFEST_DIR"), "/../../crates/keydesk/stdin"));
    let mut command = keydesk();
    command.stdin(input.expect("the gate's stream")).stdout(full).stderr(Stdio::piped());
    let ended = command.output().expect("the program can be started");
    let said = "keydesk: a write failed, of the answers to the record at byte 0\n";
    assert_eq!(String::from_utf8_lossy(&ended.stderr), said);
}

/// A folder can be opened and not read.
#[test]
fn a_read_that_fails_is_not_taken_for_the_end() {
    let folder = File::open("/").expect("a folder can be opened");
    let ended = keydesk().stdin(folder).output().expect("the program can be started");
    assert_eq!(String::from_utf8_lossy(&ended.stderr), "keydesk: a read failed, at byte 0\n");
    assert_eq!(ended.stdout, []);
}

/// The streams that `rt ci` runs the program on, one that ends with a good record and one that a
/// bad record ends: their expected outputs were written by hand from document 01.
#[test]
fn the_streams_beside_the_program_are_answered_as_the_model_does() {
    let ends: (&[u8], &[u8]) = (
        include_bytes!("../../../crates/keydesk/stdin"),
        include_bytes!("../../../crates/keydesk/stdout"),
    );
    let stops: (&[u8], &[u8]) = (
        include_bytes!("../../../crates/testing_stops/stdin"),
        include_bytes!("../../../crates/testing_stops/stdout"),
    );
    for (input, answers) in [ends, stops] {
        assert_eq!(program(input), answers);
        assert_eq!(output_of(input, 5), expected(input));
    }
}
