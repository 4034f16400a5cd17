//! The program: standard input to standard output (document 01, Records and pages, last paragraph).

use model::program::program;

const BEGIN_1: [u8; 8] = [8, 0, 1, 0, 1, 0, 0, 0];
const COMMIT_1: [u8; 8] = [8, 0, 2, 0, 1, 0, 0, 0];
const DONE_1: [u8; 20] = [20, 0, 7, 0, 1, 0, 0, 0, 0, 0, 0, 0, 0, 0, 0, 0, 0, 0, 0, 0];
const NOT_RUNNING_1: [u8; 20] = [20, 0, 7, 0, 1, 0, 14, 0, 0, 0, 0, 0, 0, 0, 0, 0, 0, 0, 0, 0];

#[test]
fn it_answers_record_after_record() {
    let input = [BEGIN_1, COMMIT_1, COMMIT_1].concat();
    assert_eq!(program(&input), [DONE_1, DONE_1, NOT_RUNNING_1].concat());
    assert_eq!(program(&[]), []);
}

#[test]
fn it_stops_at_the_first_12() {
    let unknown_kind = [8, 0, 9, 0, 1, 0, 0, 0];
    assert_eq!(program(&[BEGIN_1, unknown_kind, COMMIT_1].concat()), DONE_1);
    let no_length = [0, 0];
    assert_eq!(program(&[&BEGIN_1[..], &no_length, &COMMIT_1].concat()), DONE_1);
    let short_record = [6, 0, 1, 0, 1, 0];
    assert_eq!(program(&[&BEGIN_1[..], &short_record, &COMMIT_1].concat()), DONE_1);
}

#[test]
fn it_stops_at_a_rest_that_is_no_record() {
    assert_eq!(program(&[&BEGIN_1[..], &COMMIT_1[..7]].concat()), DONE_1);
    assert_eq!(program(&[&BEGIN_1[..], &[8]].concat()), DONE_1);
    assert_eq!(program(&[&BEGIN_1[..], &[255, 255]].concat()), DONE_1);
}
