//! The program around the desk (document 01, Records and pages, last paragraph).

use crate::desk::{ANSWERS_LENGTH, fresh, serve};
use crate::layout::answer::number;
use crate::layout::little_endian::u16_at;

/// What the program writes for an input: it "starts fresh, reads request records from standard
/// input, writes only the answer records, and stops at the first number 12 or the end".
pub fn program(input: &[u8]) -> Vec<u8> {
    let mut picture = fresh();
    let mut rest = input;
    let mut output = Vec::new();
    while let Some((record, after)) = split_record(rest) {
        let mut answers = [0; ANSWERS_LENGTH];
        let returned = serve(&mut picture.pages, &mut picture.desk, &mut answers, record);
        if returned.number == number::BAD_REQUEST {
            break;
        }
        output.extend(&answers[..returned.written]);
        rest = after;
    }
    output
}

/// The first record of the input by its own length field, and the input after it. A rest that is
/// shorter than that, or than two bytes, holds no record: it is a bad one, and stops the program
/// just as the end does.
fn split_record(input: &[u8]) -> Option<(&[u8], &[u8])> {
    if input.len() < 2 {
        return None;
    }
    input.split_at_checked(usize::from(u16_at(input, 0)))
}
