//! Records by their bytes (document 01, Records and pages, and the first of Overs to bowl at it).

use play::text::parse;
use play::transcript::{hex, transcript};

fn bytes(line: &str) -> String {
    hex(&parse(line).expect(line).expect(line).for_the_desk().record())
}

#[test]
fn requests_are_written_as_the_document_says() {
    assert_eq!(bytes("1 begin"), "08 00 01 00 01 00 00 00");
    assert_eq!(bytes("2 commit"), "08 00 02 00 02 00 00 00");
    assert_eq!(bytes("16 rollback"), "08 00 03 00 10 00 00 00");
    assert_eq!(
        bytes("1 read 50..150"),
        "18 00 04 00 01 00 00 00 32 00 00 00 00 00 00 00 96 00 00 00 00 00 00 00"
    );
    assert_eq!(
        bytes("1 insert 7/3 record 258"),
        "18 00 05 00 01 00 00 00 03 00 00 00 07 00 00 00 02 01 00 00 00 00 00 00"
    );
    assert_eq!(bytes("1 delete 100"), "10 00 06 00 01 00 00 00 64 00 00 00 00 00 00 00");
}

/// "Then 1 commits. The commit writes, whole: ..."
#[test]
fn the_first_case_byte_for_byte() {
    let session = "1 begin\n1 insert 100 record 7\n2 begin\n2 read 50..150\n1 commit\n";
    let played = transcript(session, true).text;
    let expected = "   5  1 commit
          request 08 00 02 00 01 00 00 00
          1: committed (0)
          answer  14 00 07 00 01 00 00 00 00 00 00 00 00 00 00 00 00 00 00 00
          2 (asked in line 4): found 100 with record 7 (1)
          answer  14 00 07 00 02 00 01 00 64 00 00 00 00 00 00 00 07 00 00 00
";
    assert!(played.ends_with(expected), "{played}");
}

/// "Answer 3 then carries that number in its record field" (document 02, request 4); its key is zero.
#[test]
fn a_3_names_who_is_in_the_way() {
    let session = "1 begin\n1 insert 100 record 7\n2 begin\n2 read 50..150\n";
    let played = transcript(session, true).text;
    let expected = "
          2: waits behind 1, who holds X on 100 (3)
          answer  14 00 07 00 02 00 03 00 00 00 00 00 00 00 00 00 01 00 00 00
";
    assert!(played.ends_with(expected), "{played}");
}

/// "10 to 12 .. no record": there is a request to show, and no answer.
#[test]
fn a_refusal_by_the_call_has_no_answer_record() {
    let expected = "   1  1 read 5..4
          request 18 00 04 00 01 00 00 00 05 00 00 00 00 00 00 00 04 00 00 00 00 00 00 00
          1: refused: the range ends before it starts (12)
";
    assert_eq!(transcript("1 read 5..4\n", true).text, expected);
}
