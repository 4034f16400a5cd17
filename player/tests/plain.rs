//! Text from outside never reaches a terminal or a picture raw: control characters, characters that
//! XML forbids, and marks that turn the direction of writing.

mod xml;

use play::plain::{cut, plain, wrapped};
use play::rows::Place;
use play::session::Session;
use play::show::show;
use play::svg::svg;
use play::text::parse;
use play::transcript::transcript;

/// Every character that isn't to be passed on: C0 without tab and line feed, DEL and C1; the marks
/// that turn the direction; what ends a line; what can't be seen; what is no character.
fn raw() -> Vec<char> {
    let controls = ('\0'..='\u{1f}').chain('\u{7f}'..='\u{9f}');
    let controls = controls.filter(|control| !['\t', '\n'].contains(control));
    let turns = ['\u{61c}', '\u{200e}', '\u{200f}'].into_iter();
    let turns = turns.chain('\u{202a}'..='\u{202e}').chain('\u{2066}'..='\u{2069}');
    let others = ['\u{2028}', '\u{2029}', '\u{200b}', '\u{2060}', '\u{feff}'];
    let none = ['\u{fdd0}', '\u{fdef}', '\u{fffe}', '\u{ffff}', '\u{1fffe}', '\u{10ffff}'];
    controls.chain(turns).chain(others).chain(none).collect()
}

/// Stops where an output has one of them.
fn check(output: &str, line: &str) {
    let raw = raw();
    for character in output.chars().filter(|character| *character != '\n') {
        let passed_on = raw.contains(&character) || character == '\t';
        assert!(!passed_on, "{} of {line:?} is passed on", character.escape_unicode());
    }
}

/// Lines that have a text in every place where a session can have one.
fn lines_with(text: &str) -> Vec<String> {
    let commented = format!("1 begin # a{text}b");
    let slips = ["T begin", "1 T", "1 read T..5", "1 insert T record 1", "1 insert 1 record T"];
    let more = ["1 delete T", "1 begin T", "T", "# T", "1 beginT", "T1 begin", "1Tbegin"];
    let slips = slips.iter().chain(&more).map(|line| line.replace('T', &format!("x{text}y")));
    slips.chain([commented, format!("1 begin{text}"), format!("{text}1 begin")]).collect()
}

#[test]
fn no_raw_character_reaches_the_transcript() {
    for character in raw() {
        for line in lines_with(&character.to_string()) {
            let played = transcript(&line, true).text;
            check(&played, &line);
            assert!(played.starts_with("   1  ") || played.starts_with("      "), "{played}");
            let slip = parse(&line).err().map_or(String::new(), |slip| slip.to_string());
            check(&slip, &line);
        }
    }
}

#[test]
fn no_raw_character_reaches_a_drawing() {
    for character in raw() {
        for line in lines_with(&character.to_string()) {
            let mut session = Session::fresh();
            session.play(1, &line);
            let name = format!("a{character}.txt");
            let place = Place { name: &name, played: Some((1, &line)) };
            check(&show(&session.standing(), &place), &line);
            let picture = svg(&session.standing(), &place);
            check(&picture, &line);
            let root = &xml::elements(&picture)[0];
            assert_eq!(root.tag.get("xmlns"), "http://www.w3.org/2000/svg");
        }
    }
}

#[test]
fn a_character_that_is_not_passed_on_is_shown_by_its_number() {
    assert_eq!(plain("\u{1b}[31mred"), "\\u{1b}[31mred");
    assert_eq!(plain("a\u{202e}b\u{9b}c\u{ffff}"), "a\\u{202e}b\\u{9b}c\\u{ffff}");
    let played = transcript("1 begin # \u{1b}[2J\n1 \u{7}\n", false).text;
    let expected = "   1  1 begin # \\u{1b}[2J
          1: begun (0)
   2  1 \\u{7}
          line 2 can't be read: '\\u{7}' is no request: begin, commit, rollback, read, insert or delete
";
    assert_eq!(played, expected);
}

#[test]
fn a_files_name_stays_in_its_line() {
    let place = Place { name: "a\nb\tc", played: None };
    let drawn = show(&Session::fresh().standing(), &place);
    assert!(drawn.contains("\na\\u{a}b c: 0 entries"), "{drawn}");
}

#[test]
fn a_tab_is_a_blank_and_other_letters_stay() {
    assert_eq!(plain("1\tbegin"), "1 begin");
    for text in ["# Schüler 7", "# 漢字", "# עברית", "# 🏏 <b> & 'so' \"on\"", "\u{fffd}"]
    {
        assert_eq!(plain(text), text);
    }
    assert_eq!(
        transcript("1\tbegin\t# so\n", false).text,
        "   1  1 begin # so\n          1: begun (0)\n"
    );
}

#[test]
fn a_byte_order_mark_in_front_is_skipped() {
    let expected = "   1  1 begin\n          1: begun (0)\n";
    assert_eq!(transcript("\u{feff}1 begin\n", false).text, expected);
    assert_eq!(transcript("\u{feff}# so\n", false).text, "      # so\n");
    assert_eq!(transcript("\u{feff}\n", false).text, "\n");
    let place = Place { name: "it", played: Some((1, "\u{feff}1 begin")) };
    assert_eq!(place.title(), "After line 1: 1 begin");
}

#[test]
fn line_ends_of_either_kind_are_played_alike() {
    let lines = ["# so", "1 begin", "1 insert 7 record 7 # a ball", "1 go", "", "1 commit"];
    let (unix, other) = (lines.join("\n"), lines.join("\r\n"));
    assert_eq!(transcript(&other, true).text, transcript(&unix, true).text);
    assert_eq!(transcript(&(other + "\r\n"), true).text, transcript(&unix, true).text);
    assert_eq!(transcript(&(unix.clone() + "\r"), true).text, transcript(&unix, true).text);
}

#[test]
fn bytes_that_are_no_text_are_slips_or_comments() {
    let bytes = b"1 begin # \xff\xfe\n\xff begin\n1 \xc3\x28\n1 commit\n";
    let played = transcript(&String::from_utf8_lossy(bytes), false);
    assert_eq!(played.slips, 2);
    let expected = "   4  1 commit\n          1: committed (0)\n";
    assert!(played.text.ends_with(expected), "{}", played.text);
}

#[test]
fn a_very_long_word_is_cut_in_a_message() {
    let slip = |line: &str| parse(line).expect_err("a slip").to_string();
    let word = "a".repeat(5000);
    let cut = format!("'{}…'", "a".repeat(22));
    let requests = "begin, commit, rollback, read, insert or delete";
    assert_eq!(slip(&format!("1 {word}")), format!("{cut} is no request: {requests}"));
    for line in ["T begin", "1 delete T", "1 insert 1 record T", "1 begin T", "1 read 1..T"] {
        let said = slip(&line.replace('T', &word));
        assert!(said.contains(&cut) && said.len() < 150, "{said}");
    }
    let nearly = "4294967296/4294967295";
    assert!(slip(&format!("1 delete {nearly}")).starts_with(&format!("'{nearly}' is no key")));
}

#[test]
fn a_text_is_cut_between_characters() {
    assert_eq!(cut("12345678", 8), "12345678");
    assert_eq!(cut("123456789", 8), "123456…");
    assert_eq!(cut("123\u{1b}456789", 8), "123…");
    assert_eq!(cut("漢字漢字", 8), "漢字漢字");
    assert_eq!(cut("漢字漢字漢", 8), "漢字漢…");
    assert_eq!(cut("", 8), "");
}

#[test]
fn a_text_is_broken_at_its_blanks() {
    assert_eq!(wrapped("one two  three", 7, 9), ["one two", "three"]);
    assert_eq!(wrapped("one two three", 8, 9), ["one two", "three"]);
    assert_eq!(wrapped("one unbreakable two", 8, 9), ["one", "unbrea…", "two"]);
    assert_eq!(wrapped("one two three four", 7, 2), ["one two", "three…"]);
    assert_eq!(wrapped("one two three four", 5, 2), ["one", "two…"]);
    assert_eq!(wrapped("", 8, 2), [""]);
}
