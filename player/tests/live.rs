//! A session that is played while it is written, at a pipe and at a terminal.

use play::live::live;
use play::transcript::transcript;
use std::cell::RefCell;
use std::fs;
use std::io::{self, BufRead, BufReader, Read, Write};
use std::path::Path;
use std::rc::Rc;

/// What is written, and how many lines could not be read.
fn played(input: &[u8], terminal: bool) -> (String, usize) {
    let mut output = Vec::new();
    let slips = live(input, &mut output, terminal, false).expect("nothing stands in the way");
    (String::from_utf8(output).expect("plain text"), slips)
}

fn at_pipe(input: &[u8]) -> (String, usize) {
    played(input, false)
}

fn at_terminal(input: &str) -> String {
    let (text, slips) = played(input.as_bytes(), true);
    assert_eq!(slips, 0, "what is wrong has been told");
    text
}

#[test]
fn at_a_pipe_it_is_the_transcript_of_the_file() {
    let examples = Path::new(env!("CARGO_MANIFEST_DIR")).join("../examples");
    for file in fs::read_dir(examples).expect("the examples are there") {
        let path = file.expect("a file").path();
        let Ok(text) = fs::read_to_string(&path) else { continue };
        let expected = transcript(&text, false);
        let (played, slips) = at_pipe(text.as_bytes());
        assert!(played == expected.text, "{}", path.display());
        assert_eq!(slips, expected.slips, "{}", path.display());
    }
}

/// Line ends of either kind, none at the end, and nothing at all; bytes that aren't UTF-8.
#[test]
fn at_a_pipe_odd_lines_are_those_of_the_file() {
    let odd: [&[u8]; 8] = [
        b"",
        b"\n\n",
        b"1 begin",
        b"1 begin\r\n1 commit\r\n",
        b"1 begin\r",
        b"1 begin # \xff\xfe\n\xc3\n\xe2\x82",
        b"show\nhelp\nquit\n1 begin\n",
        b"\0\n1 begin\0\n",
    ];
    for bytes in odd {
        let expected = transcript(&String::from_utf8_lossy(bytes), false);
        assert_eq!(at_pipe(bytes), (expected.text, expected.slips), "{bytes:?}");
    }
}

#[test]
fn the_records_are_shown_in_hex_where_that_is_asked() {
    let session = "1 begin\n1 read 5..9\n";
    let mut output = Vec::new();
    live(session.as_bytes(), &mut output, false, true).expect("nothing stands in the way");
    assert_eq!(String::from_utf8(output), Ok(transcript(session, true).text));
}

#[test]
fn a_very_long_line_is_played_like_any_other() {
    let comment = format!("1 begin # {}\n1 commit\n", "long ".repeat(300_000));
    let (text, slips) = at_pipe(comment.as_bytes());
    assert!(text.ends_with("   2  1 commit\n          1: committed (0)\n"));
    assert_eq!(slips, 0);
    let word = format!("{}\n1 begin\n", "x".repeat(1_000_000));
    let (text, slips) = at_pipe(word.as_bytes());
    assert!(text.ends_with("   2  1 begin\n          1: begun (0)\n"));
    assert_eq!(slips, 1);
}

/// Writes down each line that is read, and what is flushed.
type Noted = Rc<RefCell<Vec<String>>>;

struct Asker(std::vec::IntoIter<&'static str>, Noted);

impl Read for Asker {
    fn read(&mut self, buffer: &mut [u8]) -> io::Result<usize> {
        let line = self.0.next().unwrap_or_default();
        self.1.borrow_mut().push(format!("read {}", line.trim_end()));
        buffer[..line.len()].copy_from_slice(line.as_bytes());
        Ok(line.len())
    }
}

struct Answerer(String, Noted);

impl Write for Answerer {
    fn write(&mut self, bytes: &[u8]) -> io::Result<usize> {
        self.0 += str::from_utf8(bytes).expect("plain text");
        Ok(bytes.len())
    }

    fn flush(&mut self) -> io::Result<()> {
        self.1.borrow_mut().push(std::mem::take(&mut self.0));
        Ok(())
    }
}

#[test]
fn a_line_is_answered_before_the_next_is_read() {
    let noted = Noted::default();
    let asker = Asker(vec!["1 begin\n", "1 commit\n"].into_iter(), noted.clone());
    let answerer = Answerer(String::new(), noted.clone());
    live(BufReader::new(asker), answerer, false, false).expect("nothing stands in the way");
    let expected = [
        "read 1 begin",
        "   1  1 begin\n          1: begun (0)\n",
        "read 1 commit",
        "   2  1 commit\n          1: committed (0)\n",
        "read ",
    ];
    assert_eq!(*noted.borrow(), expected);
}

#[test]
fn a_prompt_is_out_before_a_line_is_read_at_a_terminal() {
    let noted = Noted::default();
    let asker = Asker(vec!["1 begin\n"].into_iter(), noted.clone());
    let answerer = Answerer(String::new(), noted.clone());
    live(BufReader::new(asker), answerer, true, false).expect("nothing stands in the way");
    let noted = noted.borrow();
    assert!(noted[0].ends_with("   1> "), "{:?}", noted[0]);
    assert_eq!(noted[1..], ["read 1 begin", "          1: begun (0)\n   2> ", "read "]);
}

const GREETING: &str =
    "A request a line, such as 1 begin. Besides: show, help, quit (or the end of input, Ctrl-D).\n";

#[test]
fn at_a_terminal_a_slip_is_told_and_it_goes_on() {
    let expected = format!(
        "{GREETING}   1>           1: begun (0)
   2>           line 2 can't be read: 'bgin' is no request: begin, commit, rollback, read, insert or delete
   3>    3>    4>           1: committed (0)
   5> "
    );
    assert_eq!(at_terminal("1 begin\n1 bgin\n\n# a comment\n1 commit\nquit\n1 begin\n"), expected);
}

#[test]
fn at_a_terminal_the_end_of_input_leaves_on_a_line_of_its_own() {
    assert_eq!(at_terminal(""), format!("{GREETING}   1> \n"));
    assert_eq!(at_terminal("1 begin"), format!("{GREETING}   1>           1: begun (0)\n   2> \n"));
}

#[test]
fn show_draws_where_things_stand_after_the_last_request() {
    let text = at_terminal("1 begin\n1 insert 5 record 7\nshow\n# quiet\n oops\n show \nquit\n");
    let drawn = "After line 2: 1 insert 5 record 7
this session: 1 entry, 1 level, 2 of 64 pages used

page 1, leaf, from the start: 1 of 24 entries
    5    record 7  owned by 1, before: absent  X by 1
    end
";
    assert_eq!(text.matches(drawn).count(), 2);
    assert!(at_terminal("show").contains("Before the first request\nthis session: 0 entries"));
}

#[test]
fn help_says_what_can_be_typed() {
    let text = at_terminal("help\n");
    for word in ["show ", "help ", "quit ", "1 begin", "1 read 50..150", "2 insert 100 record 7"] {
        assert!(text.contains(word), "{word}");
    }
    assert!(!text.contains("--"), "options can't be typed");
}

/// A reader whose bytes end with an error: it is handed on, after what came before is answered.
#[test]
fn what_cannot_be_read_is_an_error() {
    struct Broken(&'static [u8]);
    impl Read for Broken {
        fn read(&mut self, buffer: &mut [u8]) -> io::Result<usize> {
            if self.0.is_empty() {
                return Err(io::Error::other("gone"));
            }
            self.0.read(buffer)
        }
    }
    let mut output = Vec::new();
    let input: &mut dyn BufRead = &mut BufReader::new(Broken(b"1 begin\n"));
    assert!(live(input, &mut output, false, false).is_err());
    assert_eq!(output, b"   1  1 begin\n          1: begun (0)\n");
}
