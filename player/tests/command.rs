//! The program by its command line: what it prints, and its exit status.

use play::sources::Source;
use play::usage::{Command as Asked, HELP, command};
use std::ffi::OsString;
use std::io::Write;
use std::path::{Path, PathBuf};
use std::process::{Output, Stdio};
use std::{env, fs, process};

fn play(arguments: &[&str]) -> Output {
    let mut program = linking::started(env!("CARGO_BIN_EXE_play"));
    program.args(arguments).current_dir(env!("CARGO_MANIFEST_DIR")).output().expect("it runs")
}

/// What comes of standard input.
fn piped(arguments: &[&str], input: &[u8]) -> Output {
    let mut program = linking::started(env!("CARGO_BIN_EXE_play"));
    program.args(arguments).stdin(Stdio::piped()).stdout(Stdio::piped()).stderr(Stdio::piped());
    let mut program = program.spawn().expect("it runs");
    program.stdin.take().expect("it is piped").write_all(input).expect("it is read");
    program.wait_with_output().expect("it ends")
}

fn printed(output: &Output) -> &str {
    str::from_utf8(&output.stdout).expect("plain text")
}

fn complained(output: &Output) -> &str {
    str::from_utf8(&output.stderr).expect("plain text")
}

/// A file of this test run alone.
fn file(name: &str) -> PathBuf {
    env::temp_dir().join(format!("play-{}-{name}", process::id()))
}

fn session(name: &str, text: &str) -> PathBuf {
    fs::write(file(name), text).expect("a session can be written");
    file(name)
}

fn path(path: &Path) -> &str {
    path.to_str().expect("a plain name")
}

#[test]
fn help() {
    let output = play(&["--help"]);
    assert_eq!(output.status.code(), Some(0));
    assert_eq!(printed(&output), HELP);
}

#[test]
fn without_a_file_it_is_the_story_of_the_namesake() {
    let output = play(&[]);
    let expected = include_str!("../../examples/expected/namesake.out");
    assert_eq!(output.status.code(), Some(0));
    assert_eq!(printed(&output), expected);
}

#[test]
fn a_line_that_cannot_be_read_is_named_and_the_rest_is_played() {
    let file = session("slip.txt", "1 begin\n1 bgin\n1 commit\n");
    let output = play(&[path(&file)]);
    let expected = "   1  1 begin
          1: begun (0)
   2  1 bgin
          line 2 can't be read: 'bgin' is no request: begin, commit, rollback, read, insert or delete
   3  1 commit
          1: committed (0)
";
    assert_eq!(printed(&output), expected);
    assert_eq!(output.status.code(), Some(1));

    let output = play(&["--show", path(&file)]);
    assert!(complained(&output).starts_with("line 2 can't be read: 'bgin' is no request"));
    assert_eq!(output.status.code(), Some(1));
    let output = play(&["--show", "1", path(&file)]);
    assert_eq!((complained(&output), output.status.code()), ("", Some(0)));
    fs::remove_file(file).expect("the session is there");
}

/// A refusal by the desk is an answer, and no slip of the session.
#[test]
fn a_refusal_leaves_the_status_0() {
    let file = session("refusal.txt", "1 read 5..4\n1 commit\n");
    let output = play(&[path(&file)]);
    assert_eq!(output.status.code(), Some(0));
    fs::remove_file(file).expect("the session is there");
}

#[test]
fn an_empty_session_and_one_without_its_last_line_end() {
    let file = session("short.txt", "");
    assert_eq!(printed(&play(&[path(&file)])), "");
    fs::write(&file, "1 begin").expect("a session can be written");
    assert_eq!(printed(&play(&[path(&file)])), "   1  1 begin\n          1: begun (0)\n");
    fs::remove_file(file).expect("the session is there");
}

#[test]
fn a_picture_is_written_to_its_file() {
    let svg = file("picture.svg");
    let output = play(&["--show", "29", "--svg", path(&svg)]);
    assert_eq!(output.status.code(), Some(0));
    assert_eq!(printed(&output), format!("{} is drawn\n", path(&svg)));
    let drawn = fs::read_to_string(&svg).expect("the picture is there");
    assert!(drawn.contains("After line 29: 2 insert 7/25 record 777"));
    fs::remove_file(svg).expect("the picture is there");
}

/// As with a file, its text and its status.
#[test]
fn standard_input_is_played_like_a_file() {
    let output = piped(&["-"], b"1 begin\n1 bgin \xff\nshow\n1 commit");
    let file = file("input.txt");
    fs::write(&file, b"1 begin\n1 bgin \xff\nshow\n1 commit").expect("it can be written");
    let expected = play(&[path(&file)]);
    assert_eq!(printed(&output), printed(&expected));
    assert!(printed(&output).ends_with("   4  1 commit\n          1: committed (0)\n"));
    assert_eq!((output.status.code(), expected.status.code()), (Some(1), Some(1)));
    let output = piped(&["--bytes", "-"], b"1 begin\n");
    assert!(printed(&output).contains("request 08 00 01 00 01 00 00 00\n"));
    assert_eq!(output.status.code(), Some(0));
    fs::remove_file(file).expect("the session is there");
}

#[test]
fn standard_input_is_drawn_like_a_file() {
    let output = piped(&["--show", "1", "-"], b"1 begin\n1 commit\n");
    assert!(printed(&output).starts_with("After line 1: 1 begin\nstandard input: 0 entries"));
    let output = piped(&["--show", "3", "-"], b"1 begin\n1 commit\n");
    assert_eq!(complained(&output), "play: standard input has 2 lines, and 3 is beyond\n");
    assert_eq!(output.status.code(), Some(2));
}

#[test]
fn a_page_is_written_to_its_file() {
    let (page, slips) = (file("page.html"), session("page.txt", "1 begin\n1 bgin\n"));
    let output = play(&["--html", path(&page)]);
    assert_eq!((complained(&output), output.status.code()), ("", Some(0)));
    assert_eq!(printed(&output), format!("{} is drawn\n", path(&page)));
    let drawn = fs::read_to_string(&page).expect("the page is there");
    assert!(drawn.starts_with("<!DOCTYPE html>"));
    assert!(drawn.contains("<title>the story: a session of the key desk</title>"));
    let output = play(&["--html", path(&page), path(&slips)]);
    assert_eq!(output.status.code(), Some(1), "a line can't be read");
    let drawn = fs::read_to_string(&page).expect("the page is there");
    assert!(drawn.contains(&format!("<title>{}: a session", path(&slips))));
    fs::remove_file(page).expect("the page is there");
    fs::remove_file(slips).expect("the session is there");
}

#[test]
fn what_cannot_be_carried_out_is_2() {
    let wrong: [(&[&str], &str); 14] = [
        (&["--shows"], "play: --shows is not known; ./play --help says what is\n"),
        (&["no such file"], "play: no such file can't be read: "),
        (&["."], "play: . can't be read: Is a directory"),
        (&["--svg"], "play: --svg needs a file to write; "),
        (&["--svg", "--show"], "play: --svg needs a file to write; "),
        (&["--html"], "play: --html needs a file to write; "),
        (&["--html", "."], "play: . can't be written: Is a directory"),
        (
            &["--html", "x", "--bytes"],
            "play: --bytes goes with playing a session, not with a drawing",
        ),
        (
            &["--html", "x", "--show"],
            "play: --html has every line, and --show and --svg draw one; ",
        ),
        (&["--html", "Cargo.toml/x"], "play: Cargo.toml/x can't be written: Not a directory"),
        (&["--show", "40"], "play: the story has 39 lines, and 40 is beyond\n"),
        (&["one", "two"], "play: one session at a time, and two is a second; "),
        (&["--bytes", "--show"], "play: --bytes goes with playing a session, not with a drawing; "),
        (
            &["--show", "--svg", "no such folder/x.svg"],
            "play: no such folder/x.svg can't be written: ",
        ),
    ];
    for (arguments, words) in wrong {
        let output = play(arguments);
        assert_eq!(output.status.code(), Some(2), "{arguments:?}");
        assert!(complained(&output).starts_with(words), "{}", complained(&output));
        assert_eq!(printed(&output), "", "{arguments:?}");
    }
}

#[test]
fn the_arguments_may_come_in_any_order() {
    let asked = |arguments: &[&str]| {
        command(&arguments.iter().map(OsString::from).collect::<Vec<OsString>>())
    };
    let file = || Source::File("a.txt".into());
    let play = |session, bytes| Ok(Asked::Play { session, bytes });
    assert_eq!(asked(&[]), play(Source::Story, false));
    assert_eq!(asked(&["-"]), play(Source::Input, false));
    assert_eq!(asked(&["a.txt", "--bytes"]), play(file(), true));
    assert_eq!(asked(&["--bytes", "a.txt"]), play(file(), true));
    let show = |after, svg| Ok(Asked::Show { session: file(), after, svg });
    assert_eq!(asked(&["--show", "a.txt"]), show(None, None));
    assert_eq!(asked(&["a.txt", "--show", "5"]), show(Some(5), None));
    assert_eq!(asked(&["--svg", "o.svg", "a.txt"]), show(None, Some("o.svg".into())));
    assert_eq!(asked(&["--show", "5", "a.txt", "--svg", "o"]), show(Some(5), Some("o".into())));
    let story = Ok(Asked::Show { session: Source::Story, after: Some(5), svg: None });
    assert_eq!(asked(&["--show", "5"]), story);
    let page = |session| Ok(Asked::Html { session, out: "o.html".into() });
    assert_eq!(asked(&["--html", "o.html"]), page(Source::Story));
    assert_eq!(asked(&["--html", "o.html", "a.txt"]), page(file()));
    assert_eq!(asked(&["-", "--html", "o.html"]), page(Source::Input));
    assert_eq!(asked(&["a.txt", "--help"]), Ok(Asked::Help));
    assert_eq!(asked(&["--nonsense", "-h"]), Ok(Asked::Help));
}
