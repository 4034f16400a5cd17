//! Every session under examples/ is played and compared with its expected output, which was worked
//! out from document 01 by hand.

use play::rows::Place;
use play::session::Session;
use play::sources::Source;
use play::svg::svg;
use play::transcript::transcript;
use std::fs;
use std::path::{Path, PathBuf};

fn examples() -> PathBuf {
    Path::new(env!("CARGO_MANIFEST_DIR")).join("../examples")
}

/// The names in a folder of the files that end so, without that ending.
fn names(folder: &Path, ending: &str) -> Vec<String> {
    let files =
        fs::read_dir(folder).expect("the folder is there").map(|file| file.expect("a file"));
    let named = files.map(|file| file.file_name().into_string().expect("a plain name"));
    let mut names: Vec<String> =
        named.filter_map(|name| Some(name.strip_suffix(ending)?.to_string())).collect();
    names.sort();
    names
}

fn session(name: &str) -> String {
    fs::read_to_string(examples().join(format!("{name}.txt"))).expect("the session can be read")
}

#[test]
fn every_session_has_an_expected_output() {
    let sessions = names(&examples(), ".txt");
    assert!(sessions.len() >= 10, "there are {}", sessions.len());
    assert_eq!(sessions, names(&examples().join("expected"), ".out"));
}

#[test]
fn every_session_says_what_it_shows() {
    for name in names(&examples(), ".txt") {
        assert!(session(&name).starts_with("# "), "{name} starts with a comment");
    }
}

#[test]
fn every_session_is_played_as_expected() {
    for name in names(&examples(), ".txt") {
        let expected = examples().join("expected").join(format!("{name}.out"));
        let expected = fs::read_to_string(expected).expect("the output can be read");
        let played = transcript(&session(&name), false);
        for (number, (played, expected)) in (1..).zip(played.text.lines().zip(expected.lines())) {
            assert_eq!(played, expected, "line {number} of {name}.out");
        }
        assert_eq!(played.text, expected, "{name}");
    }
}

#[test]
fn only_the_session_of_slips_has_lines_that_cannot_be_read() {
    for name in names(&examples(), ".txt") {
        let slips = transcript(&session(&name), false).slips;
        assert_eq!(slips > 0, name == "slips", "{name} has {slips}");
    }
}

/// What README shows of the story is what is played, and its picture is what is drawn.
#[test]
fn readme_shows_the_story_as_it_is() {
    let root = Path::new(env!("CARGO_MANIFEST_DIR")).join("..");
    let read = |path: &str| fs::read_to_string(root.join(path)).expect("it can be read");
    let readme = read("README.md");
    let block = readme.split("```\n").nth(1).expect("README has a block");
    assert!(read("examples/expected/namesake.out").contains(block), "{block}");

    let mut played = Session::fresh();
    let story = session("namesake");
    for (number, line) in (1..=29).zip(story.lines()) {
        played.play(number, line);
    }
    let line = story.lines().nth(28).expect("it has so many lines");
    let place = Place { name: &Source::Story.name(), played: Some((29, line)) };
    assert_eq!(read("docs/story.svg"), svg(&played.standing(), &place));
}
