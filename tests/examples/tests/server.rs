//! The tablet server in C and in Rust: both say what `server.out` has, which was worked out by hand
//! from document 01, and save the same picture; what is not a picture is refused.

use examples::{cargo_run, compiled_c, refused_by, written_by};
use keydesk::{DESK, Desk, Key, PAGES, Request};
use std::fs;
use std::path::{Path, PathBuf};
use std::process::Command;

const SAYS: &str = include_str!("../server.out");

/// The server in one of its languages.
enum Server {
    C(PathBuf),
    Rust,
}

impl Server {
    /// Both, the one in C compiled into a directory.
    fn both(directory: &Path) -> [Server; 2] {
        [Server::C(compiled_c("server.c", directory)), Server::Rust]
    }

    /// The command that starts it, without its file.
    fn started(&self) -> Command {
        match self {
            Server::C(program) => linking::started(program),
            Server::Rust => {
                let mut cargo = cargo_run();
                cargo.args(["--bin", "server", "--"]);
                cargo
            }
        }
    }

    fn on(&self, file: &Path) -> Command {
        let mut command = self.started();
        command.arg(file);
        command
    }
}

/// An empty directory for one test.
fn directory(name: &str) -> PathBuf {
    let directory = Path::new(env!("CARGO_TARGET_TMPDIR")).join(name);
    if directory.exists() {
        fs::remove_dir_all(&directory).expect("what an earlier run left can be removed");
    }
    fs::create_dir_all(&directory).expect("a directory can be made");
    directory
}

/// The picture with these balls of pupil 7 settled and nobody running, asked without any detour.
fn settled(balls: &[(u32, u32)]) -> Desk {
    let mut desk = Desk::fresh();
    let inserts = balls.iter().map(|(ball, record)| Request::insert(1, Key::of(7, *ball), *record));
    let requests = [Request::begin(1)].into_iter().chain(inserts).chain([Request::commit(1)]);
    requests.for_each(|request| assert_eq!(desk.ask(request).map(|answers| answers.len()), Ok(1)));
    desk
}

/// What a server says that starts with a saved picture: no day.
fn says_from_loading() -> &'static str {
    &SAYS[SAYS.find("loaded").expect("a line of its own")..]
}

#[test]
fn both_say_what_document_01_says_and_save_the_same_picture() {
    let directory = directory("server-day");
    for server in Server::both(&directory) {
        let file = directory.join("saved");
        assert_eq!(written_by(&mut server.on(&file)), SAYS);
        let saved = fs::read(&file).expect("a file was saved");
        assert_eq!(saved.len(), PAGES + DESK);
        assert_eq!(Desk::load(&saved), Ok(settled(&[(20, 502), (30, 503), (40, 504)])));
        assert!(!directory.join("saved.new").exists(), "the new file was renamed");
        fs::remove_file(&file).expect("the file can be removed");
    }
}

/// Each goes on from what the other has saved.
#[test]
fn a_file_that_is_there_is_loaded_and_left_as_it_is() {
    let directory = directory("server-again");
    let file = directory.join("saved");
    let saved = settled(&[(20, 502), (30, 503), (40, 504)]).saved();
    fs::write(&file, &saved).expect("a file can be written");
    for server in Server::both(&directory) {
        assert_eq!(written_by(&mut server.on(&file)), says_from_loading());
        assert!(fs::read(&file).expect("the file is there") == saved);
    }
}

#[test]
fn a_damaged_file_is_refused_and_left_as_it_is() {
    let directory = directory("server-damaged");
    let file = directory.join("saved");
    let whole = settled(&[(20, 502)]).saved();
    let mut damaged = whole.clone();
    damaged[PAGES + DESK - 1] ^= 1;
    let longer = [&whole[..], &[0]].concat();
    let cases = [
        (&damaged[..], "the picture isn't whole"),
        (&whole[..PAGES], "a buffer has the wrong length"),
        (&longer, "a buffer has the wrong length"),
        (&[], "a buffer has the wrong length"),
    ];
    for server in Server::both(&directory) {
        for (bytes, why) in cases {
            fs::write(&file, bytes).expect("a file can be written");
            let said = refused_by(&mut server.on(&file));
            let expected = format!("server: the saved picture is refused: {why}\n");
            assert!(said.ends_with(&expected), "{said}");
            assert!(fs::read(&file).expect("the file is there") == bytes);
        }
    }
}

#[test]
fn a_server_without_a_file_says_how_it_is_used() {
    for server in Server::both(&directory("server-usage")) {
        let said = refused_by(&mut server.started());
        assert!(said.ends_with("server: usage: server FILE\n"), "{said}");
    }
}

#[test]
fn a_picture_that_cannot_be_saved_stops_the_server() {
    let directory = directory("server-nowhere");
    for server in Server::both(&directory) {
        let file = directory.join("missing").join("saved");
        let ended = server.on(&file).output().expect("the command can be started");
        let said = String::from_utf8_lossy(&ended.stderr);
        assert!(!ended.status.success());
        assert!(said.contains("server: the picture can't be saved"), "{said}");
    }
}
