//! The script `./play`, in a folder with the files that it needs, and with an `rt` and a `cargo`
//! that do little more than write down that they were called.

use std::fs::{self, File};
use std::io::{BufRead, BufReader, Read};
use std::os::unix::fs::PermissionsExt;
use std::path::{Path, PathBuf};
use std::process::{Command, Output, Stdio};
use std::time::SystemTime;
use std::{env, process};

/// A folder of this test alone with a small repository.
struct Folder(PathBuf);

/// Proves a crate, in whose folder it is called, and makes the library where the crate is that with
/// the functions for C. That is proved each time; of others that were proved before nothing is said.
const RT: &str = "\
crate=$(basename \"$from\")
mkdir -p \"$from/out\"
[ $crate != desk_c ] || echo library >\"$from/out/libdesk_c.a\"
if [ ! -e \"$from/out/proved\" ] || [ $crate = desk_c ]; then
    echo 'library std: modules loaded=0 checked=0'
    echo \"fn $crate::f: proved\" >&2
fi
touch \"$from/out/proved\"";

/// What is called where everything is to be made.
const ALL: [&str; 5] =
    ["rt lib low", "rt lib middle", "rt lib desk", "rt lib desk_c", "cargo build"];

const RT_FAILS: &str = "\
[ $(basename \"$from\") = middle ] || { echo 'fn low::f: proved'; exit; }
echo 'fn middle::f: not proved' >&2
exit 1";

/// Makes a program that says how it was started, and what it is given to read.
const CARGO: &str = "\
mkdir -p tests/target/release
echo '#!/usr/bin/env bash' >tests/target/release/play
echo 'echo \"played $*\"; cat' >>tests/target/release/play
chmod +x tests/target/release/play";

const FILES: [&str; 10] = [
    "play",
    "tools/make",
    ".ci/x86",
    "player/help.txt",
    "player/src/arguments.rs",
    "player/src/digits.rs",
    "player/src/plain.rs",
    "player/src/sources.rs",
    "player/src/usage.rs",
    "examples/namesake.txt",
];

impl Folder {
    fn new(name: &str) -> Folder {
        let folder = Folder(env::temp_dir().join(format!("script-{}-{name}", process::id())));
        let root = Path::new(env!("CARGO_MANIFEST_DIR")).join("..");
        for file in FILES {
            folder.make_room(file);
            fs::copy(root.join(file), folder.path(file)).expect("a file can be copied");
        }
        folder.write(
            "crates.txt",
            "# low first\nlow:\nmiddle: low\ndesk: low middle\ndesk_c staticlib: desk\nother: desk\n",
        );
        for name in ["low", "middle", "desk", "desk_c", "other"] {
            folder.write(&format!("crates/{name}/src/lib.rt"), "");
        }
        folder.write("bindings/rust/Cargo.toml", "");
        folder.stub("rt", RT);
        folder.stub("cargo", CARGO);
        folder.stub("uname", "echo x86_64");
        folder
    }

    fn path(&self, file: &str) -> PathBuf {
        self.0.join(file)
    }

    fn make_room(&self, file: &str) {
        let path = self.path(file);
        fs::create_dir_all(path.parent().expect("a folder")).expect("a folder can be made");
    }

    fn write(&self, file: &str, text: &str) {
        self.make_room(file);
        fs::write(self.path(file), text).expect("a file can be written");
    }

    /// A command that writes down how it was called, and `rt` in which folder, and then does this in
    /// the repository.
    fn stub(&self, name: &str, does: &str) {
        let root = self.0.display();
        let call = if name == "rt" { "rt $* $(basename \"$from\")" } else { "{name} $*" };
        let call = call.replace("{name}", name);
        let noted = format!("from=$PWD\ncd '{root}'\necho \"{call}\" >>calls\n{does}\n");
        self.write(&format!("stubs/{name}"), &format!("#!/usr/bin/env bash\n{noted}"));
        let executable = fs::Permissions::from_mode(0o755);
        fs::set_permissions(self.path(&format!("stubs/{name}")), executable).expect("it is ours");
    }

    fn script(&self, arguments: &[&str]) -> Command {
        let path = env::var("PATH").expect("there is a path");
        let mut script = Command::new("bash");
        script.arg(self.path("play")).args(arguments).current_dir(&self.0);
        script.env("PATH", format!("{}:{path}", self.path("stubs").display()));
        script.stdin(Stdio::null());
        script
    }

    fn play(&self, arguments: &[&str]) -> Output {
        self.script(arguments).output().expect("bash is there")
    }

    /// How `rt` and `cargo` have been called since this was last asked: `rt` by all words and the
    /// crate, `cargo` by two words.
    fn calls(&self) -> Vec<String> {
        let calls = fs::read_to_string(self.path("calls")).unwrap_or_default();
        self.write("calls", "");
        let called = calls.lines().filter(|call| !call.starts_with("uname"));
        let told = |call: &str| match call.strip_prefix("cargo ") {
            Some(words) => format!("cargo {}", words.split(' ').next().expect("a word")),
            None => call.to_string(),
        };
        called.map(told).collect()
    }

    /// Changes a file now.
    fn change(&self, file: &str) {
        let file = File::options().append(true).open(self.path(file)).expect("it is there");
        file.set_modified(SystemTime::now()).expect("it is ours");
    }
}

impl Drop for Folder {
    fn drop(&mut self) {
        let _ = fs::remove_dir_all(&self.0);
    }
}

fn printed(output: &Output) -> &str {
    str::from_utf8(&output.stdout).expect("plain text")
}

fn complained(output: &Output) -> &str {
    str::from_utf8(&output.stderr).expect("plain text")
}

/// What is told of the progress, without the time so far.
fn progress(output: &Output) -> Vec<String> {
    let told = complained(output).lines().filter_map(|line| line.split_once(" left, "));
    told.map(|(said, time)| {
        assert!(time.ends_with(" s so far"), "{time}");
        said.to_string()
    })
    .collect()
}

#[test]
fn arguments_are_answered_before_anything_is_built_and_as_the_program_does() {
    let folder = Folder::new("arguments");
    folder.write("folder/session.txt", "1 begin\n");
    let wrong: [&[&str]; 16] = [
        &["--foo"],
        &["-x", "folder/session.txt"],
        &["nosuchfile"],
        &["no such file"],
        &["folder"],
        &["folder/session.txt", "another.txt"],
        &["-", "folder/session.txt"],
        &["--svg"],
        &["--svg", "--show"],
        &["--html"],
        &["--bytes", "--show", "1"],
        &["--bytes", "--html", "page.html"],
        &["--html", "page.html", "--show"],
        &["--show", "2", "folder/session.txt"],
        &["--svg", "no such folder/x.svg"],
        &["--html", "folder", "folder/session.txt"],
    ];
    for arguments in wrong {
        let answered = folder.play(arguments);
        let mut program = linking::started(env!("CARGO_BIN_EXE_play"));
        let program = program.args(arguments).current_dir(&folder.0).output().expect("it runs");
        assert_eq!(complained(&answered), complained(&program), "{arguments:?}");
        assert_eq!(complained(&answered).lines().count(), 1, "{arguments:?}");
        let statuses = (answered.status.code(), program.status.code());
        assert_eq!(statuses, (Some(2), Some(2)), "{arguments:?}");
        assert_eq!((printed(&answered), printed(&program)), ("", ""), "{arguments:?}");
    }
    assert!(folder.calls().is_empty());
}

#[test]
fn help_needs_nothing_built() {
    let folder = Folder::new("help");
    fs::remove_file(folder.path("player/src/arguments.rs")).expect("it is there");
    for arguments in [&["--help"][..], &["-h"], &["folder", "--help"]] {
        let output = folder.play(arguments);
        assert_eq!(printed(&output), include_str!("../help.txt"));
        assert_eq!((complained(&output), output.status.code()), ("", Some(0)));
    }
    assert!(folder.calls().is_empty());
}

#[test]
fn the_first_time_it_proves_and_builds_and_tells_each_crate() {
    let folder = Folder::new("first");
    let output = folder.play(&["--show", "29"]);
    assert_eq!(printed(&output), "played --show 29\n");
    assert_eq!(output.status.code(), Some(0));
    assert_eq!(folder.calls(), ALL);
    let expected = [
        "play: low proved, 3 of 4",
        "play: middle proved, 2 of 4",
        "play: desk proved, 1 of 4",
        "play: desk_c proved, 0 of 4",
    ];
    assert_eq!(progress(&output), expected);
    let first = complained(&output).lines().next().expect("it says what it does");
    assert!(first.starts_with("play: proving the desk and making its library"), "{first}");
}

#[test]
fn a_crate_that_was_proved_before_is_only_counted() {
    let folder = Folder::new("before");
    folder.write("crates/low/out/proved", "");
    let output = folder.play(&[]);
    let expected =
        ["play: middle proved, 2 of 4", "play: desk proved, 1 of 4", "play: desk_c proved, 0 of 4"];
    assert_eq!(progress(&output), expected);
}

#[test]
fn what_is_still_good_is_not_made_again() {
    let folder = Folder::new("again");
    folder.play(&[]);
    assert_eq!(folder.calls(), ALL);
    let output = folder.play(&["-"]);
    assert_eq!((printed(&output), complained(&output)), ("played -\n", ""));
    folder.change("crates/other/src/lib.rt");
    folder.play(&[]);
    assert!(folder.calls().is_empty(), "the desk doesn't know that crate");
    folder.change("player/help.txt");
    folder.play(&[]);
    assert_eq!(folder.calls(), ["cargo build"], "the library is good");
    fs::remove_file(folder.path("tests/target/release/play")).expect("it is there");
    folder.play(&[]);
    assert_eq!(folder.calls(), ["cargo build"], "the library is good");
    folder.change("crates/middle/src/lib.rt");
    folder.play(&[]);
    assert_eq!(folder.calls(), ALL);
    folder.change("crates.txt");
    folder.play(&[]);
    assert_eq!(folder.calls(), ALL);
    folder.play(&[]);
    assert!(folder.calls().is_empty());
}

#[test]
fn a_session_from_standard_input_is_left_to_the_program() {
    let folder = Folder::new("input");
    folder.stub("rt", &format!("cat\n{RT}"));
    folder.stub("cargo", &format!("cat\n{CARGO}"));
    folder.write("session.txt", "1 begin\n");
    let input = File::open(folder.path("session.txt")).expect("it is there");
    let output = folder.script(&["-"]).stdin(input).output().expect("bash is there");
    assert_eq!(printed(&output), "played -\n1 begin\n");
    assert_eq!(folder.calls(), ALL);
}

/// What is made has the time at which it was begun.
#[test]
fn a_source_that_is_changed_while_it_is_proved_is_newer() {
    let folder = Folder::new("meanwhile");
    let change = "touch -d @$(date +%s.%N) crates/low/src/lib.rt\nsleep 0.1";
    folder.stub("rt", &format!("{change}\n{RT}"));
    folder.play(&[]);
    assert_eq!(folder.calls(), ALL);
    folder.stub("rt", RT);
    folder.play(&[]);
    assert_eq!(folder.calls(), ALL);
}

#[test]
fn where_a_step_fails_the_end_of_its_log_is_shown() {
    let folder = Folder::new("fails");
    folder.stub("rt", RT_FAILS);
    let output = folder.play(&[]);
    assert_eq!(output.status.code(), Some(2));
    assert_eq!(printed(&output), "");
    assert_eq!(progress(&output), ["play: low proved, 3 of 4"]);
    let log = folder.path("target/play.log");
    let end = format!(
        "make: low proved, 3 of 4 left\nfn middle::f: not proved\n\
         make: middle NOT PROVED (rt lib ended with 1)\n\
         play: that failed; {} has the whole output\n",
        log.display()
    );
    assert!(complained(&output).ends_with(&end), "{}", complained(&output));
    assert_eq!(folder.calls(), ["rt lib low", "rt lib middle"]);

    folder.stub("rt", RT);
    folder.stub("cargo", "echo 'error: no such package' >&2\nexit 101");
    let output = folder.play(&[]);
    assert_eq!(output.status.code(), Some(2));
    assert!(complained(&output).contains("error: no such package\nplay: that failed; "));
    assert_eq!(folder.calls(), ALL);
}

/// While cargo's build script makes the library, the script waits, and then takes what was made.
#[test]
fn the_library_is_not_made_twice_at_a_time() {
    let folder = Folder::new("turns");
    folder.write("target/linking.lock", "");
    let turn = File::create(folder.path("target/linking.lock")).expect("it is there");
    turn.lock().expect("nobody else has it");
    let mut script = folder.script(&[]);
    let mut script =
        script.stdout(Stdio::piped()).stderr(Stdio::piped()).spawn().expect("bash is there");
    let mut said = BufReader::new(script.stderr.take().expect("it is piped"));
    let mut first = String::new();
    said.read_line(&mut first).expect("plain text");
    assert_eq!(first, "play: the desk is being proved already; waiting for that ..\n");
    folder.write("target/staticlib/libdesk.a", "made meanwhile");
    folder.change("target/staticlib/libdesk.a");
    drop(turn);
    let mut rest = String::new();
    said.read_to_string(&mut rest).expect("plain text");
    assert_eq!(rest, "play: building the program (cargo build) ..\n");
    assert!(script.wait().expect("it ends").success());
    assert_eq!(folder.calls(), ["cargo build"]);
}

/// How long the proof takes is said once in each, and is one time.
#[test]
fn readme_and_script_give_one_time() {
    let root = Path::new(env!("CARGO_MANIFEST_DIR")).join("..");
    let read = |file: &str| fs::read_to_string(root.join(file)).expect("it can be read");
    let (readme, script) = (read("README.md"), read("play"));
    let time = script.split_once("proof_takes=\"").and_then(|(_, rest)| rest.split_once('"'));
    let (time, _) = time.expect("the script has it");
    assert!(time.contains("minutes"), "{time}");
    assert!(readme.contains(&format!("which takes {time} on two processors")), "{time}");
}
