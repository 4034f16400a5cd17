//! Times the proved desk and the plain Rust one on the same work, in one run, and prints Markdown.
//!
//!     cargo run --release --offline --manifest-path tests/Cargo.toml -p bench
//!
//! With a word behind `--` (judging, reads, searches, commits, sessions) that part alone.

mod machine;
mod timing;
mod work;

use desk::pictures::{FAR, all_locks_s, all_locks_x, settled};
use model::desk::Picture;
use model::key::Key;
use model::picture::Tables;
use timing::{Times, commits, single_calls};
use work::{
    Commit, FIRST, LAST, Session, full_leaf, in_any_slots, read_of, read_on, reader, with_lock_on,
};

/// The parts of the table, each with the word that asks for it alone.
const PARTS: [(&str, fn()); 5] = [
    ("judging", judging),
    ("reads", one_read),
    ("searches", searches),
    ("commits", one_commit),
    ("sessions", many_calls),
];

fn main() {
    let word = std::env::args().nth(1);
    let is_asked_for = |name: &str| word.as_deref().is_none_or(|word| word == name);
    let asked_for: Vec<_> = PARTS.into_iter().filter(|(name, _)| is_asked_for(name)).collect();
    assert!(!asked_for.is_empty(), "no part is called {word:?}");
    println!("{}", machine::description());
    for (_, part) in asked_for {
        part();
    }
}

/// A line of the table: microseconds of both, and how much longer the proved one takes.
fn row(name: &str, times: &Times) {
    let Times { library, plain } = times;
    println!("| {name} | {library:.2} | {plain:.2} | {:.2} |", library / plain);
}

fn head(title: &str, unit: &str) {
    println!(
        "\n## {title}\n\n| | proved, {unit} | plain Rust, {unit} | ratio |\n|---|---:|---:|---:|"
    );
}

/// A picture's judgement alone, asked by an empty request, which is refused with 12 once the picture
/// is found whole; and beside it a read that is served.
fn judged_and_read(picture: &Picture, read: &[u8]) -> [Times; 2] {
    single_calls(picture, [(&[], 12), (read, 0)])
}

fn judging() {
    head("Judging a picture", "µs");
    let pictures = [
        ("fresh", Tables::fresh()),
        ("778 entries, no locks", settled(778)),
        ("778 entries, 256 S locks of 16 holders", all_locks_s(778, 1)),
        ("the same, one lock on the end", with_lock_on(Key::END, all_locks_s(778, 1))),
        ("the same, keys that differ in every byte", all_locks_s(778, FAR)),
        ("256 entries, each owned, 256 X locks of 16 holders", all_locks_x(256)),
        ("778 entries, 256 of them owned, 256 X locks of 16 holders", all_locks_x(778)),
    ];
    for (name, tables) in pictures {
        row(name, &single_calls(&in_any_slots(tables), [(&[], 12)])[0]);
    }
    let astray = in_any_slots(with_lock_on(Key(1_000), all_locks_s(778, 1)));
    row(
        "778 entries, 256 S locks, one on no entry: not whole",
        &single_calls(&astray, [(&[], 11)])[0],
    );
}

fn one_read() {
    head("One call: a read", "µs");
    let pictures = [
        ("empty", reader(0, 0)),
        ("half full: 389 entries, 128 locks", reader(389, 128)),
        ("full: 778 entries, 256 locks", reader(778, 256)),
    ];
    let shares = pictures.map(|(name, picture)| {
        let [judged, call] = judged_and_read(&picture, &read_on(&picture));
        row(name, &call);
        (name, judged.library / call.library, judged.plain / call.plain)
    });
    println!("\n| share of the judgement in it | proved | plain Rust |\n|---|---:|---:|");
    for (name, library, plain) in shares {
        println!("| {name} | {:.0} % | {:.0} % |", 100.0 * library, 100.0 * plain);
    }
}

/// What a read takes beyond its judgement, where the index is one full leaf: a search for its target
/// and, where others wait for the key, one more for each of these before it runs and one after.
fn searches() {
    head("A read in a full leaf of 24 entries, without the judgement", "µs");
    let reads = [
        ("the first key, one search", FIRST, 0),
        ("the last key, one search", LAST, 0),
        ("the last key, which 15 wait to delete: 31 searches", LAST, 15),
    ];
    for (name, key, waiting) in reads {
        let [judged, call] = judged_and_read(&full_leaf(waiting), &read_of(key));
        row(name, &call.less(judged));
    }
}

fn one_commit() {
    head("One call: a commit, 778 entries", "µs");
    row("one entry owned", &commits(&Commit::of(1, 0)));
    row("256 entries owned", &commits(&Commit::of(256, 0)));
    row("one entry owned, 15 waiting to read it", &commits(&Commit::of(1, 15)));
}

fn many_calls() {
    head("A thousand calls", "µs");
    row("from fresh, 16 transactions", &Session::from_fresh(1000).times());
    row("on a full picture, 16 transactions", &Session::from(full(), 1000).times());

    let session = Session::from_fresh(20_000);
    let times = session.times();
    let a_second = |microseconds: f64| 20_000.0 / microseconds * 1e6;
    println!("\n## A mixed session of 20,000 requests with 16 transactions\n");
    println!("| | proved | plain Rust | ratio |\n|---|---:|---:|---:|");
    let (library, plain) = (a_second(times.library), a_second(times.plain));
    println!("| requests a second | {library:.0} | {plain:.0} | {:.2} |", plain / library);
    println!("\nAnswers: {}.", session.answers());
}

fn full() -> Picture {
    settled(778).encode()
}
