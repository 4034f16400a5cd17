//! The C header beside the page: its constants, and its builders and readers as C compiles them.

use format::definitions::Limits;
use format::header::defined;
use format::page::Page;
use std::path::Path;
use std::process::Command;

#[test]
fn the_lengths_are_the_limits() {
    let (defined, limits) = (defined(), Limits::read());
    let lengths = [
        ("KEYDESK_PAGES", "pages_size"),
        ("KEYDESK_DESK", "desk_size"),
        ("KEYDESK_ANSWERS", "space_least"),
        ("KEYDESK_ANSWER", "answer_size"),
        ("KEYDESK_REQUEST", "read_size"),
        ("KEYDESK_TRANSACTIONS", "transactions_most"),
    ];
    for (name, limit) in lengths {
        assert_eq!(defined[name], limits.value(limit) as u64, "{name}");
    }
    assert_eq!(defined["KEYDESK_END"], u64::MAX);
    assert_eq!(defined["KEYDESK_HIGHEST"], u64::MAX - 1);
}

#[test]
fn the_bindings_constants_are_the_headers() {
    let defined = defined();
    let lengths = [
        ("KEYDESK_PAGES", keydesk::PAGES),
        ("KEYDESK_DESK", keydesk::DESK),
        ("KEYDESK_ANSWERS", keydesk::ANSWERS),
        ("KEYDESK_ANSWER", keydesk::ANSWER),
        ("KEYDESK_REQUEST", keydesk::REQUEST),
        ("KEYDESK_TRANSACTIONS", usize::from(keydesk::TRANSACTIONS)),
    ];
    for (name, length) in lengths {
        assert_eq!(defined[name], length as u64, "{name}");
    }
    assert_eq!(defined["KEYDESK_HIGHEST"], keydesk::Key::HIGHEST.0);
}

/// The request record that fits all is as long as the longest of the kinds.
#[test]
fn the_kinds_are_the_pages() {
    let (defined, page) = (defined(), Page::read());
    let text = format::file("include/keydesk.h");
    let mut longest = 0;
    for row in &page.tables()["kinds"] {
        let [kind, request, length, builder, _asks] = &row[..] else { panic!("five columns") };
        let name = format!("KEYDESK_{}", request.to_uppercase());
        assert_eq!(kind, &defined[&name].to_string(), "{name}");
        assert!(text.contains(&format!("static inline size_t {builder}(")), "{builder}");
        longest = longest.max(length.parse().expect("a number"));
    }
    assert_eq!(defined["KEYDESK_REQUEST"], longest);
}

/// Every number of the page is defined, and every other constant is a length, a kind or a key.
#[test]
fn the_numbers_are_the_pages() {
    let (mut defined, page) = (defined(), Page::read());
    let tables = page.tables();
    for row in &tables["numbers"] {
        assert_eq!(defined.remove(&row[1]), row[0].parse().ok(), "{}", row[1]);
    }
    for row in &tables["kinds"] {
        defined.remove(&format!("KEYDESK_{}", row[1].to_uppercase()));
    }
    let left: Vec<&str> = defined.keys().map(String::as_str).collect();
    let lengths_and_keys = [
        "KEYDESK_ANSWER",
        "KEYDESK_ANSWERS",
        "KEYDESK_DESK",
        "KEYDESK_END",
        "KEYDESK_HIGHEST",
        "KEYDESK_PAGES",
        "KEYDESK_REQUEST",
        "KEYDESK_TRANSACTIONS",
    ];
    assert_eq!(left, lengths_and_keys);
}

/// What the program of `c/records.c` writes, compiled by this standard of C.
fn written(standard: &str) -> String {
    let here = Path::new(env!("CARGO_MANIFEST_DIR"));
    let program = Path::new(env!("CARGO_TARGET_TMPDIR")).join(format!("records-{standard}"));
    let mut cc = Command::new("cc");
    cc.arg(format!("-std={standard}")).args(["-Wall", "-Wextra", "-Werror", "-pedantic", "-I"]);
    cc.arg(here.join("../../include")).arg(here.join("c/records.c")).arg("-o").arg(&program);
    let compiled = cc.output().expect("a C compiler is there");
    assert!(compiled.status.success(), "{}", String::from_utf8_lossy(&compiled.stderr));
    let ran = linking::started(program).output().expect("it can be started");
    assert!(ran.status.success());
    String::from_utf8(ran.stdout).expect("a text")
}

#[test]
fn the_builders_and_readers_are_the_pages_examples() {
    let examples = Page::read().examples();
    let requests: String = examples[..6]
        .iter()
        .map(|(words, bytes)| {
            let hex: String = bytes.iter().map(|byte| format!(" {byte:02x}")).collect();
            format!("{words}:{hex}\n")
        })
        .collect();
    // 0x0102030405060708 and 0xff0b0a09, as the bytes of c/records.c have them
    let read = "answer 1 0 0 0\nanswer 258 16 72623859790382856 4278913545\n\
                refused 11 0\nserved 0 40\nkey 30064771097 of 7 and 25\n";
    for standard in ["c99", "c11"] {
        assert_eq!(written(standard), format!("{requests}{read}"), "{standard}");
    }
}
