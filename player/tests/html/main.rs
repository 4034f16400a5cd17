//! The page that steps through a session: its structure, and that its pictures are those of `svg`.
//! How it looks is for a browser to show.

mod json;
mod markup;

use json::Json;
use markup::{Element, elements};
use play::html::html;
use play::rows::Place;
use play::session::{Outcome, Session};
use play::svg::svg;
use play::transcript::transcript;
use std::fs;
use std::path::Path;

/// The sessions under examples/: name and text.
fn examples() -> Vec<(String, String)> {
    let folder = Path::new(env!("CARGO_MANIFEST_DIR")).join("../examples");
    let files = fs::read_dir(folder).expect("the examples are there");
    let paths = files.map(|file| file.expect("a file").path());
    let sessions = paths.filter(|path| path.extension().is_some_and(|ending| ending == "txt"));
    let read = |path: &Path| fs::read_to_string(path).expect("it can be read");
    sessions.map(|path| (path.display().to_string(), read(&path))).collect()
}

fn story() -> &'static str {
    include_str!("../../../examples/namesake.txt")
}

fn page(session: &str) -> String {
    html(session, "the test").text
}

/// What the page's script reads.
fn data(page: &str) -> Json {
    let elements = elements(page);
    let data = elements.iter().find(|element| element.attribute("id") == Some("session"));
    Json::parse(data.and_then(|data| data.raw.as_ref()).expect("a page has its session"))
}

/// The pictures of a page, unpacked by what the head of player/src/html/pack.rs says.
fn pictures(data: &Json) -> Vec<String> {
    let table = data.at("table").texts();
    let mut before: Vec<&str> = Vec::new();
    let mut pictures = Vec::new();
    for step in data.at("steps").list() {
        let numbers: Vec<i64> = step.at("picture").list().iter().map(Json::number).collect();
        let mut lines = Vec::new();
        for two in numbers.chunks(2) {
            let (from, count) = (two[0], two[1] as usize);
            let (lines_from, from) =
                if from >= 0 { (&before, from as usize) } else { (&table, (-1 - from) as usize) };
            lines.extend(&lines_from[from..from + count]);
        }
        pictures.push(lines.join("\n"));
        before = lines;
    }
    pictures
}

/// Which line each step shows, and the picture after it: before the first request, after each line
/// that asks something or can't be read, and once more where a comment comes last.
fn expected(session: &str, name: &str) -> Vec<(usize, String)> {
    let mut played = None;
    let mut desk = Session::fresh();
    let mut expected = vec![(0, svg(&desk.standing(), &Place { name, played }))];
    let mut comment_comes_last = false;
    for (number, line) in (1..).zip(session.lines()) {
        match desk.play(number, line) {
            Outcome::Nothing if line.trim().is_empty() => continue,
            Outcome::Nothing => {
                comment_comes_last = true;
                continue;
            }
            Outcome::Slip(_) => {}
            Outcome::Called { .. } => played = Some((number, line.trim())),
        }
        comment_comes_last = false;
        expected.push((number, svg(&desk.standing(), &Place { name, played })));
    }
    if comment_comes_last {
        let (_, last) = expected[expected.len() - 1].clone();
        expected.push((session.lines().count(), last));
    }
    expected
}

fn step_of_line(data: &Json, line: i64) -> &Json {
    let steps = data.at("steps").list();
    steps.iter().find(|step| step.at("line").number() == line).expect("the line is a step")
}

#[test]
fn every_step_has_the_picture_of_svg() {
    for (name, session) in examples() {
        let data = data(&html(&session, &name).text);
        let expected = expected(&session, &name);
        let steps = data.at("steps").list();
        assert_eq!(steps.len(), expected.len(), "{name}");
        for (step, (picture, (line, drawn))) in
            steps.iter().zip(pictures(&data).iter().zip(&expected))
        {
            assert_eq!(step.at("line").number(), *line as i64, "{name}");
            assert!(picture == drawn, "{name}, line {line}");
        }
    }
}

#[test]
fn every_line_belongs_to_the_step_at_or_below_it() {
    for (name, session) in examples() {
        let data = data(&html(&session, &name).text);
        let lines = data.at("lines").list();
        assert_eq!(lines.len(), session.lines().count(), "{name}");
        let steps = data.at("steps").list();
        let mut before = 0;
        for (number, (line, text)) in (1..).zip(lines.iter().zip(session.lines())) {
            let [shown, step] = line.list() else { panic!("a text and a step") };
            assert_eq!(shown.text(), text.trim(), "{name}");
            let place = step.number() as usize;
            assert!(place == before || place == before + 1, "{name}, line {number}");
            assert!(place == 0 || steps[place].at("line").number() >= number, "{name}, {number}");
            before = place;
        }
        assert_eq!(before, steps.len() - 1, "{name}");
    }
}

#[test]
fn a_step_has_the_words_of_its_line() {
    let data = data(&page(story()));
    let head = &data.at("steps").list()[0];
    assert_eq!(head.at("remarks").list().len(), 3);
    assert!(head.at("remarks").texts()[0].starts_with("The story of the namesake: "));
    assert!(head.at("said").list().is_empty());

    let waits = step_of_line(&data, 29);
    let remark = "The enrolment would put a namesake's ball among them, and waits.";
    assert_eq!(waits.at("remarks").texts(), [remark]);
    assert_eq!(waits.at("waits").texts(), ["2 waits behind 1, who holds S on 7/30"]);
    assert_eq!(waits.at("changes").texts(), ["2 waits now: insert 7/25 record 777"]);

    let commit = step_of_line(&data, 38);
    let said = ["1: committed (0)", "2 (asked in line 29): inserted 7/25 with record 777 (0)"];
    assert_eq!(commit.at("said").texts(), said);
    let changes = [
        "1 ended",
        "2 waits no more",
        "entry 7/25 came, owned by 2, with record 777",
        "2 took X on 7/25",
        "1 released S on 7/10, 7/20, 7/30, 8/10",
    ];
    assert_eq!(commit.at("changes").texts(), changes);
    assert!(commit.at("waits").list().is_empty());
}

/// An answer named 2 and 1; when 2 has ended, the list says who is in the way then.
#[test]
fn a_step_says_who_is_in_the_way_as_things_stand_after_it() {
    let data = data(&page(include_str!("../../../examples/in-the-way.txt")));
    let waits = |line: i64| step_of_line(&data, line).at("waits").texts();
    let before = [
        "4 waits behind 2, who holds S on 20; also in the way is 3, who holds S on it",
        "1 waits behind 2, who holds S on 20; also in the way are 3, who holds S on it, and 4, who \
         asked for it before",
        "5 waits behind 1, who asked for 20 before; also in the way are 2, 3, who hold S on it, and \
         4, who asked for it before",
    ];
    assert_eq!(waits(24), before);
    let after = [
        "4 waits behind 3, who holds S on 20",
        "1 waits behind 3, who holds S on 20; also in the way is 4, who asked for it before",
        "5 waits behind 1, who asked for 20 before; also in the way are 3, who holds S on it, and \
         4, who asked for it before",
    ];
    assert_eq!(waits(27), after);
    assert_eq!(waits(30), ["5 waits behind 1, who holds X on 20"]);
}

#[test]
fn a_line_that_cannot_be_read_is_a_step_and_is_counted() {
    let played = html("1 begin\n1 bgin\n1 commit\n", "the test");
    assert_eq!(played.slips, 1);
    let data = data(&played.text);
    let slips: Vec<&Json> = data.at("steps").list().iter().map(|step| step.at("slip")).collect();
    let [no, yes] = [&Json::Bool(false), &Json::Bool(true)];
    assert_eq!(slips, [no, no, yes, no]);
    let slip = step_of_line(&data, 2);
    assert!(slip.at("said").texts()[0].starts_with("line 2 can't be read: 'bgin' is no request"));
    assert!(slip.at("changes").list().is_empty());
}

/// A comment belongs to the request below it; at the head to the start, if a blank line follows.
#[test]
fn comments_stand_with_what_they_are_about() {
    let remarks = |session: &str| -> Vec<String> {
        let data = data(&page(session));
        let steps = data.at("steps").list().iter();
        steps.map(|step| step.at("remarks").texts().join(" | ")).collect()
    };
    let head =
        "# one\n# two\n#\n## three\n\n# four\n1 begin # five\n\n1 commit\n# six\n\n# seven\n\n";
    assert_eq!(remarks(head), ["one two | three", "four", "", "six | seven"]);
    assert_eq!(remarks("# one\n1 begin\n"), ["", "one"]);
    assert_eq!(remarks("\n# one\n\n1 begin\n"), ["", "one"]);
    assert_eq!(remarks("# one"), ["", "one"]);
    assert_eq!(remarks("# one\n\n"), ["one"]);
    assert_eq!(remarks(""), [""]);
    assert_eq!(remarks("\n\n"), [""]);
}

#[test]
fn without_a_script_it_is_the_transcript() {
    let page = page(story());
    let (_, after) = page.split_once("<pre>").expect("it is there");
    let (shown, _) = after.split_once("</pre>").expect("it ends");
    let plain = shown.replace("&#39;", "'").replace("&amp;", "&");
    assert_eq!(plain, transcript(story(), false).text);
}

/// Nothing is fetched: no element names a place outside, nor does the style, nor the script.
#[test]
fn the_page_needs_nothing_from_outside() {
    let page = page(story());
    let namespace = "xmlns=\\\"http://www.w3.org/2000/svg\\\"";
    assert_eq!(page.matches(namespace).count(), page.matches("http:").count());
    for outside in ["https:", "url(", "@import", "import(", "fetch(", "XMLHttp", "eval("] {
        assert!(!page.contains(outside), "{outside}");
    }
    for element in elements(&page) {
        for (name, _) in &element.attributes {
            let names_a_place = ["src", "href", "action", "data", "srcset", "poster"];
            assert!(!names_a_place.contains(&name.as_str()), "{element:?}");
            assert!(!name.starts_with("on"), "{element:?}");
        }
        assert!(!["link", "iframe", "object", "embed", "base"].contains(&element.name.as_str()));
    }
}

/// The script finds what it looks for: each `at.name` is the id of one element.
#[test]
fn the_script_finds_its_elements() {
    let elements = elements(&page(""));
    let ids: Vec<&str> = elements.iter().filter_map(|element| element.attribute("id")).collect();
    let script = elements.last().and_then(|script| script.raw.as_ref()).expect("a script is last");
    let mut named = 0;
    for after in script.split(|letter: char| !letter.is_alphanumeric() && letter != '.') {
        let Some(name) = after.strip_prefix("at.") else { continue };
        let name = name.split('.').next().unwrap_or_default();
        assert_eq!(ids.iter().filter(|id| **id == name).count(), 1, "{name}");
        named += 1;
    }
    assert!(named > 20, "{named} are named");
    let labelled = elements.iter().find(|element| element.name == "label");
    assert_eq!(labelled.and_then(|label| label.attribute("for")), Some("slider"));
}

const HOSTILE: [&str; 12] = [
    "# </script><script>alert(1)</script>",
    "# <!-- <script> -->",
    "# </SCRIPT ></noscript></pre></title></style>",
    "# {{data}} {{script}} {{ }} }}",
    "# \" onload=\"alert(1)\" ' \\ \\u003c \\n &lt; &amp; ]]>",
    "# \u{0}\u{1}\u{8}\u{b}\u{1b}[31m\u{7f}\u{85}\u{9f}\u{2028}\u{2029}\u{202e}\u{feff}\t|",
    "<script>alert(1)</script>",
    "1 <svg/onload=alert(1)>",
    "1 begin # </script><img src=x onerror=alert(1)>",
    "1 read 5..6 # <!--",
    "1 insert </title> record 1",
    "1 commit # \u{1b}]0;title\u{7} \u{202e}",
];

/// The names and attributes of the elements, and what they hold but for the data.
fn skeleton(page: &str) -> Vec<Element> {
    let mut elements = elements(page);
    for element in &mut elements {
        if element.attribute("id") == Some("session") {
            element.raw = None;
        }
    }
    elements
}

#[test]
fn hostile_text_does_not_break_out() {
    let session = HOSTILE.join("\n");
    let name = "</title><script>alert(1)</script> \" & \u{1b}";
    let page = html(&session, name).text;
    assert_eq!(skeleton(&page), skeleton(&self::page("1 begin\n")));
    let raw = page.chars().find(|letter| letter.is_control() && *letter != '\n');
    assert_eq!(raw, None, "a control character is never raw");
    let data = data(&page);
    let lines: Vec<&str> = data.at("lines").list().iter().map(|l| l.list()[0].text()).collect();
    assert_eq!(lines[..5], HOSTILE[..5]);
    assert!(lines.iter().all(|line| !line.chars().any(char::is_control)));
    let drawn: Vec<String> = expected(&session, name).into_iter().map(|(_, drawn)| drawn).collect();
    assert_eq!(pictures(&data), drawn);
}

/// Of a session whose index fills all pages; each picture alone has some hundred lines.
#[test]
fn a_large_session_stays_small() {
    let page = page(include_str!("../../../examples/all-pages.txt"));
    assert!(page.len() < 2_000_000, "{} bytes", page.len());
    let packed = data(&page);
    let unpacked: usize = pictures(&packed).iter().map(String::len).sum();
    assert!(8 * page.len() < unpacked, "{} bytes for {unpacked}", page.len());
}

#[test]
fn the_same_session_gives_the_same_page() {
    for (name, session) in examples().into_iter().filter(|(_, session)| session.len() < 2000) {
        assert!(html(&session, &name).text == html(&session, &name).text, "{name}");
    }
}
