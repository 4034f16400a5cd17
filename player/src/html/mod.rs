//! A session as one page that steps through it line by line, with nothing outside the page. The
//! pictures are those of `svg`; `page.js` shows them.

mod escape;
mod pack;
mod steps;

use crate::plain::plain;
use crate::text::trimmed;
use crate::transcript::transcript;
use escape::{in_html, in_script};
use steps::{Step, Steps, steps};

const PAGE: &str = include_str!("page.html");
const STYLE: &str = include_str!("page.css");
const SCRIPT: &str = include_str!("page.js");

/// A page, and how many lines of its session could not be read.
pub struct Page {
    pub text: String,
    pub slips: usize,
}

/// The page for a session of this name.
pub fn html(session: &str, name: &str) -> Page {
    let steps = steps(session, name);
    let data = data(session, &steps);
    let transcript = in_html(&transcript(session, false).text);
    let name = in_html(&plain(name));
    let text = filled(PAGE, |part| match part {
        "name" => &name,
        "style" => STYLE,
        "script" => SCRIPT,
        "data" => &data,
        "transcript" => &transcript,
        other => unreachable!("the page has no part {other}"),
    });
    Page { text, slips: steps.steps.iter().filter(|step| step.slip).count() }
}

/// A text with its parts, written {{so}}, put in. What is put in is not looked at again.
fn filled<'a>(text: &str, part: impl Fn(&str) -> &'a str) -> String {
    let mut pieces = text.split("{{");
    let mut filled = pieces.next().unwrap_or_default().to_string();
    for piece in pieces {
        let (name, after) = piece.split_once("}}").expect("a part has its end");
        filled += part(name);
        filled += after;
    }
    filled
}

/// What `page.js` reads, as JSON: the session's `lines`, each a text and the step that it belongs
/// to; the `steps`; and the `table` of their pictures (see `pack`).
fn data(session: &str, played: &Steps) -> String {
    let lines = session.lines().zip(&played.step_of_line);
    let lines = lines.map(|(line, step)| format!("[{},{step}]", shown(trimmed(line))));
    let lines: Vec<String> = lines.collect();
    let steps: Vec<String> = played.steps.iter().map(step_data).collect();
    let table: Vec<String> = played.table.iter().map(|line| in_script(line)).collect();
    format!(
        "{{\"lines\":[\n{}\n],\n\"steps\":[\n{}\n],\n\"table\":[\n{}\n]}}",
        lines.join(",\n"),
        steps.join(",\n"),
        table.join(",\n")
    )
}

/// A step as JSON.
fn step_data(step: &Step) -> String {
    let picture: Vec<String> = step.picture.iter().map(|number| number.to_string()).collect();
    format!(
        "{{\"line\":{},\"slip\":{},\"remarks\":{},\"said\":{},\"waits\":{},\"changes\":{},\
         \"picture\":[{}]}}",
        step.line,
        step.slip,
        list(&step.remarks),
        list(&step.said),
        list(&step.waits),
        list(&step.changes),
        picture.join(",")
    )
}

fn list(texts: &[String]) -> String {
    let texts: Vec<String> = texts.iter().map(|text| shown(text)).collect();
    format!("[{}]", texts.join(","))
}

/// A text that the page shows.
fn shown(text: &str) -> String {
    in_script(&plain(text))
}
