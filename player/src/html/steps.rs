//! A session as steps. A step is a request, or a line that can't be read, together with the
//! comments above it. Before the first comes the fresh desk, with the comment at the session's
//! head; comments after the last request are a step of their own.

use super::pack::Packer;
use crate::changes::changes;
use crate::picture::Standing;
use crate::rows::Place;
use crate::session::{Outcome, Session};
use crate::svg::svg;
use crate::text::trimmed;
use crate::transcript::{sentence, unread};
use crate::words;

/// What the page shows at a step.
pub struct Step {
    /// The number of the line; 0 before the first.
    pub line: usize,
    /// What the comments say, by paragraphs.
    pub remarks: Vec<String>,
    /// What the desk says, or why the line can't be read.
    pub said: Vec<String>,
    pub slip: bool,
    /// Who waits, and behind whom.
    pub waits: Vec<String>,
    /// What changed since the step before.
    pub changes: Vec<String>,
    /// Where things stand: the picture of `svg`, packed.
    pub picture: Vec<isize>,
}

/// A session's steps, for each of its lines the step that it belongs to, and the pictures' table.
pub struct Steps {
    pub steps: Vec<Step>,
    pub step_of_line: Vec<usize>,
    pub table: Vec<String>,
}

/// The steps of a session's text.
pub fn steps(text: &str, name: &str) -> Steps {
    let lines: Vec<&str> = text.lines().collect();
    let head = head(&lines);
    let mut stepping = Stepping::fresh(name, remarks(&lines[..head]));
    let mut step_of_line = vec![0; head];
    for (place, line) in lines.iter().enumerate().skip(head) {
        let above = &lines[step_of_line.len()..place];
        if stepping.play(place + 1, line, above) {
            step_of_line.resize(place + 1, stepping.steps.len() - 1);
        }
    }
    let below = remarks(&lines[step_of_line.len()..]);
    if !below.is_empty() {
        stepping.rest(lines.len(), below);
    }
    step_of_line.resize(lines.len(), stepping.steps.len() - 1);
    Steps { steps: stepping.steps, step_of_line, table: stepping.packer.table() }
}

/// How many lines the comment at the session's head has: one with a blank line below it.
fn head(lines: &[&str]) -> usize {
    let comments = lines.iter().take_while(|line| trimmed(line).starts_with('#')).count();
    match lines.get(comments) {
        Some(line) if line.trim().is_empty() => comments,
        _ => 0,
    }
}

/// What comment lines say: those side by side are a paragraph, and a line without words ends it.
fn remarks(lines: &[&str]) -> Vec<String> {
    let said: Vec<&str> =
        lines.iter().map(|line| trimmed(line).trim_start_matches('#').trim()).collect();
    let paragraphs = said.split(|words| words.is_empty()).filter(|lines| !lines.is_empty());
    paragraphs.map(|lines| lines.join(" ")).collect()
}

/// A session while it is played step by step.
struct Stepping<'a> {
    name: &'a str,
    session: Session,
    standing: Standing,
    /// The last request: its line and its text.
    asked: Option<(usize, &'a str)>,
    steps: Vec<Step>,
    packer: Packer,
}

impl<'a> Stepping<'a> {
    /// At the step before the first request.
    fn fresh(name: &'a str, remarks: Vec<String>) -> Stepping<'a> {
        let session = Session::fresh();
        let mut stepping = Stepping {
            name,
            standing: session.standing(),
            session,
            asked: None,
            steps: vec![],
            packer: Packer::default(),
        };
        stepping.rest(0, remarks);
        stepping
    }

    /// Plays a line with the comments above it; says whether that is a step.
    fn play(&mut self, line: usize, text: &'a str, above: &[&str]) -> bool {
        let (said, slip) = match self.session.play(line, text) {
            Outcome::Nothing => return false,
            Outcome::Slip(slip) => (vec![unread(line, &slip)], true),
            Outcome::Called { said, .. } => {
                self.asked = Some((line, trimmed(text)));
                (said.iter().map(sentence).collect(), false)
            }
        };
        self.add(line, remarks(above), said, slip);
        true
    }

    /// A step at which nothing is asked.
    fn rest(&mut self, line: usize, remarks: Vec<String>) {
        self.add(line, remarks, vec![], false);
    }

    fn add(&mut self, line: usize, remarks: Vec<String>, said: Vec<String>, slip: bool) {
        let standing = self.session.standing();
        let queue = standing.queue.iter();
        let waits = queue.map(|w| format!("{} {}", w.transaction, words::waits(&standing, w)));
        let place = Place { name: self.name, played: self.asked };
        self.steps.push(Step {
            line,
            remarks,
            said,
            slip,
            waits: waits.collect(),
            changes: changes(&self.standing, &standing),
            picture: self.packer.pack(&svg(&standing, &place)),
        });
        self.standing = standing;
    }
}
