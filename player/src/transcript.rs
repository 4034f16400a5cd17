//! A played session as text: each line as it was written, with what the desk says under it.

use crate::plain::plain;
use crate::session::{Outcome, Said, Session};
use crate::text::{Slip, trimmed};

/// What was played, and how many lines could not be read.
pub struct Transcript {
    pub text: String,
    pub slips: usize,
}

/// Plays a session from fresh. With `bytes` the records are shown in hex.
pub fn transcript(session: &str, bytes: bool) -> Transcript {
    let mut played = Session::fresh();
    let mut transcript = Transcript { text: String::new(), slips: 0 };
    for (number, line) in (1..).zip(session.lines()) {
        let next = line_played(&mut played, number, line, bytes);
        transcript.text += &next.text;
        transcript.slips += next.slips;
    }
    transcript
}

impl Transcript {
    /// The line itself, with its number if it asks something.
    fn line(&mut self, number: usize, line: &str, outcome: &Outcome) {
        let margin = match outcome {
            Outcome::Nothing => String::new(),
            _ => number.to_string(),
        };
        let written = format!("{margin:>4}  {}", plain(trimmed(line)));
        self.text += written.trim_end();
        self.text += "\n";
    }

    fn under(&mut self, words: &str) {
        self.text += &format!("          {words}\n");
    }

    fn called(&mut self, record: &[u8], said: &[Said], bytes: bool) {
        if bytes {
            self.under(&format!("request {}", hex(record)));
        }
        for said in said {
            self.under(&sentence(said));
            if bytes && !said.record.is_empty() {
                self.under(&format!("answer  {}", hex(&said.record)));
            }
        }
    }
}

/// To whom, what, and document 01's number for it.
pub fn sentence(said: &Said) -> String {
    let Said { transaction, words, number, .. } = said;
    let asked = said.asked_in.map_or(String::new(), |line| format!(" (asked in line {line})"));
    format!("{transaction}{asked}: {words} ({number})")
}

/// Plays one line of a session: its part of the transcript.
pub fn line_played(session: &mut Session, number: usize, line: &str, bytes: bool) -> Transcript {
    let mut transcript = Transcript { text: String::new(), slips: 0 };
    let outcome = session.play(number, line);
    transcript.line(number, line, &outcome);
    match outcome {
        Outcome::Nothing => {}
        Outcome::Slip(slip) => {
            transcript.slips += 1;
            transcript.under(&unread(number, &slip));
        }
        Outcome::Called { record, said } => transcript.called(&record, &said, bytes),
    }
    transcript
}

/// That a line can't be read, and why.
pub fn unread(number: usize, slip: &Slip) -> String {
    format!("line {number} can't be read: {slip}")
}

/// Bytes in hex, as document 01 writes them.
pub fn hex(bytes: &[u8]) -> String {
    let pairs: Vec<String> = bytes.iter().map(|byte| format!("{byte:02x}")).collect();
    pairs.join(" ")
}
