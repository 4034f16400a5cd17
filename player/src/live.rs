//! A session that is played while it is written: `./play -`. Each line's answers are out before the
//! next line is read.

use crate::rows::Place;
use crate::session::Session;
use crate::show::show;
use crate::text::parse;
use crate::transcript::line_played;
use crate::usage::HELP;
use std::io::{self, BufRead, Write};

/// What is said at a terminal first.
const GREETING: &str =
    "A request a line, such as 1 begin. Besides: show, help, quit (or the end of input, Ctrl-D).\n";

/// What `help` says at a terminal before what a line may be.
const WORDS: &str = "\
show draws where things stand
help says this
quit leaves, as the end of input (Ctrl-D) does

";

/// Plays the lines of the input one by one. At a terminal with a prompt, and only what is said;
/// else it is the text of the transcript. Gives how many lines could not be read; at a terminal
/// they have been told, and don't count.
pub fn live(
    input: impl BufRead,
    output: impl Write,
    terminal: bool,
    bytes: bool,
) -> io::Result<usize> {
    if terminal { talk(input, output, bytes).map(|()| 0) } else { play_along(input, output, bytes) }
}

/// Plays every line; gives how many could not be read.
fn play_along(mut input: impl BufRead, mut output: impl Write, bytes: bool) -> io::Result<usize> {
    let (mut session, mut slips) = (Session::fresh(), 0);
    for number in 1.. {
        let Some(line) = next_line(&mut input)? else { break };
        let played = line_played(&mut session, number, &line, bytes);
        slips += played.slips;
        output.write_all(played.text.as_bytes())?;
        output.flush()?;
    }
    Ok(slips)
}

/// Answers what is typed until it ends. The prompt has the line's number; what isn't for the desk
/// doesn't count as a line.
fn talk(mut input: impl BufRead, mut output: impl Write, bytes: bool) -> io::Result<()> {
    let (mut session, mut number) = (Session::fresh(), 1);
    let mut last_asked: Option<(usize, String)> = None;
    output.write_all(GREETING.as_bytes())?;
    loop {
        write!(output, "{number:>4}> ")?;
        output.flush()?;
        let Some(line) = next_line(&mut input)? else { return output.write_all(b"\n") };
        match line.trim() {
            "" => {}
            "quit" => return Ok(()),
            "help" => write!(output, "{WORDS}{}\n\n", what_a_line_is())?,
            "show" => {
                let played = last_asked.as_ref().map(|(number, line)| (*number, line.as_str()));
                let place = Place { name: "this session", played };
                output.write_all(show(&session.standing(), &place).as_bytes())?;
            }
            asked => {
                let played = line_played(&mut session, number, asked, bytes);
                let (_line, under) = played.text.split_once('\n').unwrap_or_default();
                output.write_all(under.as_bytes())?;
                if matches!(parse(asked), Ok(Some(_))) {
                    last_asked = Some((number, asked.to_string()));
                }
                number += 1;
            }
        }
    }
}

/// The next line without its end, or nothing where the input ends. What isn't UTF-8 is replaced.
fn next_line(input: &mut impl BufRead) -> io::Result<Option<String>> {
    let mut line = Vec::new();
    if input.read_until(b'\n', &mut line)? == 0 {
        return Ok(None);
    }
    let text = String::from_utf8_lossy(&line);
    Ok(Some(text.lines().next().unwrap_or_default().to_string()))
}

/// The part of the help that says what a line may be.
fn what_a_line_is() -> &'static str {
    let mut parts = HELP.split("\n\n");
    parts.find(|part| part.starts_with("A line of a session")).unwrap_or(HELP)
}
