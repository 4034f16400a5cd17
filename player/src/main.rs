//! `play`: see `usage` for the command line.

use play::html::html;
use play::live::live;
use play::plain::plain;
use play::rows::Place;
use play::session::{Outcome, Session};
use play::sources::{Source, write};
use play::transcript::{transcript, unread};
use play::usage::{Command, HELP, command, line_to_draw};
use play::{show, svg};
use std::env;
use std::io::{self, IsTerminal, Write};
use std::path::{Path, PathBuf};
use std::process::ExitCode;

fn main() -> ExitCode {
    let arguments: Vec<_> = env::args_os().skip(1).collect();
    let done = command(&arguments).and_then(|command| {
        command.check()?;
        carry_out(command)
    });
    match done {
        Ok(0) => ExitCode::SUCCESS,
        Ok(_slips) => ExitCode::from(1),
        Err(wrong) => {
            eprintln!("play: {}", plain(&wrong));
            ExitCode::from(2)
        }
    }
}

/// Carries out a command; gives how many lines of the session could not be read.
fn carry_out(command: Command) -> Result<usize, String> {
    match command {
        Command::Help => print(HELP).map(|()| 0),
        Command::Play { session: Source::Input, bytes } => play_input(bytes),
        Command::Play { session, bytes } => play(&session, bytes),
        Command::Show { session, after, svg } => draw(&session, after, svg),
        Command::Html { session, out } => write_page(&session, &out),
    }
}

/// Writes to standard output.
fn print(text: &str) -> Result<(), String> {
    unless_closed(io::stdout().write_all(text.as_bytes()))
}

/// A reader that has seen enough (`head`) is no failure.
fn unless_closed<Done: Default>(written: io::Result<Done>) -> Result<Done, String> {
    match written {
        Err(closed) if closed.kind() == io::ErrorKind::BrokenPipe => Ok(Done::default()),
        written => written.map_err(|error| error.to_string()),
    }
}

fn play(session: &Source, bytes: bool) -> Result<usize, String> {
    let played = transcript(&session.text()?, bytes);
    print(&played.text)?;
    Ok(played.slips)
}

/// Plays standard input line by line. One talks to it where both ends are a terminal.
fn play_input(bytes: bool) -> Result<usize, String> {
    let (input, output) = (io::stdin().lock(), io::stdout().lock());
    let terminal = input.is_terminal() && output.is_terminal();
    unless_closed(live(input, output, terminal, bytes))
}

fn draw(session: &Source, after: Option<usize>, out: Option<PathBuf>) -> Result<usize, String> {
    let (text, name) = (session.text()?, session.name());
    let count = line_to_draw(session, &text, after)?;
    let mut session = Session::fresh();
    let (mut slips, mut played) = (0, None);
    for (number, line) in (1..).zip(text.lines().take(count)) {
        match session.play(number, line) {
            Outcome::Nothing => {}
            Outcome::Slip(slip) => {
                eprintln!("{}", unread(number, &slip));
                slips += 1;
            }
            Outcome::Called { .. } => played = Some((number, line.trim())),
        }
    }
    let (standing, place) = (session.standing(), Place { name: &name, played });
    match out {
        None => print(&show::show(&standing, &place))?,
        Some(out) => write_drawing(&out, &svg::svg(&standing, &place))?,
    }
    Ok(slips)
}

/// Writes the page that steps through a session.
fn write_page(session: &Source, out: &Path) -> Result<usize, String> {
    let page = html(&session.text()?, &session.name());
    write_drawing(out, &page.text)?;
    Ok(page.slips)
}

fn write_drawing(out: &Path, drawing: &str) -> Result<(), String> {
    write(out, drawing)?;
    print(&format!("{} is drawn\n", plain(&out.display().to_string())))
}
