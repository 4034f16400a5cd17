//! The command line.

use crate::digits::number;
use crate::sources::{Source, can_be_written};
use std::ffi::OsString;
use std::path::PathBuf;

/// What `--help` prints; the script `./play` prints it too, without building anything.
pub const HELP: &str = include_str!("../help.txt");

/// What the command asks for.
#[derive(Clone, Debug, PartialEq, Eq)]
pub enum Command {
    Help,
    /// Play it.
    Play {
        session: Source,
        bytes: bool,
    },
    /// Draw where things stand after a line, or after the last; as text, or into an SVG file.
    Show {
        session: Source,
        after: Option<usize>,
        svg: Option<PathBuf>,
    },
    /// Write a page that steps through it.
    Html {
        session: Source,
        out: PathBuf,
    },
}

/// What the arguments give, before it is known whether they go together.
#[derive(Default)]
struct Given {
    session: Option<Source>,
    bytes: bool,
    show: bool,
    after: Option<usize>,
    svg: Option<PathBuf>,
    html: Option<PathBuf>,
}

/// The command of the arguments, or what is wrong with them.
pub fn command(arguments: &[OsString]) -> Result<Command, String> {
    if arguments.iter().any(|argument| argument == "--help" || argument == "-h") {
        return Ok(Command::Help);
    }
    let asked = Given::of(arguments).and_then(Given::command);
    asked.map_err(|wrong| format!("{wrong}; ./play --help says what is"))
}

impl Given {
    fn of(arguments: &[OsString]) -> Result<Given, String> {
        let mut given = Given::default();
        let mut rest = arguments.iter();
        while let Some(argument) = rest.next() {
            let named = argument.to_string_lossy();
            match &*named {
                "--bytes" => given.bytes = true,
                "--show" => {
                    given.show = true;
                    let line = rest.as_slice().first().and_then(|next| number(next.to_str()?));
                    given.after = line;
                    line.and_then(|_| rest.next());
                }
                "--svg" => given.svg = Some(file_to_write("--svg", rest.next())?),
                "--html" => given.html = Some(file_to_write("--html", rest.next())?),
                option if option.starts_with('-') && option != "-" => {
                    return Err(format!("{option} is not known"));
                }
                second if given.session.is_some() => {
                    return Err(format!("one session at a time, and {second} is a second"));
                }
                "-" => given.session = Some(Source::Input),
                _ => given.session = Some(Source::File(argument.into())),
            }
        }
        Ok(given)
    }

    /// The command, where what is given goes together.
    fn command(self) -> Result<Command, String> {
        let session = self.session.unwrap_or(Source::Story);
        let drawn = self.show || self.svg.is_some();
        if self.bytes && (drawn || self.html.is_some()) {
            return Err("--bytes goes with playing a session, not with a drawing".to_string());
        }
        match self.html {
            Some(_) if drawn => Err("--html has every line, and --show and --svg draw one".into()),
            Some(out) => Ok(Command::Html { session, out }),
            None if drawn => Ok(Command::Show { session, after: self.after, svg: self.svg }),
            None => Ok(Command::Play { session, bytes: self.bytes }),
        }
    }
}

/// The file that an option names.
fn file_to_write(option: &str, next: Option<&OsString>) -> Result<PathBuf, String> {
    let file = next.filter(|file| !file.to_string_lossy().starts_with('-'));
    file.map(PathBuf::from).ok_or_else(|| format!("{option} needs a file to write"))
}

impl Command {
    /// Looks at the files that the command names before anything is played, or proved: gives why it
    /// can't be carried out.
    pub fn check(&self) -> Result<(), String> {
        let (session, after, out) = match self {
            Command::Help => return Ok(()),
            Command::Play { session, .. } => (session, None, None),
            Command::Show { session, after, svg } => (session, *after, svg.as_ref()),
            Command::Html { session, out } => (session, None, Some(out)),
        };
        if let Some(text) = session.at_hand()? {
            line_to_draw(session, &text, after)?;
        }
        out.map_or(Ok(()), |out| can_be_written(out))
    }
}

/// How many lines of a session are played for a drawing, or that it hasn't so many.
pub fn line_to_draw(session: &Source, text: &str, after: Option<usize>) -> Result<usize, String> {
    let lines = text.lines().count();
    match after {
        Some(line) if line > lines => {
            Err(format!("{} has {lines} lines, and {line} is beyond", session.name()))
        }
        after => Ok(after.unwrap_or(lines)),
    }
}
