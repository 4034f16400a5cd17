//! Runs the program `keydesk` (document 01, Records and pages, last paragraph).

use std::io::{Read, Write};
use std::process::{Child, ChildStderr, ChildStdin, ChildStdout, Command, Stdio};
use std::thread;

use model::generators::requests::{Bias, Requests};
use model::layout::request::Request;
use model::session::Session;

/// A running program with its three ends.
pub struct Running {
    child: Child,
    input: ChildStdin,
    output: ChildStdout,
    errors: ChildStderr,
}

/// What a program that has ended wrote to standard output, and to standard error.
#[derive(Debug, PartialEq, Eq)]
pub struct Ended {
    pub answers: Vec<u8>,
    pub why: String,
}

/// The command that starts the program.
pub fn keydesk() -> Command {
    linking::started(env!("KEYDESK"))
}

impl Running {
    pub fn start() -> Running {
        let mut command = keydesk();
        command.stdin(Stdio::piped()).stdout(Stdio::piped()).stderr(Stdio::piped());
        let mut child = command.spawn().expect("the program can be started");
        let input = child.stdin.take().expect("its input is a pipe");
        let output = child.stdout.take().expect("its output is a pipe");
        let errors = child.stderr.take().expect("its errors are a pipe");
        Running { child, input, output, errors }
    }

    /// Writes some of the input. A program that has stopped reads no more of it.
    pub fn write(&mut self, bytes: &[u8]) {
        let _ = self.input.write_all(bytes);
    }

    /// Reads exactly so many bytes of its output, while its input stays open.
    pub fn read(&mut self, count: usize) -> Vec<u8> {
        let mut bytes = vec![0; count];
        self.output.read_exact(&mut bytes).expect("so much is answered");
        bytes
    }

    /// Ends the input, and gives what is left of the output.
    pub fn end(mut self) -> Ended {
        drop(self.input);
        rest(&mut self.child, &mut self.output, &mut self.errors)
    }

    /// What is left of the output of a program that ends by itself: its input stays open.
    pub fn ended(mut self) -> Ended {
        rest(&mut self.child, &mut self.output, &mut self.errors)
    }
}

/// All that the program writes for an input, handed over in pieces of so many bytes. The pieces are
/// written beside the reading, since neither pipe holds everything.
pub fn output_of(input: &[u8], piece: usize) -> Ended {
    let Running { mut child, input: mut pipe, mut output, mut errors } = Running::start();
    thread::scope(|scope| {
        scope.spawn(move || {
            for bytes in input.chunks(piece) {
                if pipe.write_all(bytes).is_err() {
                    break;
                }
            }
        });
        rest(&mut child, &mut output, &mut errors)
    })
}

/// All that a program still writes; it ends well. What it says of its end is less than a pipe holds.
fn rest(child: &mut Child, output: &mut ChildStdout, errors: &mut ChildStderr) -> Ended {
    let mut answers = Vec::new();
    output.read_to_end(&mut answers).expect("the output can be read");
    let mut why = String::new();
    errors.read_to_string(&mut why).expect("what it says is a text");
    assert!(child.wait().expect("the program ends").success());
    Ended { answers, why }
}

/// What the program is to write for an input, by the model.
pub fn expected(input: &[u8]) -> Ended {
    Ended { answers: model::program::program(input), why: why(input) }
}

/// Why the program is to stop: at the first record that number 12 refuses or that the input cuts,
/// or at the end. A record that says to be longer than any is bad by its first two bytes.
pub fn why(input: &[u8]) -> String {
    let mut at = 0;
    loop {
        let rest = &input[at..];
        let said = rest.first_chunk().map(|length| usize::from(u16::from_le_bytes(*length)));
        let record = said.map(|length| rest.get(..length));
        let wrong = match (said, record) {
            _ if rest.is_empty() => "the input ended, at",
            (None, _) => "cut record at",
            (Some(length), _) if length > 24 => "bad record at",
            (_, Some(Some(record))) if Request::decode(record).is_some() => {
                at += record.len();
                continue;
            }
            (_, Some(Some(_))) => "bad record at",
            _ => "cut record at",
        };
        return format!("keydesk: {wrong} byte {at}\n");
    }
}

/// The records of a session under a bias, one after the other.
pub fn session(seed: u64, bias: Bias, requests: usize) -> Vec<Vec<u8>> {
    let mut session = Session::fresh();
    let mut stream = Requests::new(seed, bias);
    let mut records = Vec::new();
    for _ in 0..requests {
        let request = stream.next(&session.tables());
        records.push(request.encode());
        session.ask(request);
    }
    records
}
