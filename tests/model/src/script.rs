//! The script program: the bytes of a script in, the printed bytes out.

use crate::answer::{Answer, Reason};
use crate::command::{Command, Form, Request, Width};
use crate::rules::{call, open, Law, Rules};
use crate::state::{set_of, State};

pub const LONGEST_SCRIPT: usize = 65_536;
pub const LONGEST_LINE: usize = 120;
/// Words in the answer run of the script program.
pub const ROOM: usize = 64;

/// What the program prints for a script.
pub fn run(script: &[u8]) -> Vec<u8> {
    run_with(&Law, script)
}

/// The same under other rules.
pub fn run_with(rules: &dyn Rules, script: &[u8]) -> Vec<u8> {
    if script.len() > LONGEST_SCRIPT {
        return b"too-long\n".to_vec();
    }
    let mut session = Session::new(rules);
    let mut printed = Vec::new();
    for line in script.split_inclusive(|byte| *byte == b'\n') {
        printed.extend(session.print(line).into_bytes());
        printed.push(b'\n');
    }
    printed
}

/// A running script. Without a state the table is all zero words.
pub struct Session<'a> {
    rules: &'a dyn Rules,
    pub state: Option<State>,
}

impl<'a> Session<'a> {
    pub fn new(rules: &'a dyn Rules) -> Session<'a> {
        Session { rules, state: None }
    }

    /// What one line prints, the line given with its newline if it has one.
    pub fn print(&mut self, line: &[u8]) -> String {
        match parse(line) {
            Some(request) => self.answer(&request).to_string(),
            None => "bad-line".to_string(),
        }
    }

    /// The answer to one request. A refused opening leaves the table; a command
    /// on the all-zero table finds it unsound.
    pub fn answer(&mut self, request: &Request) -> Answer {
        match request {
            Request::Open { n, hidden } => {
                let (answer, opened) = open(*n, hidden);
                if opened.is_some() {
                    self.state = opened;
                }
                answer
            }
            Request::Call { caller, command } => match &mut self.state {
                Some(state) => call(self.rules, state, *caller, command, ROOM),
                None => Answer::error(Reason::Unsound),
            },
        }
    }
}

/// The request of a line given with its newline; none for a bad line.
pub fn parse(line: &[u8]) -> Option<Request> {
    let text = line.strip_suffix(b"\n")?;
    if text.len() > LONGEST_LINE {
        return None;
    }
    let fields: Vec<&[u8]> = text.split(|byte| *byte == b' ').collect();
    match fields.as_slice() {
        [b"open", n, hidden] => Some(Request::Open {
            n: number(n, Width::Number32)? as u32,
            hidden: set_of(number(hidden, Width::Set64)?),
        }),
        [caller, word, arguments @ ..] => Some(Request::Call {
            caller: number(caller, Width::Number32)? as u32,
            command: command(word, arguments)?,
        }),
        _ => None,
    }
}

/// The command of this word that takes this many arguments.
fn command(word: &[u8], arguments: &[&[u8]]) -> Option<Command> {
    let form = Form::ALL
        .into_iter()
        .find(|form| form.word().as_bytes() == word && form.widths().len() == arguments.len())?;
    let numbers: Option<Vec<u64>> = arguments
        .iter()
        .zip(form.widths())
        .map(|(digits, width)| number(digits, *width))
        .collect();
    Command::from_arguments(form, &numbers?)
}

/// A decimal number without a leading zero that fits the width.
fn number(digits: &[u8], width: Width) -> Option<u64> {
    let well_formed = !digits.is_empty()
        && digits.iter().all(u8::is_ascii_digit)
        && (digits.len() == 1 || digits[0] != b'0');
    if !well_formed {
        return None;
    }
    let value = digits.iter().try_fold(0u64, |value, digit| {
        value.checked_mul(10)?.checked_add(u64::from(digit - b'0'))
    })?;
    (value <= width.largest()).then_some(value)
}
