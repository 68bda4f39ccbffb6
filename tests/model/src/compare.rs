//! One request on a table of words, answered in plain numbers, ready to be held
//! against another implementation: kind, two value numbers, reason, the words
//! of the list and the words of the table afterwards.

use crate::answer::{Answer, Reason, Value};
use crate::command::{Command, Form, Request};
use crate::rules::{call, open, Law};
use crate::state::{set_of, State};
use crate::table::{state_of, words_of, WORDS};

/// What a request gives, in numbers.
#[derive(Clone, Debug, PartialEq, Eq)]
pub struct Outcome {
    /// 1 to 9: ok, true, false, error, undefined, pid, group, nodes, list.
    pub kind: u32,
    /// The pid, the group's name, the set of nodes or the list's word count;
    /// zero for the other kinds.
    pub first: u64,
    /// The group's set or the count of nodes; zero for the other kinds.
    pub second: u64,
    pub reason: u32,
    /// The words written to the answer run, from its start.
    pub list: Vec<u64>,
    /// Every word of the table run after the call.
    pub table: Vec<u64>,
}

impl Outcome {
    /// The answer run after the call, given what it held before.
    pub fn answer_run(&self, before: &[u64]) -> Vec<u64> {
        let mut run = before.to_vec();
        run[..self.list.len()].copy_from_slice(&self.list);
        run
    }
}

/// The opening as a request, its arguments as numbers.
pub fn opening(n: u32, hidden: u64) -> Request {
    Request::Open {
        n,
        hidden: set_of(hidden),
    }
}

/// A command as a request, its arguments as numbers in the order of a script
/// line; none if their number or a width doesn't fit the form.
pub fn command(caller: u32, form: Form, arguments: &[u64]) -> Option<Request> {
    let command = Command::from_arguments(form, arguments)?;
    Some(Request::Call { caller, command })
}

/// What a request gives on a table run of any length, with an answer run of
/// `room` words.
pub fn outcome(words: &[u64], request: &Request, room: usize) -> Outcome {
    let (answer, after) = if words.len() == WORDS {
        on_table(words, request, room)
    } else {
        (Answer::error(Reason::RunLength), None)
    };
    let table = after.map_or_else(|| words.to_vec(), |state| words_of(&state));
    in_numbers(&answer, table)
}

/// The answer, and the state afterwards where there is one.
fn on_table(words: &[u64], request: &Request, room: usize) -> (Answer, Option<State>) {
    match request {
        Request::Open { n, hidden } => open(*n, hidden),
        Request::Call { caller, command } => match state_of(words) {
            Err(_) => (Answer::error(Reason::Unsound), None),
            Ok(mut state) => {
                let answer = call(&Law, &mut state, *caller, command, room);
                (answer, Some(state))
            }
        },
    }
}

/// An answer in numbers, beside the words of the table after it.
pub fn in_numbers(answer: &Answer, table: Vec<u64>) -> Outcome {
    let fields = answer.value.fields();
    let field = |i: usize| fields.get(i).copied().unwrap_or(0);
    let (first, second, list) = match &answer.value {
        Value::List(words) => (field(0), 0, words.clone()),
        _ => (field(0), field(1), Vec::new()),
    };
    Outcome {
        kind: answer.value.kind(),
        first,
        second,
        reason: answer.reason.number(),
        list,
        table,
    }
}
