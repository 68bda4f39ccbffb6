//! One call with its lent runs, and how the library's outcome differs from the model's.

use crate::library::{self, ANSWER_WORDS, NO_ROOM, PID};
use model::answer::Reason;
use model::command::{Command, Form, Request};
use model::compare::outcome;
use model::sound::failing_clauses;
use model::state::{host_of, PIDS_PER_HOST};
use model::table::WORDS;

/// A request with the runs that are lent to it.
#[derive(Clone, Debug, PartialEq, Eq)]
pub struct Case {
    pub request: Request,
    pub table: Vec<u64>,
    pub out: Vec<u64>,
    pub answer: Vec<u64>,
}

/// What the library made of a case.
pub struct Ran {
    pub returned: u32,
    pub table: Vec<u64>,
    pub out: Vec<u64>,
    pub answer: Vec<u64>,
}

/// Runs the case through the library.
pub fn ran(case: &Case) -> Ran {
    let mut after = Ran {
        returned: 0,
        table: case.table.clone(),
        out: case.out.clone(),
        answer: case.answer.clone(),
    };
    after.returned = library::call(
        &case.request,
        &mut after.table,
        &mut after.out,
        &mut after.answer,
    );
    after
}

/// What the model says the same runs are afterwards.
pub fn expected(case: &Case) -> Ran {
    if case.answer.len() < ANSWER_WORDS {
        return Ran {
            returned: NO_ROOM,
            table: case.table.clone(),
            out: case.out.clone(),
            answer: case.answer.clone(),
        };
    }
    let told = outcome(&case.table, &case.request, case.out.len());
    let mut answer = case.answer.clone();
    answer[..ANSWER_WORDS].copy_from_slice(&[
        u64::from(told.kind),
        told.first,
        told.second,
        u64::from(told.reason),
    ]);
    Ran {
        returned: told.reason,
        out: told.answer_run(&case.out),
        answer,
        table: told.table,
    }
}

/// Whether the model finds the run sound.
pub fn sound(table: &[u64]) -> bool {
    table.len() == WORDS && failing_clauses(table).is_empty()
}

/// How the library differs from the model on this case, or from what 01 says of every call; none where it doesn't.
pub fn difference(case: &Case) -> Option<String> {
    let (ours, theirs) = (ran(case), expected(case));
    if ours.returned != theirs.returned {
        return Some(format!(
            "returned {}, the model {}",
            ours.returned, theirs.returned
        ));
    }
    different_word("answer", &ours.answer, &theirs.answer)
        .or_else(|| different_word("list", &ours.out, &theirs.out))
        .or_else(|| different_word("table", &ours.table, &theirs.table))
        .or_else(|| test_differs(&case.table))
        .or_else(|| left_unsound(case, &ours))
        .or_else(|| wrote_on_refusal(case, &ours))
        .or_else(|| linked_otherwise(case, &ours))
}

/// Whether the number returned is that of a refusal.
pub fn refused(returned: u32) -> bool {
    Reason::GRANTED
        .iter()
        .all(|reason| reason.number() != returned)
}

/// The first word in which two runs differ.
pub fn different_word(run: &str, ours: &[u64], theirs: &[u64]) -> Option<String> {
    let place = (0..ours.len()).find(|i| ours[*i] != theirs[*i])?;
    Some(format!(
        "{run} word {place} is {}, the model's {}",
        ours[place], theirs[place]
    ))
}

fn test_differs(table: &[u64]) -> Option<String> {
    let ours = library::is_sound(table);
    (ours != sound(table)).then(|| format!("the test says {ours}"))
}

/// Every call leaves a sound table sound.
fn left_unsound(case: &Case, ours: &Ran) -> Option<String> {
    let broken = sound(&case.table) && !sound(&ours.table);
    broken.then(|| "a sound table is left unsound".to_string())
}

/// A refusal writes nothing; only a remote form under 8 to 16 leaves its connection, which is the table as a send to the asked node leaves it.
fn wrote_on_refusal(case: &Case, ours: &Ran) -> Option<String> {
    let connected = match (ours.returned, &case.request) {
        (8..=16, Request::Call { caller, command }) => command
            .asked_node()
            .map(|at| after_send(&case.table, *caller, at)),
        _ => None,
    };
    let table = connected.as_ref().unwrap_or(&case.table);
    let wrote = refused(ours.returned) && (ours.table != *table || ours.out != case.out);
    wrote.then(|| format!("a refusal with reason {} left other words", ours.returned))
}

/// A lookup that finds a pid leaves the table as the caller's send to the asked node leaves it, and a send by name as one to the host leaves that. It is so
/// with a stranger's pid as with a member's.
fn linked_otherwise(case: &Case, ours: &Ran) -> Option<String> {
    let Request::Call { caller, command } = &case.request else {
        return None;
    };
    let form = command.form();
    if refused(ours.returned) || !form.looks_up() {
        return None;
    }
    let host =
        matches!(form, Form::SendName | Form::SendNameAt).then(|| host_of(ours.answer[PID] as u32));
    let linked = command.asked_node().into_iter().chain(host);
    let table = linked.fold(case.table.clone(), |table, node| {
        after_send(&table, *caller, node)
    });
    (ours.table != table).then(|| format!("reason {} left other words", ours.returned))
}

/// The table after the caller's send, through the library, to a pid of this node.
fn after_send(table: &[u64], caller: u32, node: u32) -> Vec<u64> {
    let p = node * PIDS_PER_HOST;
    let command = Command::SendPid { p };
    let request = Request::Call { caller, command };
    let mut after = table.to_vec();
    library::call(&request, &mut after, &mut [], &mut [0; ANSWER_WORDS]);
    after
}
