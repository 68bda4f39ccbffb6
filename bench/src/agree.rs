//! Both sides are held to the same answers and words before anything is timed, on the random calls of tests/compare.

use crate::api::{Api, PEERS, PLAIN, PLAIN_UNTESTED, PROVED, PROVED_UNTESTED};
use crate::call::{self, Asked, Lent, Which};
use crate::plain::test::Peer;
use compare::case::Case;
use compare::random::{Kind, Walk, STEPS};
use model::command::{Form, Request};
use model::state::word_of;

/// The command of a form.
fn which(form: Form) -> Which {
    match form {
        Form::RegisterName => Which::RegisterName,
        Form::ReRegisterName => Which::ReRegisterName,
        Form::UnregisterName => Which::UnregisterName,
        Form::RegisteredNames => Which::RegisteredNames,
        Form::WhereisName => Which::WhereisName,
        Form::WhereisNameAt => Which::WhereisNameAt,
        Form::SendPid => Which::Send,
        Form::SendName => Which::SendName,
        Form::SendNameAt => Which::SendAt,
        Form::NewSGroup => Which::NewSGroup,
        Form::AddNodes => Which::AddNodes,
        Form::RemoveNodes => Which::RemoveNodes,
        Form::DeleteSGroup => Which::DeleteSGroup,
        Form::OwnNodes => Which::OwnNodes,
        Form::OwnSGroups => Which::OwnSGroups,
    }
}

/// The request as a call; an argument that the command does not take is 0.
pub fn call_of(request: &Request) -> (Which, Asked) {
    match request {
        Request::Open { n, hidden } => (
            Which::Open,
            Asked {
                n: *n,
                set: word_of(hidden),
                ..Asked::default()
            },
        ),
        Request::Call { caller, command } => (
            which(command.form()),
            Asked {
                caller: *caller,
                node: command.asked_node().unwrap_or(0),
                s: command.s_group().unwrap_or(0),
                n: command.process_name().unwrap_or(0),
                p: command.pid().unwrap_or(0),
                set: command.set().map_or(0, word_of),
            },
        ),
    }
}

/// What a side makes of a case: the number returned and all runs.
fn outcome(api: &Api, case: &Case) -> (u64, Lent) {
    let (which, asked) = call_of(&case.request);
    let lent = Lent {
        table: case.table.clone(),
        out: case.out.clone(),
        answer: case.answer.clone(),
    };
    call::outcome(api, which, lent, asked)
}

/// What a side's test says.
pub fn says_sound(api: &Api, table: &[u64]) -> bool {
    unsafe { (api.is_sound)(table.as_ptr(), table.len()) }
}

/// What the proved test says of a table, once each plain one says the same.
pub fn same_verdict(table: &[u64]) -> bool {
    let ours = says_sound(&PROVED, table);
    for Peer { test, functions } in PEERS {
        let theirs = says_sound(functions, table);
        assert_eq!(ours, theirs, "is_sound, {test}: {table:?}");
    }
    ours
}

/// Runs so many walks on both sides; how many cases there were.
pub fn agree(seed: u64, walks: u64) -> usize {
    let mut cases = 0;
    for k in 0..walks {
        let mut walk = Walk::new(seed + k);
        for _ in 0..STEPS {
            for (kind, case) in walk.step() {
                cases += 1;
                same_verdict(&case.table);
                assert!(
                    outcome(&PROVED, &case) == outcome(&PLAIN, &case),
                    "{case:?}"
                );
                if kind == Kind::Sound {
                    assert!(
                        outcome(&PROVED_UNTESTED, &case) == outcome(&PLAIN_UNTESTED, &case),
                        "untested {case:?}"
                    );
                }
            }
        }
    }
    cases
}
