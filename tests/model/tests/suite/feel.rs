//! Who may feel what: on two sound tables of equal roster size, answers about a
//! group depend on nothing but that group, the arguments and the room.

use crate::helpers::{rounds, seed};
use model::answer::{Answer, Reason};
use model::command::{Command, Form, Request};
use model::generate::Generator;
use model::rules::{call, Law};
use model::state::{set_of, word_of, SGroup, State, MOST_GROUPS};
use std::collections::BTreeMap;

const FORMS: [Form; 6] = [
    Form::RegisterName,
    Form::ReRegisterName,
    Form::UnregisterName,
    Form::RegisteredNames,
    Form::WhereisName,
    Form::AddNodes,
];

/// A call that must have its main case.
fn granted(state: &mut State, caller: u32, form: Form, arguments: &[u64]) {
    let command = Command::from_arguments(form, arguments).expect("the arguments fit");
    let answer = call(&Law, state, caller, &command, 64);
    assert_eq!(answer.reason, Reason::MainCase);
}

/// The state with group `s` replaced by this one, or gone.
fn with_group(mut state: State, s: u32, group: Option<&SGroup>) -> State {
    if let Some(old) = state.s_groups.get(&s) {
        let member = *old.members.first().expect("each group has a member");
        granted(&mut state, member, Form::DeleteSGroup, &[u64::from(s)]);
    }
    let Some(group) = group else {
        return state;
    };
    if state.s_groups.len() == MOST_GROUPS {
        let (other, old) = state.s_groups.first_key_value().expect("32 groups");
        let (other, member) = (u64::from(*other), *old.members.first().expect("a member"));
        granted(&mut state, member, Form::DeleteSGroup, &[other]);
    }
    let caller = *group.members.first().expect("each group has a member");
    let set = word_of(&group.members);
    granted(&mut state, caller, Form::NewSGroup, &[u64::from(s), set]);
    for (n, p) in &group.names {
        let arguments = [s, *n, *p].map(u64::from);
        granted(&mut state, caller, Form::RegisterName, &arguments);
    }
    assert_eq!(state.s_groups.get(&s), Some(group));
    state
}

/// Another state with the same roster size, whatever its hidden nodes.
fn other_state(like: &State, generator: &mut Generator) -> State {
    let n = like.nodes.len() as u32;
    let hidden = set_of(generator.prng.word() & generator.prng.word() & (u64::MAX >> (64 - n)));
    let mut state = State::opened(n, &hidden);
    for _ in 0..30 {
        if let Request::Call { caller, command } = generator.request() {
            call(&Law, &mut state, caller, &command, 64);
        }
    }
    state
}

/// Compares a request's answers on this state and on another that agrees with
/// it about the request's group; none if the rule doesn't speak of the request.
fn compared(one: &State, request: &Request, others: &mut Generator) -> Option<Answer> {
    let Request::Call { caller, command } = request else {
        return None;
    };
    let s = command
        .s_group()
        .filter(|_| FORMS.contains(&command.form()))?;
    let other = with_group(other_state(one, others), s, one.s_groups.get(&s));
    let room = others.prng.below(40) as usize;
    let by_one = call(&Law, &mut one.clone(), *caller, command, room);
    let by_other = call(&Law, &mut other.clone(), *caller, command, room);
    assert_eq!(by_one, by_other, "{} with room {room}", request.line());
    Some(by_one)
}

#[test]
fn answers_about_a_group_depend_on_it_alone() {
    let first = seed();
    let mut by_reason = BTreeMap::new();
    for seed in first..first + rounds(120) {
        let mut generator = Generator::new(seed);
        let mut others = Generator::new(!seed);
        for _ in 0..60 {
            let one = generator.opened_state();
            let request = generator.request();
            if let Some(answer) = compared(&one, &request, &mut others) {
                *by_reason.entry(answer.reason.number()).or_insert(0) += 1;
            }
        }
    }
    println!("answers compared by reason: {by_reason:?}");
    assert!(by_reason[&0] > 100 && by_reason[&21] > 10);
}
