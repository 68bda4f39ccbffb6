//! Makes a failing case smaller as long as it still fails: the table, the request's numbers, the other lent runs. A sound table is made smaller in
//! the model's state and laid out again, so that it stays sound; of any other, words become zero one at a time.

use crate::case::{sound, Case};
use crate::parts::{parts, take_out};
use model::command::{Request, Width};
use model::compare;
use model::state::{word_of, State};
use model::table::{state_of, words_of};

/// Whether a case still fails.
type Fails<'a> = &'a dyn Fn(&Case) -> bool;

/// A smaller case that still fails.
pub fn smaller(case: &Case, fails: Fails) -> Case {
    let mut best = case.clone();
    loop {
        let before = best.clone();
        if sound(&best.table) {
            smaller_state(&mut best, fails);
        } else {
            zeroed(&mut best, fails);
        }
        smaller_numbers(&mut best, fails);
        smaller_runs(&mut best, fails);
        if best == before {
            return best;
        }
    }
}

/// Takes the change where the case still fails; says whether it did.
fn attempt(best: &mut Case, fails: Fails, change: impl Fn(&mut Case)) -> bool {
    let mut tried = best.clone();
    change(&mut tried);
    let taken = tried != *best && fails(&tried);
    if taken {
        *best = tried;
    }
    taken
}

/// The same for a change of a sound table's state, and of the request with it; the table must stay sound.
fn attempt_on_state(
    best: &mut Case,
    fails: Fails,
    change: impl Fn(&mut State, &mut Request),
) -> bool {
    let still_fails = |case: &Case| sound(&case.table) && fails(case);
    attempt(best, &still_fails, |case| {
        if let Ok(mut state) = state_of(&case.table) {
            change(&mut state, &mut case.request);
            case.table = words_of(&state);
        }
    })
}

/// Takes out each part of the state that isn't needed, then lowers the pids.
fn smaller_state(best: &mut Case, fails: Fails) {
    for part in state_of(&best.table).iter().flat_map(parts) {
        attempt_on_state(best, fails, |state, request| {
            take_out(&part, state, request);
        });
    }
    for (s, n, p) in state_of(&best.table).iter().flat_map(registered) {
        for lower in lower_numbers(u64::from(p)) {
            let taken = attempt_on_state(best, fails, |state, _| {
                if let Some(group) = state.s_groups.get_mut(&s) {
                    group.names.insert(n, lower as u32);
                }
            });
            if taken {
                break;
            }
        }
    }
}

/// Every registered name with its s_group and its pid.
fn registered(state: &State) -> Vec<(u32, u32, u32)> {
    let groups = state.s_groups.iter();
    groups
        .flat_map(|(s, group)| group.names.iter().map(|(n, p)| (*s, *n, *p)))
        .collect()
}

fn zeroed(best: &mut Case, fails: Fails) {
    for place in 0..best.table.len() {
        attempt(best, fails, |case| case.table[place] = 0);
    }
}

/// Lowers each number of the request; of a set, takes nodes out and moves the rest down.
fn smaller_numbers(best: &mut Case, fails: Fails) {
    for place in 0..numbers(&best.request).len() {
        for other in lower_at(&best.request, place) {
            if attempt(best, fails, |case| case.request = other.clone()) {
                break;
            }
        }
    }
}

/// The requests with one number lower, or one set smaller.
pub fn lower_requests(request: &Request) -> Vec<Request> {
    let places = 0..numbers(request).len();
    places.flat_map(|place| lower_at(request, place)).collect()
}

/// The same at one place of `numbers`.
fn lower_at(request: &Request, place: usize) -> Vec<Request> {
    let (number, width) = numbers(request)[place];
    let others = match width {
        Width::Number32 => lower_numbers(number),
        Width::Set64 => smaller_sets(number),
    };
    let lower = others.into_iter();
    lower
        .map(|other| with_number(request, place, other))
        .collect()
}

/// Zero, then ever closer to the number from below.
pub fn lower_numbers(number: u64) -> Vec<u64> {
    let steps = (0..u64::BITS).map(|k| number >> k);
    steps
        .take_while(|step| *step > 0)
        .map(|step| number - step)
        .collect()
}

/// The empty set, as many of the lowest nodes, and the set without one of its nodes.
fn smaller_sets(set: u64) -> Vec<u64> {
    let lowest = u64::MAX.checked_shr(set.count_zeros()).unwrap_or(0);
    let nodes = (0..u64::BITS).map(|node| 1 << node);
    let without_one = nodes.filter(|node| set & node != 0).map(|node| set - node);
    [0, lowest].into_iter().chain(without_one).collect()
}

/// The request's numbers with their widths: the caller, then the arguments; for opening, the size and the hidden nodes.
fn numbers(request: &Request) -> Vec<(u64, Width)> {
    match request {
        Request::Open { n, hidden } => vec![
            (u64::from(*n), Width::Number32),
            (word_of(hidden), Width::Set64),
        ],
        Request::Call { caller, command } => {
            let widths = command.form().widths().iter().copied();
            let mut all = vec![(u64::from(*caller), Width::Number32)];
            all.extend(command.arguments().into_iter().zip(widths));
            all
        }
    }
}

/// The request with another number at a place of `numbers`.
fn with_number(request: &Request, place: usize, number: u64) -> Request {
    let mut all: Vec<u64> = numbers(request).iter().map(|(old, _)| *old).collect();
    all[place] = number;
    match request {
        Request::Open { .. } => compare::opening(all[0] as u32, all[1]),
        Request::Call { command, .. } => {
            let lower = compare::command(all[0] as u32, command.form(), &all[1..]);
            lower.expect("lower numbers fit")
        }
    }
}

fn smaller_runs(best: &mut Case, fails: Fails) {
    attempt(best, fails, |case| case.out.fill(0));
    attempt(best, fails, |case| case.answer.fill(0));
    while attempt(best, fails, |case| shorten(&mut case.out)) {}
    while attempt(best, fails, |case| shorten(&mut case.answer)) {}
}

/// The run without its last word.
pub fn shorten(run: &mut Vec<u64>) {
    run.pop();
}
