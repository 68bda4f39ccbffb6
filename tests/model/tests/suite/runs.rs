//! Random runs: what holds after every line of every script, and all states of
//! three nodes that commands can reach.

use crate::helpers::{each_step, holds, kept_scripts, on_random_scripts, same, words_of_run, Seen};
use model::answer::{Answer, Reason, Value};
use model::command::{Command, Form, Request};
use model::compare::{outcome, Outcome};
use model::rules::{call, Law, Rules};
use model::script::{parse, run, ROOM};
use model::sound::failing_clauses;
use model::state::{host_of, set_of, NodeSet, SGroup, State};
use model::table::{state_of, words_of, BODIES, BODY, CONTENTS, WORDS};
use std::collections::{BTreeMap, BTreeSet};

type Check = fn(&[u8]) -> Result<(), String>;

/// Every check on a whole script, with the name under which failures are kept.
const CHECKS: [(&str, Check); 10] = [
    ("soundness", keeps_soundness),
    ("refusals", refusals_write_nothing),
    ("inverse", layout_and_reading_are_inverse),
    ("words", words_and_states_agree),
    ("connections", connections_stay),
    ("asking", asking_writes_nothing),
    ("naming", naming_stays_in_its_words),
    ("leaving", names_leave_with_their_host),
    ("strangers", strangers_are_told),
    ("members", members_stay_no_strangers),
];

fn on_scripts(name: &str) {
    let check = CHECKS
        .iter()
        .find(|(known, _)| *known == name)
        .expect("a known check")
        .1;
    on_random_scripts(name, 60, 120, &check);
}

/// The state after a line is well formed and its words are sound.
fn keeps_soundness(script: &[u8]) -> Result<(), String> {
    each_step(script, &|seen: &Seen| {
        let Some(state) = &seen.after else {
            return Ok(());
        };
        if let Some(fault) = state.fault() {
            return Err(fault);
        }
        let failing = failing_clauses(&words_of(state));
        holds(failing.is_empty(), &format!("{failing:?}"))
    })
}

#[test]
fn every_command_keeps_soundness() {
    on_scripts("soundness");
}

/// A refused call leaves the table, but for a remote form's connection.
fn refusals_write_nothing(script: &[u8]) -> Result<(), String> {
    each_step(script, &|seen: &Seen| {
        if !seen.answer.reason.refuses() {
            return Ok(());
        }
        let mut expected = seen.before.clone();
        let links = matches!(seen.answer.reason.number(), 8..=16);
        if let (Some(state), true, Request::Call { caller, command }) =
            (&mut expected, links, &seen.request)
        {
            if let Some(at) = command.asked_node() {
                Law.connect(state, *caller, at);
            }
        }
        same(&seen.after, &expected, "a refusal wrote")
    })
}

#[test]
fn refusals_write_nothing_but_the_connection() {
    on_scripts("refusals");
}

/// A state comes back from its words, and words from their state.
fn layout_and_reading_are_inverse(script: &[u8]) -> Result<(), String> {
    each_step(script, &|seen: &Seen| {
        let Some(state) = &seen.after else {
            return Ok(());
        };
        let words = words_of(state);
        let back = state_of(&words).map_err(|failing| format!("{failing:?}"))?;
        same(&back, state, "the state doesn't come back")?;
        same(&words_of(&back), &words, "the words don't come back")
    })
}

#[test]
fn a_state_comes_back_from_its_words() {
    on_scripts("inverse");
}

/// The line that an outcome prints.
fn line_of(outcome: &Outcome) -> String {
    let words = [
        "ok",
        "true",
        "false",
        "error",
        "undefined",
        "pid",
        "group",
        "nodes",
        "list",
    ];
    let numbers: Vec<u64> = match outcome.kind {
        6 => vec![outcome.first],
        7 | 8 => vec![outcome.first, outcome.second],
        9 => [&[outcome.first], outcome.list.as_slice()].concat(),
        _ => Vec::new(),
    };
    let mut line = words[outcome.kind as usize - 1].to_string();
    for number in numbers {
        line += &format!(" {number}");
    }
    format!("{line} {}\n", outcome.reason)
}

/// Running a script call by call on words prints the same, and the words are
/// those of the state.
fn words_and_states_agree(script: &[u8]) -> Result<(), String> {
    let mut words = vec![0; WORDS];
    let mut printed = String::new();
    for line in script.split_inclusive(|byte| *byte == b'\n') {
        match parse(line) {
            None => printed += "bad-line\n",
            Some(request) => {
                let result = outcome(&words, &request, ROOM);
                printed += &line_of(&result);
                words = result.table;
            }
        }
    }
    same(&printed.into_bytes(), &run(script), "printed lines differ")?;
    let mut session = model::script::Session::new(&Law);
    for line in script.split_inclusive(|byte| *byte == b'\n') {
        session.print(line);
    }
    same(&words, &words_of_run(&session.state), "words differ")
}

#[test]
fn a_script_on_words_prints_the_same() {
    on_scripts("words");
}

/// Connections are never taken away, save by a new opening.
fn connections_stay(script: &[u8]) -> Result<(), String> {
    each_step(script, &|seen: &Seen| {
        let (Some(before), Some(after)) = (&seen.before, &seen.after) else {
            return Ok(());
        };
        if matches!(seen.request, Request::Open { .. }) {
            return Ok(());
        }
        let stay = before.nodes.iter().all(|(id, node)| {
            node.connections.is_subset(&after.nodes[id].connections)
                && node.node_type == after.nodes[id].node_type
        });
        holds(stay, "a connection or a node's type changed")
    })
}

#[test]
fn connections_are_never_taken_away() {
    on_scripts("connections");
}

/// The commands that only ask leave the table as it was.
fn asking_writes_nothing(script: &[u8]) -> Result<(), String> {
    each_step(script, &|seen: &Seen| {
        let asks = match &seen.request {
            Request::Open { .. } => false,
            Request::Call { command, .. } => matches!(
                command.form(),
                Form::RegisteredNames | Form::WhereisName | Form::OwnNodes | Form::OwnSGroups
            ),
        };
        holds(!asks || seen.before == seen.after, "asking wrote")
    })
}

#[test]
fn asking_leaves_the_table() {
    on_scripts("asking");
}

/// The three naming commands change only the group's own 32 words and the count
/// in its contents word.
fn naming_stays_in_its_words(script: &[u8]) -> Result<(), String> {
    each_step(script, &|seen: &Seen| {
        let Request::Call { command, .. } = &seen.request else {
            return Ok(());
        };
        let naming = matches!(
            command.form(),
            Form::RegisterName | Form::ReRegisterName | Form::UnregisterName
        );
        let (Some(before), Some(after), true) = (&seen.before, &seen.after, naming) else {
            return Ok(());
        };
        let s = command.s_group().unwrap_or(0);
        let place = before.s_groups.keys().position(|name| *name == s);
        let (old, new) = (words_of(before), words_of(after));
        let outside = (0..WORDS).filter(|i| old[*i] != new[*i]).find(|i| {
            let own = place.is_some_and(|place| {
                let body = BODIES + BODY * place;
                (body..body + BODY).contains(i)
                    || *i == CONTENTS + place && old[*i] % 65_536 == new[*i] % 65_536
            });
            !own
        });
        holds(outside.is_none(), &format!("word {outside:?} changed"))
    })
}

#[test]
fn naming_changes_only_its_own_words() {
    on_scripts("naming");
}

/// A removal drops the names of those whom its own s_group loses; every other
/// s_group stays as it is.
fn names_leave_with_their_host(script: &[u8]) -> Result<(), String> {
    each_step(script, &|seen: &Seen| {
        let (Some(before), Some(after)) = (&seen.before, &seen.after) else {
            return Ok(());
        };
        let Request::Call { command, .. } = &seen.request else {
            return Ok(());
        };
        let Command::RemoveNodes { s, .. } = command else {
            return Ok(());
        };
        let mut expected = before.s_groups.clone();
        match (expected.get_mut(s), after.s_groups.get(s)) {
            (Some(old), Some(new)) => {
                old.names = names_left(old, new);
                old.members = new.members.clone();
            }
            _ => drop(expected.remove(s)),
        }
        same(&after.s_groups, &expected, "other s_groups are left")
    })
}

/// The names of an s_group whose hosts are no members that it lost.
fn names_left(old: &SGroup, new: &SGroup) -> BTreeMap<u32, u32> {
    let lost = &old.members - &new.members;
    let names = old.names.iter().map(|(n, p)| (*n, *p));
    names
        .filter(|(_, p)| !lost.contains(&host_of(*p)))
        .collect()
}

#[test]
fn names_leave_with_their_host_alone() {
    on_scripts("leaving");
}

/// Whether a pid is hosted outside an s_group.
fn outside(group: &SGroup, pid: u32) -> bool {
    group.members.iter().all(|member| *member != host_of(pid))
}

/// 21 stands beside a pid that a lookup finds, exactly where its host is no
/// member. The caller is connected to the node that it asks, and by a send to the
/// host, whatever is told.
fn strangers_are_told(script: &[u8]) -> Result<(), String> {
    each_step(script, &|seen: &Seen| {
        let (Some(before), Request::Call { caller, command }) = (&seen.before, &seen.request)
        else {
            return Ok(());
        };
        let told = seen.answer.reason == Reason::HostOutside;
        let (Value::Pid(pid), true) = (&seen.answer.value, command.form().looks_up()) else {
            return holds(!told, "21 beside something else");
        };
        let group = &before.s_groups[&command.s_group().unwrap_or(0)];
        same(
            &told,
            &outside(group, *pid),
            "a stranger is not told, or a member is",
        )?;
        let mut expected = before.clone();
        if let Some(at) = command.asked_node() {
            Law.connect(&mut expected, *caller, at);
        }
        if matches!(command.form(), Form::SendName | Form::SendNameAt) {
            Law.connect(&mut expected, *caller, host_of(*pid));
        }
        same(&seen.after.as_ref(), &Some(&expected), "other connections")
    })
}

#[test]
fn lookups_tell_strangers_and_connect_as_ever() {
    on_scripts("strangers");
}

/// A name that stays with its pid is no stranger's where it was a member's.
fn members_stay_no_strangers(script: &[u8]) -> Result<(), String> {
    each_step(script, &|seen: &Seen| {
        let (Some(before), Some(after)) = (&seen.before, &seen.after) else {
            return Ok(());
        };
        if matches!(seen.request, Request::Open { .. }) {
            return Ok(());
        }
        let stranger_now = |(s, old): (&u32, &SGroup)| {
            after.s_groups.get(s).is_some_and(|new| {
                let stayed = old
                    .names
                    .iter()
                    .filter(|(n, p)| new.names.get(n) == Some(p));
                let mut inside = stayed.filter(|(_, p)| !outside(old, **p));
                inside.any(|(_, p)| outside(new, *p))
            })
        };
        let became = before.s_groups.iter().any(stranger_now);
        holds(!became, "a member's name became a stranger's")
    })
}

#[test]
fn a_members_name_becomes_a_strangers_by_re_registering_alone() {
    on_scripts("members");
}

#[test]
fn kept_scripts_pass_every_check() {
    for script in kept_scripts() {
        for (name, check) in CHECKS {
            check(&script).unwrap_or_else(|wrong| panic!("{name}: {wrong}"));
        }
    }
}

/// The calls on three nodes with group names 1 and 2 and no process names.
fn small_calls() -> Vec<(u32, Command)> {
    let mut commands = Vec::new();
    for s in 1..=2 {
        commands.push(Command::DeleteSGroup { s });
        for set in (0..8).map(set_of) {
            commands.push(Command::NewSGroup {
                s,
                set: set.clone(),
            });
            commands.push(Command::AddNodes {
                s,
                set: set.clone(),
            });
            commands.push(Command::RemoveNodes { s, set });
        }
    }
    for at in 0..3 {
        commands.push(Command::WhereisNameAt { at, s: 0, n: 1 });
    }
    let with_callers = |command: Command| (0..3).map(move |caller| (caller, command.clone()));
    commands.into_iter().flat_map(with_callers).collect()
}

/// Every state that these calls reach from the opening with this hidden set.
fn reached_from(hidden: &NodeSet, calls: &[(u32, Command)]) -> BTreeSet<State> {
    let start = State::opened(3, hidden);
    let mut reached = BTreeSet::from([start.clone()]);
    let mut waiting = vec![start];
    while let Some(state) = waiting.pop() {
        for (caller, command) in calls {
            let mut next = state.clone();
            let _: Answer = call(&Law, &mut next, *caller, command, ROOM);
            assert_eq!(next.fault(), None, "{caller} {command:?}");
            if reached.insert(next.clone()) {
                waiting.push(next);
            }
        }
    }
    reached
}

/// Every well formed state of three nodes with this hidden set, the s_groups 1
/// and 2 or fewer, and no process names.
fn well_formed_states(hidden: &NodeSet) -> BTreeSet<State> {
    let mut all = BTreeSet::new();
    for choice in 0..8 * 8 * 8u64 {
        let mut state = State::opened(3, hidden);
        for (bit, (a, b)) in [(0, 1), (0, 2), (1, 2)].into_iter().enumerate() {
            if choice >> bit & 1 == 1 {
                state.link(a, b);
            }
        }
        for (s, members) in [(1, choice >> 3 & 7), (2, choice >> 6)] {
            if members != 0 {
                let members = set_of(members);
                state.s_groups.insert(
                    s,
                    SGroup {
                        members,
                        names: BTreeMap::new(),
                    },
                );
            }
        }
        state.free_groups = free_groups_by_connection(&state);
        if state.fault().is_none() {
            all.insert(state);
        }
    }
    all
}

/// For each free normal node, itself with the free normal nodes connected to it.
fn free_groups_by_connection(state: &State) -> BTreeSet<NodeSet> {
    let free = |i: &u32| state.is_normal(*i) && state.in_no_s_group(*i);
    let group = |i: u32| {
        (0..3)
            .filter(free)
            .filter(|j| *j == i || state.connected(i, *j))
            .collect()
    };
    (0..3).filter(free).map(group).collect()
}

/// On three nodes the commands reach exactly the well formed states: none that
/// is unsound, and soundness lets nothing in that no run can bring.
#[test]
fn three_nodes_reach_exactly_the_well_formed_states() {
    let calls = small_calls();
    for hidden in (0..8).map(set_of) {
        assert_eq!(
            reached_from(&hidden, &calls),
            well_formed_states(&hidden),
            "{hidden:?}"
        );
    }
}
