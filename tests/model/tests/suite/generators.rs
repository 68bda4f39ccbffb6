//! The generators: the same seed gives the same script, and together the random
//! scripts reach what they are meant to reach.

use crate::helpers::{each_step, rounds, seed, sound_table, Seen};
use model::answer::Reason;
use model::command::{Command, Form, Request};
use model::generate::{script, Generator};
use model::removal::{effects, Effect};
use model::rules::{touching_groups, unite, Law, Rules};
use model::script::{parse, run_with, LONGEST_SCRIPT};
use model::shrink::shrunk;
use model::sound::failing_clauses;
use model::state::{NodeSet, State};
use model::stranger::{Finding, Lookups};
use std::cell::{Cell, RefCell};
use std::collections::{BTreeMap, BTreeSet};

#[test]
fn the_same_seed_gives_the_same_script() {
    assert_eq!(script(5, 300), script(5, 300));
    assert_ne!(script(5, 300), script(6, 300));
    assert_eq!(sound_table(5), sound_table(5));
}

#[test]
fn scripts_have_their_lines_or_end_within_the_longest() {
    let short = script(3, 50);
    assert_eq!(short.split_inclusive(|byte| *byte == b'\n').count(), 50);
    let long = script(3, 100_000);
    assert!(long.len() <= LONGEST_SCRIPT && long.len() > LONGEST_SCRIPT - 400);
}

/// The reasons that a script can bring out, for each command and for opening.
fn reachable() -> BTreeSet<(Option<Form>, Reason)> {
    let mut all = BTreeSet::new();
    for reason in [Reason::MainCase, Reason::RosterSize, Reason::NodeOffRoster] {
        all.insert((None, reason));
    }
    for form in Form::ALL {
        all.insert((Some(form), Reason::MainCase));
        all.insert((Some(form), Reason::Unsound));
        let others = form
            .reasons()
            .iter()
            .filter(|reason| **reason != Reason::ShortRun);
        all.extend(others.map(|reason| (Some(form), *reason)));
    }
    all
}

/// What a run of random scripts has seen.
#[derive(Default)]
struct Reached {
    reasons: BTreeSet<(Option<Form>, Reason)>,
    most_groups: usize,
    most_names: usize,
}

impl Reached {
    fn note(&mut self, seen: &Seen) {
        let form = match &seen.request {
            Request::Open { .. } => None,
            Request::Call { command, .. } => Some(command.form()),
        };
        self.reasons.insert((form, seen.answer.reason));
        if let Some(state) = &seen.after {
            let names = state.s_groups.values().map(|group| group.names.len()).max();
            self.most_groups = self.most_groups.max(state.s_groups.len());
            self.most_names = self.most_names.max(names.unwrap_or(0));
        }
    }
}

/// Shows every well formed line of 300 random scripts of 200 lines.
fn on_every_step(note: impl FnMut(&Seen)) {
    let first = seed();
    let note = RefCell::new(note);
    for seed in first..first + rounds(300) {
        let show = |seen: &Seen| {
            note.borrow_mut()(seen);
            Ok(())
        };
        each_step(&script(seed, 200), &show).expect("bad lines change nothing");
    }
}

#[test]
fn every_reason_of_every_command_is_reached() {
    let mut reached = Reached::default();
    on_every_step(|seen| reached.note(seen));
    let missing: Vec<_> = reachable().difference(&reached.reasons).copied().collect();
    assert_eq!(missing, []);
    assert!(reached.reasons.is_subset(&reachable()));
    assert_eq!((reached.most_groups, reached.most_names), (32, 32));
}

#[test]
fn rosters_of_every_size_are_opened() {
    let first = seed();
    let mut sizes = BTreeSet::new();
    for seed in first..first + rounds(4_000) {
        sizes.insert(Generator::new(seed).opened_state().nodes.len());
    }
    assert_eq!(sizes, (1..=64).collect());
}

/// Counts what happens to free groups while a script runs.
#[derive(Default)]
struct Counting {
    merged_links: Cell<u32>,
    split_groups: Cell<u32>,
    joined_none: Cell<u32>,
    joined_one: Cell<u32>,
    joined_several: Cell<u32>,
}

fn count(cell: &Cell<u32>) {
    cell.set(cell.get() + 1);
}

impl Rules for Counting {
    fn connect(&self, state: &mut State, a: u32, b: u32) {
        let before = state.free_groups.len();
        Law.connect(state, a, b);
        if state.free_groups.len() < before {
            count(&self.merged_links);
        }
    }

    fn leave_free_groups(&self, state: &mut State, leaving: &NodeSet) {
        let splits = |group: &NodeSet| (group & leaving).len() > 1 && !group.is_subset(leaving);
        if state.free_groups.iter().any(splits) {
            count(&self.split_groups);
        }
        Law.leave_free_groups(state, leaving);
    }

    fn join_free_groups(&self, state: &mut State, lot: &NodeSet) {
        let mut parts = touching_groups(state, lot);
        match parts.len() {
            0 => count(&self.joined_none),
            1 => count(&self.joined_one),
            _ => count(&self.joined_several),
        }
        parts.push(lot.clone());
        unite(state, &parts);
    }
}

#[test]
fn free_groups_merge_split_and_join_in_many_ways() {
    let first = seed();
    let counting = Counting::default();
    for seed in first..first + rounds(300) {
        run_with(&counting, &script(seed, 200));
    }
    let counted = [
        ("merged by a link", counting.merged_links.get()),
        ("left by several at once", counting.split_groups.get()),
        ("lots that joined none", counting.joined_none.get()),
        ("lots that joined one", counting.joined_one.get()),
        ("lots that joined several", counting.joined_several.get()),
    ];
    println!("{counted:?}");
    for (what, times) in counted {
        assert!(times >= 20, "{what}: {times}");
    }
}

/// What removals did to names while scripts ran.
#[derive(Default)]
struct Removals {
    granted: u32,
    effects: BTreeMap<Effect, u32>,
}

impl Removals {
    fn note(&mut self, seen: &Seen) {
        let (Some(before), Request::Call { caller, command }) = (&seen.before, &seen.request)
        else {
            return;
        };
        let (Command::RemoveNodes { s, set }, Reason::MainCase) = (command, seen.answer.reason)
        else {
            return;
        };
        self.granted += 1;
        let done = effects(before, *caller, *s, set);
        let names = |state: &State| state.s_groups.get(s).map(|group| group.names.len());
        let left = seen.after.as_ref().and_then(names);
        assert_eq!(
            done.contains(&Effect::Drops),
            left.is_some() && left < names(before)
        );
        for effect in done {
            *self.effects.entry(effect).or_default() += 1;
        }
    }
}

#[test]
fn removals_drop_and_keep_names_in_every_way() {
    let mut removals = Removals::default();
    on_every_step(|seen| removals.note(seen));
    println!("{} granted: {:?}", removals.granted, removals.effects);
    for effect in Effect::ALL {
        let times = removals.effects.get(&effect).copied().unwrap_or(0);
        assert!(times >= 5, "{effect:?}: {times}");
    }
}

/// What lookups found of hosts while scripts ran.
#[derive(Default)]
struct Hosts {
    lookups: Lookups,
    told: BTreeMap<Reason, u32>,
    findings: BTreeMap<Finding, u32>,
}

impl Hosts {
    fn note(&mut self, seen: &Seen) {
        let (Some(before), Request::Call { caller, command }) = (&seen.before, &seen.request)
        else {
            return;
        };
        let granted = !seen.answer.reason.refuses();
        if granted && command.form().looks_up() {
            *self.told.entry(seen.answer.reason).or_default() += 1;
        }
        for finding in self.lookups.findings(before, *caller, command, granted) {
            *self.findings.entry(finding).or_default() += 1;
        }
    }
}

#[test]
fn lookups_find_members_and_strangers_in_every_way() {
    let mut hosts = Hosts::default();
    on_every_step(|seen| hosts.note(seen));
    println!("told {:?}: {:?}", hosts.told, hosts.findings);
    for finding in Finding::ALL {
        let times = hosts.findings.get(&finding).copied().unwrap_or(0);
        assert!(times >= 5, "{finding:?}: {times}");
    }
}

#[test]
fn about_one_line_in_twelve_is_malformed() {
    let text = script(seed(), 1_500);
    let lines: Vec<&[u8]> = text.split_inclusive(|byte| *byte == b'\n').collect();
    let bad = lines.iter().filter(|line| parse(line).is_none()).count();
    assert!(
        bad * 20 > lines.len() && bad * 6 < lines.len(),
        "{bad} of {}",
        lines.len()
    );
}

#[test]
fn random_tables_are_sound_and_differ() {
    let first = seed();
    let mut tables = BTreeSet::new();
    for seed in first..first + rounds(200) {
        let words = sound_table(seed);
        assert_eq!(failing_clauses(&words), BTreeSet::new(), "seed {seed}");
        tables.insert(words);
    }
    assert!(
        tables.len() as u64 * 10 > 9 * rounds(200),
        "{} tables",
        tables.len()
    );
}

#[test]
fn a_failing_script_is_shrunk_to_what_it_needs() {
    let whole = b"a\nb\nc\nd\ne\nf\ng\n";
    let has = |script: &[u8], byte: u8| script.contains(&byte);
    let short = shrunk(whole, &|script| has(script, b'b') && has(script, b'f'));
    assert_eq!(short, b"b\nf\n");
    assert_eq!(shrunk(whole, &|_| true), b"");
}
