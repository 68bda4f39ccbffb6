//! Comparison of the library with the model on random calls: `library SEED WALKS`, or `library again FILE..` for kept cases. Walk k has the seed
//! SEED + k. Prints what was covered; a case that differs is made smaller and kept in tests/compare/kept/. The status is 0 where nothing differs, every
//! reason that a command can have was seen, everything that a removal can do to names, and every way in which a lookup can find a host.

use compare::case::{difference, ran, refused, Case};
use compare::random::{Kind, Walk, STEPS};
use compare::{kept, smaller};
use model::command::{Command, Form, Request};
use model::removal::{effects, Effect};
use model::state::State;
use model::stranger::{Finding, Lookups};
use model::table::state_of;
use std::collections::BTreeMap;
use std::fs;
use std::process::ExitCode;

fn main() -> ExitCode {
    let arguments: Vec<String> = std::env::args().skip(1).collect();
    match arguments.as_slice() {
        [word, files @ ..] if word == "again" && !files.is_empty() => again(files),
        [seed, walks] => match (seed.parse(), walks.parse()) {
            (Ok(seed), Ok(walks)) => walked(seed, walks),
            _ => usage(),
        },
        _ => usage(),
    }
}

fn usage() -> ExitCode {
    eprintln!("usage: library SEED WALKS | library again FILE..");
    ExitCode::from(2)
}

/// Runs kept cases once more.
fn again(files: &[String]) -> ExitCode {
    let mut failed = false;
    for file in files {
        let case = fs::read_to_string(file)
            .ok()
            .and_then(|text| kept::read(&text));
        let verdict = match case {
            Some(case) => difference(&case),
            None => Some("no case of the library".to_string()),
        };
        failed |= verdict.is_some();
        println!(
            "{file}: {}",
            verdict.unwrap_or_else(|| "agrees".to_string())
        );
    }
    ExitCode::from(u8::from(failed))
}

/// What was covered so far.
#[derive(Default)]
struct Seen {
    kinds: BTreeMap<Kind, usize>,
    /// How often a form, or opening, gave a reason.
    reasons: BTreeMap<(Option<Form>, u32), usize>,
    /// How many removals were granted, and how often one did this to names.
    removals: usize,
    effects: BTreeMap<Effect, usize>,
    /// The lookups of the walks, how many told a pid, and how often one found a host in this way.
    lookups: Lookups,
    told: usize,
    findings: BTreeMap<Finding, usize>,
}

impl Seen {
    fn take(&mut self, kind: Kind, case: &Case) {
        *self.kinds.entry(kind).or_default() += 1;
        let form = match &case.request {
            Request::Open { .. } => None,
            Request::Call { command, .. } => Some(command.form()),
        };
        let reason = ran(case).returned;
        *self.reasons.entry((form, reason)).or_default() += 1;
        self.take_call(kind, case, reason);
    }

    /// Notes what a call does to names and what it finds; a call that is granted has a sound table.
    fn take_call(&mut self, kind: Kind, case: &Case, reason: u32) {
        let Request::Call { caller, command } = &case.request else {
            return;
        };
        if kind != Kind::Sound && refused(reason) {
            return;
        }
        let Ok(before) = state_of(&case.table) else {
            return;
        };
        self.take_removal(&before, *caller, command, reason);
        if kind == Kind::Sound {
            self.take_lookup(&before, *caller, command, reason);
        }
    }

    /// Notes what a granted removal does to names.
    fn take_removal(&mut self, before: &State, caller: u32, command: &Command, reason: u32) {
        let (Command::RemoveNodes { s, set }, false) = (command, refused(reason)) else {
            return;
        };
        self.removals += 1;
        for effect in effects(before, caller, *s, set) {
            *self.effects.entry(effect).or_default() += 1;
        }
    }

    /// Notes how a granted lookup of a walk finds the host.
    fn take_lookup(&mut self, before: &State, caller: u32, command: &Command, reason: u32) {
        let granted = !refused(reason);
        self.told += usize::from(granted && command.form().looks_up());
        for finding in self.lookups.findings(before, caller, command, granted) {
            *self.findings.entry(finding).or_default() += 1;
        }
    }

    /// What never came.
    fn missing(&self) -> Vec<String> {
        let effects = Effect::ALL.into_iter();
        let never_done = effects.filter(|effect| !self.effects.contains_key(effect));
        let findings = Finding::ALL.into_iter();
        let never_found = findings.filter(|finding| !self.findings.contains_key(finding));
        let mut missing = self.missing_reasons();
        missing.extend(never_done.map(|effect| format!("RemoveNodes {effect:?}")));
        missing.extend(never_found.map(|finding| format!("lookup {finding:?}")));
        missing
    }

    /// Reasons that a command can have and that never came.
    fn missing_reasons(&self) -> Vec<String> {
        let opening = [0, 1, 2, 7].map(|reason| (None, reason));
        let commands = Form::ALL.iter().flat_map(|form| {
            let own = form.reasons().iter().map(|reason| reason.number());
            [0, 1, 3]
                .into_iter()
                .chain(own)
                .map(|reason| (Some(*form), reason))
        });
        let all = opening.into_iter().chain(commands);
        let never = all.filter(|pair| !self.reasons.contains_key(pair));
        never
            .map(|(form, reason)| format!("{form:?} {reason}"))
            .collect()
    }
}

fn walked(seed: u64, walks: u64) -> ExitCode {
    println!("library: seed {seed}, {walks} walks of {STEPS} steps");
    let mut seen = Seen::default();
    for k in 0..walks {
        let mut walk = Walk::new(seed + k);
        for step in 0..STEPS {
            for (kind, case) in walk.step() {
                seen.take(kind, &case);
                if let Some(wrong) = difference(&case) {
                    report(seed + k, step, &case, &wrong);
                    return ExitCode::FAILURE;
                }
            }
        }
    }
    let cases: usize = seen.kinds.values().sum();
    println!("library: {cases} cases {:?}, 0 differences", seen.kinds);
    covered(&seen)
}

/// Prints what was seen and what never came.
fn covered(seen: &Seen) -> ExitCode {
    let missing = seen.missing();
    println!(
        "library: {} pairs of command and reason seen; {} removals {:?}; {} lookups {:?}; {} missing",
        seen.reasons.len(),
        seen.removals,
        seen.effects,
        seen.told,
        seen.findings,
        missing.len()
    );
    for what in &missing {
        println!("library: never seen: {what}");
    }
    ExitCode::from(u8::from(!missing.is_empty()))
}

fn report(seed: u64, step: usize, case: &Case, wrong: &str) {
    println!("library: walk {seed}, step {step}: {wrong}");
    let small = smaller::smaller(case, &|case| difference(case).is_some());
    let path = format!("{}/library-{seed}-{step}.case", kept::FOLDER);
    let written =
        fs::create_dir_all(kept::FOLDER).and_then(|()| fs::write(&path, kept::text(&small)));
    match written {
        Ok(()) => println!("library: made smaller and kept in {path}:"),
        Err(error) => println!("library: {path} can't be written, {error}:"),
    }
    print!("{}", kept::text(&small));
    println!("{}", difference(&small).unwrap_or_default());
}
