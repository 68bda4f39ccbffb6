//! Comparison of the library with the model on calls with an index: `index SEED WALKS`, or `index again FILE..` for kept cases. Walk k has the seed SEED + k. Each
//! walk goes twice: once with cases of every kind of table and index, once on a table and an index that the library keeps from call to call. Prints what was
//! covered; a case that differs is made smaller and kept in tests/compare/kept/. The status is 0 where nothing differs, every reason that a call can have was seen,
//! every fault of an index with every call, every change of an index and everything that reading by pid can find.

use compare::index_case::{difference, ran, Case};
use compare::index_held::Held;
use compare::index_random::{Called, Faults, Kinds, Walk, STEPS};
use compare::library::NO_ROOM;
use compare::random::Kind;
use compare::{index_kept, kept};
use model::index::{index_of, IndexRequest};
use model::index_change::{changes, readings, Change, Reading};
use model::index_fault::Fault;
use model::prng::Prng;
use model::rules::{Law, Rules};
use model::state::{host_of, State, PIDS_PER_HOST};
use model::table::{state_of, words_of};
use std::collections::{BTreeMap, BTreeSet};
use std::fs;
use std::process::ExitCode;

/// The reason of an index that is wrong.
const MISMATCH: u32 = 22;

fn main() -> ExitCode {
    let arguments: Vec<String> = std::env::args().skip(1).collect();
    match arguments.as_slice() {
        [word, files @ ..] if word == "again" && !files.is_empty() => again(files),
        [seed, walks] => match (seed.parse(), walks.parse()) {
            (Ok(seed), Ok(walks)) => walked(seed, walks),
            _ => usage(),
        },
        _ => usage(),
    }
}

fn usage() -> ExitCode {
    eprintln!("usage: index SEED WALKS | index again FILE..");
    ExitCode::from(2)
}

/// Runs kept cases once more.
fn again(files: &[String]) -> ExitCode {
    let mut failed = false;
    for file in files {
        let text = fs::read_to_string(file).ok();
        let verdict = match text.and_then(|text| index_kept::read(&text)) {
            Some(case) => difference(&case),
            None => Some("no case of the index".to_string()),
        };
        failed |= verdict.is_some();
        println!(
            "{file}: {}",
            verdict.unwrap_or_else(|| "agrees".to_string())
        );
    }
    ExitCode::from(u8::from(failed))
}

/// What was covered so far.
#[derive(Default)]
struct Seen {
    cases: usize,
    tables: BTreeMap<Kind, usize>,
    /// How often a call gave a reason.
    reasons: BTreeMap<(Called, u32), usize>,
    /// How often a call was refused for an index with this fault, on a sound table.
    faults: BTreeMap<(Called, Fault), usize>,
    /// The calls in which the index was kept.
    kept: usize,
    changes: BTreeMap<Change, usize>,
    readings: BTreeMap<Reading, usize>,
}

impl Seen {
    fn take(&mut self, kinds: Kinds, case: &Case) {
        self.cases += 1;
        *self.tables.entry(kinds.table).or_default() += 1;
        let called = Called::of(&case.request);
        let reason = ran(case).returned;
        *self.reasons.entry((called, reason)).or_default() += 1;
        if let (Kind::Sound, Some(fault), MISMATCH) = (kinds.table, kinds.fault, reason) {
            *self.faults.entry((called, fault)).or_default() += 1;
        }
    }

    /// Notes what a call on the kept index did to it.
    fn take_change(&mut self, before: &State, after: &State) {
        self.kept += 1;
        for change in changes(&Law.entries(before), &Law.entries(after)) {
            *self.changes.entry(change).or_default() += 1;
        }
    }

    /// Notes what reading by pid found, where it was granted.
    fn take_reading(&mut self, state: &State, p: u32) {
        if !state.on_roster(host_of(p)) {
            return;
        }
        for reading in readings(&Law.entries(state), p) {
            *self.readings.entry(reading).or_default() += 1;
        }
    }

    /// What never came.
    fn missing(&self) -> Vec<String> {
        let mut missing = Vec::new();
        for called in Called::all() {
            let reasons = reasons(called).into_iter();
            let unseen = reasons.filter(|reason| !self.reasons.contains_key(&(called, *reason)));
            missing.extend(unseen.map(|reason| format!("{called:?} {reason}")));
            let faults = called.faults().into_iter();
            let unmet = faults.filter(|fault| !self.faults.contains_key(&(called, *fault)));
            missing.extend(unmet.map(|fault| format!("{called:?} with {fault:?}")));
        }
        let changes = Change::ALL.into_iter();
        let unseen = changes.filter(|change| !self.changes.contains_key(change));
        missing.extend(unseen.map(|change| format!("the index {change:?}")));
        let readings = Reading::ALL.into_iter();
        let unread = readings.filter(|reading| !self.readings.contains_key(reading));
        missing.extend(unread.map(|reading| format!("reading {reading:?}")));
        missing
    }
}

/// Every number that a call can return.
fn reasons(called: Called) -> BTreeSet<u32> {
    let mut all = BTreeSet::from([0, 1, MISMATCH, NO_ROOM]);
    match called {
        Called::Open => all.extend([2, 7]),
        Called::NamesOf => all.extend([3, 7, 17]),
        Called::Write => all.extend([3]),
        Called::Command(form) => {
            all.insert(3);
            all.extend(form.reasons().iter().map(|reason| reason.number()));
        }
    }
    all
}

fn walked(seed: u64, walks: u64) -> ExitCode {
    println!("index: seed {seed}, {walks} walks of {STEPS} steps");
    let mut seen = Seen::default();
    let mut faults = Faults::default();
    for k in 0..walks {
        let wrong = walk(seed + k, &mut seen, &mut faults).or_else(|| keep(seed + k, &mut seen));
        if let Some((step, case, wrong)) = wrong {
            report(seed + k, step, &case, &wrong);
            return ExitCode::FAILURE;
        }
    }
    println!(
        "index: {} cases {:?}, 0 differences",
        seen.cases, seen.tables
    );
    covered(&seen)
}

/// A step, its case, and how the library differs.
type Wrong = (usize, Case, String);

/// Cases of every kind along a walk.
fn walk(seed: u64, seen: &mut Seen, faults: &mut Faults) -> Option<Wrong> {
    let mut walk = Walk::new(seed);
    for step in 0..STEPS {
        for (kinds, case) in walk.step(faults) {
            seen.take(kinds, &case);
            if let Some(wrong) = difference(&case) {
                return Some((step, case, wrong));
            }
        }
    }
    None
}

/// The same walk on a table and an index that stay in the library's hands; after each call, reading by pid.
fn keep(seed: u64, seen: &mut Seen) -> Option<Wrong> {
    let mut walk = Walk::new(seed);
    let mut prng = Prng::new(seed);
    let mut before = walk.state();
    let mut held = Held::new(&words_of(&before), &index_of(&before));
    for step in 0..STEPS {
        let request = IndexRequest::Beside(walk.request());
        let case = held.case(&request);
        if let Some(wrong) = held.difference(&request) {
            return Some((step, case, wrong));
        }
        let after = state_of(&held.case(&request).table).ok()?;
        seen.take_change(&before, &after);
        for p in pids(&before, &after, &mut prng) {
            let request = IndexRequest::NamesOf { p };
            let case = held.case(&request);
            if let Some(wrong) = held.difference(&request) {
                return Some((step, case, wrong));
            }
            seen.take_reading(&after, p);
        }
        before = after;
    }
    None
}

/// The pids of entries that came or went, of one that is there, and one beside it.
fn pids(before: &State, after: &State, prng: &mut Prng) -> BTreeSet<u32> {
    let (old, new) = (Law.entries(before), Law.entries(after));
    let moved = old.iter().filter(|entry| !new.contains(entry));
    let moved = moved.chain(new.iter().filter(|entry| !old.contains(entry)));
    let mut pids: BTreeSet<u32> = moved.map(|entry| entry.p).take(3).collect();
    let end = after.nodes.len() as u64 * u64::from(PIDS_PER_HOST);
    pids.insert(prng.below(end) as u32);
    if let Some(place) = new.len().checked_sub(1) {
        let p = new[prng.below(place as u64 + 1) as usize].p;
        pids.extend([p, p.wrapping_add(1), p.wrapping_sub(1)]);
    }
    pids
}

/// Prints what was seen and what never came.
fn covered(seen: &Seen) -> ExitCode {
    let missing = seen.missing();
    println!(
        "index: {} pairs of call and reason, {} of call and fault; {} calls that kept the index {:?}; reading by pid {:?}; {} missing",
        seen.reasons.len(),
        seen.faults.len(),
        seen.kept,
        seen.changes,
        seen.readings,
        missing.len()
    );
    for what in &missing {
        println!("index: never seen: {what}");
    }
    ExitCode::from(u8::from(!missing.is_empty()))
}

fn report(seed: u64, step: usize, case: &Case, wrong: &str) {
    println!("index: walk {seed}, step {step}: {wrong}");
    let small = index_kept::smaller(case, &|case| difference(case).is_some());
    let path = format!("{}/index-{seed}-{step}.index", kept::FOLDER);
    let written =
        fs::create_dir_all(kept::FOLDER).and_then(|()| fs::write(&path, index_kept::text(&small)));
    match written {
        Ok(()) => println!("index: made smaller and kept in {path}:"),
        Err(error) => println!("index: {path} can't be written, {error}:"),
    }
    print!("{}", index_kept::text(&small));
    println!("{}", difference(&small).unwrap_or_default());
}
