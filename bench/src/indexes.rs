//! Calls with an index beside the table. Both sides are held to the same answers and words on random calls; then the test of an index, each command with both
//! tests, reading by pid and writing are timed, on tables that are not tested twice within some hundred thousand steps: a branch predictor learns even the thousand
//! searches of a full table where it meets them again and again.

use crate::agree::call_of;
use crate::api::Api;
use crate::call::{self, Asked, Which};
use crate::commands::{main_cases, roomy, BAR, TESTED};
use crate::index_api::{self, IndexApi};
use crate::index_call::{call, outcome, Called, Lent};
use crate::plain::index::write;
use crate::plain::sizes::{Index, BODIES, BODY, CONTENTS, INDEX_WORDS, PIDS_PER_HOST};
use crate::race::{best, Plan};
use crate::rows::{fastest, fastest_peer, heading, heading_with, row, row_with, Times};
use crate::strangers::STRANGER;
use crate::tables::{dense, table, Size, FULL, SMALL, STORE};
use compare::index_case::Case;
use compare::index_random::{Faults, Walk, STEPS};
use model::index::IndexRequest;
use model::prng::Prng;
use std::cell::RefCell;
use std::collections::BTreeMap;

/// Walks of random calls on which both sides agree.
const WALKS: u64 = 60;
/// Tables of a row, each with a call. Where a step of a search is a branch, it takes five times as long on so many as on eight, which the processor learns.
const POOL: usize = 64;
/// Rounds of calls on a full table, and on a smaller one.
const ROUNDS: usize = 100;
const SMALL_ROUNDS: usize = 400;
/// The reason of an index that is wrong.
const MISMATCH: u32 = 22;

/// The proved functions and plain ones.
const BOTH: [&IndexApi; 2] = [&index_api::PROVED, &index_api::PLAIN];

/// Which pids the names of a table have.
#[derive(Clone, Copy)]
enum Pids {
    /// Any, in no order.
    Scattered,
    /// Any of one host, in no order.
    OneHost,
    /// Each in every s_group, and in no order.
    Everywhere,
}

/// The pids of a pool of names; no two are equal.
fn drawn(prng: &mut Prng, pids: Pids, nodes: u64, many: usize) -> Vec<u64> {
    let mut all = Vec::new();
    while all.len() < many {
        let host = match pids {
            Pids::OneHost => nodes / 2,
            _ => prng.below(nodes),
        };
        let pid = host * PIDS_PER_HOST + prng.below(PIDS_PER_HOST);
        if !all.contains(&pid) {
            all.push(pid);
        }
    }
    all
}

/// A sound table of this size with such pids; its s_groups have the names of `table`, or any.
fn with_pids(prng: &mut Prng, size: Size, pids: Pids, any_names: bool) -> Vec<u64> {
    let mut words = table(prng, size);
    if any_names {
        let mut names: Vec<u64> = (0..65_535).collect();
        let mut chosen: Vec<u64> = (0..size.groups)
            .map(|_| 1 + names.swap_remove(prng.below(names.len() as u64) as usize))
            .collect();
        chosen.sort_unstable();
        for (contents, name) in words[CONTENTS..].iter_mut().zip(chosen) {
            *contents = *contents >> 16 << 16 | name;
        }
    }
    let many = size.groups * size.names;
    let mut pool = match pids {
        Pids::Everywhere => drawn(prng, pids, size.nodes, size.names),
        _ => drawn(prng, pids, size.nodes, many),
    };
    for group in 0..size.groups {
        let mut left = match pids {
            Pids::Everywhere => pool.clone(),
            _ => pool.split_off(pool.len() - size.names),
        };
        for word in &mut words[BODIES + BODY * group..][..size.names] {
            let pid = left.swap_remove(prng.below(left.len() as u64) as usize);
            *word = *word >> 32 << 32 | pid;
        }
    }
    words
}

/// The index of a sound table.
fn index_of(words: &[u64]) -> Vec<u64> {
    let mut index: Box<Index> = Box::new([0; INDEX_WORDS]);
    write(words.try_into().expect("the words of a table"), &mut index);
    index.to_vec()
}

/// A table, its index, and a call.
struct Turn {
    table: Vec<u64>,
    index: Vec<u64>,
    asked: Asked,
}

impl Turn {
    fn new(table: Vec<u64>, asked: Asked) -> Turn {
        Turn {
            index: index_of(&table),
            table,
            asked,
        }
    }

    fn lent(&self) -> Lent {
        Lent::new(&self.table, &self.index)
    }
}

// ---- both sides are held to the same

/// The call of a case, and its runs.
fn call_of_case(case: &Case) -> (Called, Asked, Lent) {
    let (called, asked) = match &case.request {
        IndexRequest::Beside(request) => {
            let (which, asked) = call_of(request);
            (Called::Beside(which), asked)
        }
        IndexRequest::NamesOf { p } => {
            let p = *p;
            let asked = Asked {
                p,
                ..Asked::default()
            };
            (Called::NamesOf, asked)
        }
        IndexRequest::Write => (Called::Write, Asked::default()),
    };
    let lent = Lent {
        table: case.table.clone(),
        index: case.index.clone(),
        out: case.out.clone(),
        answer: case.answer.clone(),
    };
    (called, asked, lent)
}

/// How many calls there were, how many were done, and how many were refused for their index.
#[derive(Default)]
pub struct Agreed {
    pub calls: u64,
    pub done: u64,
    pub mismatches: u64,
}

/// Holds both sides to the same answers and words on random calls with right and wrong indexes. At least one in ten is done, and one in ten has a wrong index.
pub fn agree(seed: u64) -> Agreed {
    let mut returned: BTreeMap<u32, u64> = BTreeMap::new();
    let mut faults = Faults::default();
    for k in 0..WALKS {
        let mut walk = Walk::new(seed + k);
        for _ in 0..STEPS {
            for (_, case) in walk.step(&mut faults) {
                let (called, asked, lent) = call_of_case(&case);
                let [ours, theirs] = BOTH.map(|api| outcome(api, called, lent.clone(), &asked));
                assert!(ours == theirs, "{case:?}");
                *returned.entry(ours.0).or_default() += 1;
            }
        }
    }
    let many = |reason: u32| returned.get(&reason).copied().unwrap_or(0);
    let agreed = Agreed {
        calls: returned.values().sum(),
        done: many(0) + many(STRANGER as u32),
        mismatches: many(MISMATCH),
    };
    assert!(agreed.done.min(agreed.mismatches) > agreed.calls / 10);
    agreed
}

// ---- times

/// Nanoseconds a call with an index and without one, each of the proved side and of its peers.
struct Nanos {
    indexed: Vec<f64>,
    without: Vec<f64>,
}

impl Nanos {
    /// With an index.
    fn whole(&self) -> Times {
        fastest(&self.indexed, index_api::PEERS)
    }

    /// What the index costs.
    fn more(&self) -> Times {
        let more = |side: usize| self.indexed[side] - self.without[side];
        Times {
            ours: more(0),
            theirs: more(fastest_peer(&self.indexed)),
            ..self.whole()
        }
    }

    /// The line with the proved call without an index beside the one with it.
    fn row_beside(&self, what: &str) {
        let (whole, without) = (self.whole(), self.without[0]);
        let more = format!(" {without:>10.1} {:>7.2}", whole.ours / without);
        row_with(what, &whole, &more, BAR);
    }
}

/// The line above such lines.
fn heading_beside(what: &str) {
    heading_with(what, "   no index   times");
}

/// The proved side and its peers, with an index and without one, and the runs that are lent to them.
struct Sides {
    indexed: Vec<&'static IndexApi>,
    without: Vec<&'static Api>,
    lent: Lent,
    lent_without: call::Lent,
}

impl Sides {
    fn new(first: &Turn) -> Sides {
        let plain = index_api::PEERS.iter().map(|peer| &peer.functions);
        Sides {
            indexed: std::iter::once(&index_api::PROVED).chain(plain).collect(),
            without: TESTED.all(),
            lent: first.lent(),
            lent_without: call::Lent::new(&first.table),
        }
    }

    /// Table and index as those of the turn, for this side.
    fn restore(&mut self, side: usize, turn: &Turn) {
        if side < self.indexed.len() {
            self.lent.restore(&turn.table, &turn.index);
        } else {
            self.lent_without.restore(&turn.table);
        }
    }

    /// A call of this side; past the last, none.
    #[inline(always)]
    fn call(&mut self, side: usize, called: Called, without: Which, asked: &Asked) -> u64 {
        if let Some(api) = self.indexed.get(side) {
            return u64::from(call(api, called, &mut self.lent, asked));
        }
        let lent = std::slice::from_mut(&mut self.lent_without);
        match self.without.get(side - self.indexed.len()) {
            Some(api) => call::calls(api, without, lent, &[*asked]),
            None => u64::from(asked.s),
        }
    }
}

/// Times a call on each of the tables; beside it the command without an index, on the same tables.
fn timed(called: Called, without: Which, turns: &[Turn]) -> Nanos {
    let sides = Sides::new(&turns[0]);
    hold(&sides.indexed, called, turns);
    let plan = Plan {
        count: best,
        rounds: match turns[0].table[2] {
            0..=8 => SMALL_ROUNDS,
            _ => ROUNDS,
        },
        turns: turns.len(),
    };
    let (with_index, bare) = (sides.indexed.len(), sides.without.len());
    let sides = RefCell::new(sides);
    let mut times = plan.race(
        with_index + bare,
        |side, k| sides.borrow_mut().restore(side, &turns[k]),
        |side, k| {
            let mut sides = sides.borrow_mut();
            sides.call(side, called, without, &turns[k].asked)
        },
    );
    times
        .iter_mut()
        .for_each(|time| *time /= turns.len() as f64);
    let without = times.split_off(with_index);
    Nanos {
        indexed: times,
        without,
    }
}

/// Holds the sides to the same answers and words on these turns, and each index to be right.
fn hold(indexed: &[&IndexApi], called: Called, turns: &[Turn]) {
    for turn in turns {
        let mut outcomes = indexed
            .iter()
            .map(|api| outcome(api, called, turn.lent(), &turn.asked));
        let first = outcomes.next().expect("a side");
        assert!(
            first.0 != MISMATCH && outcomes.all(|other| other == first),
            "{called:?} {:?}",
            turn.asked
        );
    }
}

/// The tables on which tests, reading and writing are timed.
const TABLES: [(&str, Size, Pids, bool); 6] = [
    ("full", FULL, Pids::Scattered, false),
    ("full, s_groups of any names", FULL, Pids::Scattered, true),
    ("full, all pids of one host", FULL, Pids::OneHost, false),
    (
        "full, each pid in every s_group",
        FULL,
        Pids::Everywhere,
        false,
    ),
    (
        "8 nodes, 2 s_groups of 8 names",
        STORE,
        Pids::Scattered,
        false,
    ),
    ("small", SMALL, Pids::Scattered, false),
];

/// Turns on tables of this kind, each with a pid for reading: one that is there, or one that nobody has.
fn pool(prng: &mut Prng, (size, pids, any_names): (Size, Pids, bool), held: bool) -> Vec<Turn> {
    let turn = |_| {
        let words = with_pids(prng, size, pids, any_names);
        let group = prng.below(size.groups as u64) as usize;
        let name = words[BODIES + BODY * group + prng.below(size.names as u64) as usize];
        let pids: Vec<u32> = words[BODIES..].iter().map(|word| *word as u32).collect();
        let mut p = name as u32;
        while !held && pids.contains(&p) {
            p = (prng.below(size.nodes) * PIDS_PER_HOST + prng.below(PIDS_PER_HOST)) as u32;
        }
        let caller = prng.below(size.nodes) as u32;
        let asked = Asked {
            p,
            caller,
            ..Asked::default()
        };
        Turn::new(words, asked)
    };
    (0..POOL).map(turn).collect()
}

/// Every table of times.
pub fn times(seed: u64) {
    let mut prng = Prng::new(seed);
    tests(&mut prng);
    for (what, size) in [("full", FULL), ("small", SMALL)] {
        heading_beside(&format!("with an index, {what} table, both tests"));
        for which in Which::COMMANDS {
            commands(&mut prng, which, size);
        }
    }
    reading(&mut prng);
    writing(&mut prng);
}

/// No function gives the test of the index alone. It is timed as what reading by a pid that nobody has takes, less what own_nodes takes on the same table without
/// an index: the one tests table and index and looks for the pid, the other tests the table and gathers some words.
fn tests(prng: &mut Prng) {
    heading("the test of the index");
    for (what, size, pids, any_names) in TABLES {
        let turns = pool(prng, (size, pids, any_names), false);
        let nanos = timed(Called::NamesOf, Which::OwnNodes, &turns);
        row(what, &nanos.more(), BAR);
    }
}

/// A command in its main case.
fn commands(prng: &mut Prng, which: Which, size: Size) {
    let grows = matches!(which, Which::RegisterName | Which::NewSGroup);
    let size = if grows { roomy(size) } else { size };
    let turn = |_| {
        let words = with_pids(prng, size, Pids::Scattered, false);
        let asked = main_cases(prng, which, &words, 1)[0];
        Turn::new(words, asked)
    };
    let turns: Vec<Turn> = (0..POOL).map(turn).collect();
    let nanos = timed(Called::Beside(which), which, &turns);
    nanos.row_beside(&format!("{which:?}"));
}

/// Reading by pid, both tests in it, on pids that are there and on others.
fn reading(prng: &mut Prng) {
    heading("reading by pid, both tests");
    for (held, who) in [(true, "a pid held"), (false, "nobody")] {
        for (what, size, pids, any_names) in TABLES {
            let turns = pool(prng, (size, pids, any_names), held);
            let nanos = timed(Called::NamesOf, Which::OwnNodes, &turns);
            row(&format!("{what}: {who}"), &nanos.whole(), BAR);
        }
    }
}

/// Writing, the test of the table in it; and opening, which zeroes.
fn writing(prng: &mut Prng) {
    heading("writing the index, with the test of the table");
    for (what, size, pids, any_names) in TABLES {
        let turns = pool(prng, (size, pids, any_names), true);
        let nanos = timed(Called::Write, Which::OwnNodes, &turns);
        row(what, &nanos.whole(), BAR);
    }
    heading_beside("opening 64 nodes with an index");
    let opening = Asked {
        n: 64,
        set: 5,
        ..Asked::default()
    };
    let turn = |_| Turn::new(with_pids(prng, FULL, Pids::Scattered, false), opening);
    let turns: Vec<Turn> = (0..POOL).map(turn).collect();
    let nanos = timed(Called::Beside(Which::Open), Which::Open, &turns);
    nanos.row_beside("Open");
}

/// Calls whose stack is measured, on three nearly full tables.
pub struct StackRow {
    pub what: String,
    pub called: Called,
    pub calls: [(Lent, Asked); 3],
}

/// Each command, opening, reading by pid and writing, each of them done.
pub fn stack_rows(prng: &mut Prng) -> Vec<StackRow> {
    let commands = Which::COMMANDS.into_iter().map(Called::Beside);
    let others = [Called::Beside(Which::Open), Called::NamesOf, Called::Write];
    let all = commands.chain(others);
    all.map(|called| {
        let (what, which) = match called {
            Called::Beside(which) => (format!("{which:?}, index"), which),
            _ => (format!("{called:?}"), Which::OwnNodes),
        };
        let size = roomy(FULL);
        let tables = [
            with_pids(prng, size, Pids::Scattered, false),
            with_pids(prng, size, Pids::Everywhere, true),
            dense(with_pids(prng, size, Pids::Scattered, true)),
        ];
        let calls = tables.map(|words| {
            let mut asked = main_cases(prng, which, &words, 1)[0];
            match called {
                Called::NamesOf => asked.p = words[BODIES] as u32,
                Called::Beside(Which::Open) => asked.n = words[0] as u32,
                _ => {}
            }
            (Lent::new(&words, &index_of(&words)), asked)
        });
        StackRow {
            what,
            called,
            calls,
        }
    })
    .collect()
}
