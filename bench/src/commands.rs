//! Each command with the test and without: the proved functions against plain Rust.

use crate::api::{Api, PEERS, PROVED, PROVED_UNTESTED, UNTESTED_PEERS};
use crate::call::{calls, no_calls, outcome, Asked, Lent, Which};
use crate::plain::sizes::{BODIES, BODY, CONTENTS, MEMBERS, PIDS_PER_HOST};
use crate::plain::test::Peer;
use crate::race::{quickest, Plan};
use crate::rows::{fastest, heading, row, Times};
use crate::strangers::STRANGER;
use crate::tables::{halves, subset, table, Size, FULL, MAIN_SIZES, MANY};
use model::prng::Prng;
use std::cell::RefCell;

/// Calls in a turn, each on a table of its own; the tables stay in the first cache.
const TURN: usize = 3;
/// Calls of a command, by whether the test dominates. Without the test there are so many that no branch predictor learns them.
const TESTED_CALLS: usize = 64 * TURN;
const CALLS: usize = 1365 * TURN;
/// Rounds of so few calls, and of more.
const ROUNDS_OF_FEW: usize = 1000;
const ROUNDS: usize = 150;
/// The ratio that a row is to stay within, where nothing else is said.
pub const BAR: f64 = 1.5;

/// The sides of a row: the proved one, and the plain ones, of which the fastest counts. How many tables there are and calls in all, and the ratio that they are to stay within.
#[derive(Clone, Copy)]
pub struct Sides {
    pub what: &'static str,
    pub proved: &'static Api,
    pub peers: &'static [Peer<Api>],
    pub tables: usize,
    pub calls: usize,
    pub bar: f64,
}

pub const TESTED: Sides = Sides {
    what: "with the test",
    proved: &PROVED,
    peers: PEERS,
    tables: 1,
    calls: TESTED_CALLS,
    bar: 1.15,
};
/// A call on each of many tables.
const COLD: Sides = Sides {
    what: "with the test, cold",
    tables: MANY,
    calls: MANY,
    ..TESTED
};
pub const UNTESTED: Sides = Sides {
    what: "without the test",
    proved: &PROVED_UNTESTED,
    peers: UNTESTED_PEERS,
    tables: 1,
    calls: CALLS,
    bar: BAR,
};

impl Sides {
    /// The proved side, then the plain ones.
    pub fn all(self) -> Vec<&'static Api> {
        let plain = self.peers.iter().map(|peer| &peer.functions);
        std::iter::once(self.proved).chain(plain).collect()
    }
}

/// One node of the set, which is not empty.
pub fn pick(prng: &mut Prng, set: u64) -> u32 {
    let mut left = set;
    for _ in 0..prng.below(u64::from(set.count_ones())) {
        left &= left - 1;
    }
    left.trailing_zeros()
}

/// Calls of the main case on this table. New names and groups are those between two that are there. A lookup finds a member's pid or a stranger's, as the
/// hosts of the table are.
pub fn main_cases(prng: &mut Prng, which: Which, words: &[u64], calls: usize) -> Vec<Asked> {
    let (nodes, groups) = (words[0], words[2]);
    (0..calls)
        .map(|k| {
            let place = prng.below(groups) as usize;
            let (contents, members) = (words[CONTENTS + place], words[MEMBERS + place]);
            let held = words[BODIES + BODY * place + prng.below(contents >> 16) as usize];
            let anyone = prng.below(nodes) as u32;
            let caller = pick(prng, members);
            let free_caller = matches!(
                which,
                Which::WhereisNameAt
                    | Which::SendAt
                    | Which::Send
                    | Which::OwnNodes
                    | Which::OwnSGroups
            );
            let set = match which {
                Which::NewSGroup => subset(prng, nodes, nodes / 4) | 1 << caller,
                _ => subset(prng, nodes, (nodes / 16).max(1)),
            };
            Asked {
                caller: if free_caller { anyone } else { caller },
                node: pick(prng, members),
                s: (contents & 0xffff) as u32 + u32::from(which == Which::NewSGroup),
                n: (held >> 32) as u32 + u32::from(which == Which::RegisterName),
                p: (prng.below(nodes) * PIDS_PER_HOST + 50_000_000 + k as u64) as u32,
                set,
            }
        })
        .collect()
}

/// Whether a main case has this reason: 0, or 21 beside the pid that a lookup finds.
fn of_main_case(which: Which, reason: u64) -> bool {
    reason == 0 || reason == STRANGER && Which::LOOKUPS.contains(&which)
}

/// Holds the sides to the same answers and words on these calls, each of the main case.
fn hold(sides: &[&Api], which: Which, tables: &[Vec<u64>], asked: &[Asked]) {
    for (one, words) in asked.iter().zip(tables.iter().cycle()) {
        let mut outcomes = sides
            .iter()
            .map(|api| outcome(api, which, Lent::new(words), *one));
        let first = outcomes.next().expect("a side");
        assert!(outcomes.all(|other| other == first), "{which:?} {one:?}");
        let (returned, lent) = first;
        assert!(
            of_main_case(which, returned) && lent.answer[3] == returned,
            "no main case: {which:?} {one:?}"
        );
    }
}

/// Nanoseconds a call. There is one table for all calls or one for each, and every call finds it as it was.
fn timed(sides: Sides, which: Which, tables: &[Vec<u64>], asked: &[Asked]) -> Times {
    let all = sides.all();
    hold(&all, which, tables, asked);
    let lent = RefCell::new(vec![Lent::new(&tables[0]); TURN]);
    let plan = Plan {
        count: quickest,
        rounds: if asked.len() > TESTED_CALLS {
            ROUNDS
        } else {
            ROUNDS_OF_FEW
        },
        turns: asked.len() / TURN,
    };
    let mut times = plan.race(
        all.len(),
        |_, k| {
            for (i, own) in lent.borrow_mut().iter_mut().enumerate() {
                own.restore(&tables[(k * TURN + i) % tables.len()]);
            }
        },
        |side, k| {
            let turn = &asked[k * TURN..][..TURN];
            match all.get(side) {
                Some(api) => calls(api, which, &mut lent.borrow_mut(), turn),
                None => no_calls(&mut lent.borrow_mut(), turn),
            }
        },
    );
    times
        .iter_mut()
        .for_each(|time| *time /= asked.len() as f64);
    fastest(&times, sides.peers)
}

/// The same size with a name and a group less, so that one more of each fits.
pub fn roomy(size: Size) -> Size {
    Size {
        groups: size.groups.max(2) - 1,
        names: size.names.max(2) - 1,
        ..size
    }
}

/// Each command on three sizes of table, the calls that move most free nodes, and opening: a table each.
pub fn times(seed: u64) {
    let mut prng = Prng::new(seed);
    for (what, size) in MAIN_SIZES {
        for sides in [TESTED, COLD, UNTESTED] {
            heading(&format!("{what}, {}", sides.what));
            commands(&mut prng, &Which::COMMANDS, size, sides);
        }
    }
    free_nodes();
    opening(&mut prng);
}

/// Calls of each of these commands on tables of this size.
pub fn commands(prng: &mut Prng, all: &[Which], size: Size, sides: Sides) {
    for &which in all {
        let grows = matches!(which, Which::RegisterName | Which::NewSGroup);
        let size = if grows { roomy(size) } else { size };
        let tables: Vec<Vec<u64>> = (0..sides.tables).map(|_| table(prng, size)).collect();
        let on_each = sides.calls / sides.tables;
        let asked: Vec<Asked> = tables
            .iter()
            .flat_map(|words| main_cases(prng, which, words, on_each))
            .collect();
        row_of(&format!("{which:?}"), sides, which, &tables, &asked);
    }
}

/// The row of these calls.
pub fn row_of(what: &str, sides: Sides, which: Which, tables: &[Vec<u64>], asked: &[Asked]) {
    row(what, &timed(sides, which, tables, asked), sides.bar);
}

fn free_nodes() {
    heading("32 of 64 free nodes, without the test");
    for (what, which, words, one) in free_rows() {
        row_of(what, UNTESTED, which, &[words], &[one; TESTED_CALLS]);
    }
}

fn opening(prng: &mut Prng) {
    heading("opening 64 nodes");
    let any = table(prng, FULL);
    let one = Asked {
        n: 64,
        set: 5,
        ..Asked::default()
    };
    row_of("Open", UNTESTED, Which::Open, &[any], &[one; TESTED_CALLS]);
}

/// The calls that move most free nodes.
pub fn free_rows() -> [(&'static str, Which, Vec<u64>, Asked); 5] {
    let none = Asked::default();
    let on = |s: u32, set: u64| Asked { s, set, ..none };
    let far = (40 * PIDS_PER_HOST) as u32;
    [
        (
            "NewSGroup of half a free group",
            Which::NewSGroup,
            halves(false, true),
            on(9, u64::from(u32::MAX)),
        ),
        (
            "AddNodes of 16 free nodes",
            Which::AddNodes,
            halves(true, false),
            on(3, 0xffff << 32),
        ),
        (
            "DeleteSGroup that joins two halves",
            Which::DeleteSGroup,
            halves(true, true),
            on(3, 0),
        ),
        (
            "RemoveNodes that joins 16 and 32",
            Which::RemoveNodes,
            halves(true, true),
            on(3, 0xffff),
        ),
        (
            "Send that joins two halves",
            Which::Send,
            halves(false, false),
            Asked { p: far, ..none },
        ),
    ]
}
