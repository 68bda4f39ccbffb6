//! The soundness test alone, the proved one against the plain ones, on tables of many kinds, warm and cold.

use crate::agree::{same_verdict, says_sound};
use crate::commands::TESTED;
use crate::plain::sizes::{BODY, GROUPS};
use crate::race::{best, quickest, Count, Plan};
use crate::rows::{fastest, heading_with, row_with, Times};
use crate::tables::{
    one_group, one_mark, one_number, one_slot, one_slot_and_mark, table, two_free_groups, Size,
    FULL, MAIN_SIZES, MANY,
};
use model::prng::Prng;
use std::cell::RefCell;

/// The ratio that a row is to stay within.
const BAR: f64 = 1.1;
/// Tables of a turn, which stay in the first cache.
const TURN: usize = 2;

/// How the tables of a row come: how many there are, how many tests a turn has, how many rounds there are, and what counts of them.
struct Coming {
    what: &'static str,
    tables: usize,
    tests: usize,
    rounds: usize,
    count: Count,
}

/// The same tables again and again, whose branches the processor has learnt.
const WARM: Coming = Coming {
    what: "warm",
    tables: TURN,
    tests: 8 * TURN,
    rounds: 4000,
    count: best,
};
/// Tables whose branches the processor has forgotten when they come again.
const COLD: Coming = Coming {
    what: "cold",
    tables: MANY,
    tests: TURN,
    rounds: 200,
    count: quickest,
};

/// Gives a table of one kind.
type Draw = dyn Fn(&mut Prng) -> Vec<u64>;

impl Coming {
    /// Nanoseconds a test of each side on tables of this kind.
    fn timed(&self, prng: &mut Prng, draw: &Draw) -> Vec<f64> {
        let tables: Vec<Vec<u64>> = (0..self.tables).map(|_| draw(prng)).collect();
        assert!(tables.iter().all(|words| same_verdict(words)), "all sound");
        let sides = TESTED.all();
        let turns = self.tables / TURN;
        let lent = RefCell::new(tables[..TURN].to_vec());
        let plan = Plan {
            count: self.count,
            rounds: self.rounds,
            turns,
        };
        let mut times = plan.race(
            sides.len(),
            |_, k| {
                for (own, words) in lent.borrow_mut().iter_mut().zip(&tables[TURN * k..]) {
                    own.copy_from_slice(words);
                }
            },
            |side, _| {
                let lent = lent.borrow();
                let all = lent.iter().cycle().take(self.tests);
                match sides.get(side) {
                    Some(api) => all.map(|words| u64::from(says_sound(api, words))).sum(),
                    None => all.map(|words| words[0]).sum(),
                }
            },
        );
        let tests = (turns * self.tests) as f64;
        times.iter_mut().for_each(|time| *time /= tests);
        times
    }

    fn heading(&self, what: &str) {
        let peers = TESTED
            .peers
            .iter()
            .map(|peer| format!(" {:>11}", peer.test));
        heading_with(
            &format!("{what}, {}", self.what),
            &peers.collect::<String>(),
        );
    }

    /// The row of such tables, with the time of each peer.
    fn row(&self, prng: &mut Prng, what: &str, draw: &Draw) {
        let times = self.timed(prng, draw);
        let each = times[1..].iter().map(|time| format!(" {time:>11.1}"));
        row_with(
            what,
            &fastest(&times, TESTED.peers),
            &each.collect::<String>(),
            BAR,
        );
    }
}

/// The test on every kind of table, and as a table grows.
pub fn times(seed: u64) {
    for coming in [WARM, COLD] {
        let mut prng = Prng::new(seed);
        coming.heading("the soundness test");
        let mut one = |what: &str, draw: &Draw| coming.row(&mut prng, what, draw);
        for (what, size) in MAIN_SIZES {
            one(what, &move |prng| table(prng, size));
        }
        one("full, one number on every host", &one_number);
        one("full, each namespace of one slot", &one_slot);
        one("full, each namespace of one mark", &one_mark);
        one("full, each of one slot and one mark", &one_slot_and_mark);
        one("64 free nodes in two groups", &two_free_groups);
        for names in [4, BODY] {
            let what = format!("64 nodes, one s_group of {names} names");
            one(&what, &move |prng| table(prng, one_group(names)));
        }
    }
}

/// The sizes of a growing table: the roster, the s_groups and the names, each doubled.
fn growing() -> Vec<(&'static str, Vec<Size>)> {
    let eight = |nodes: u64| Size {
        nodes,
        groups: 8,
        members: nodes / 4,
        names: 8,
    };
    let grouped = |groups: usize| Size { groups, ..FULL };
    let named = |names: usize| Size { names, ..FULL };
    vec![
        ("roster grows", [4, 8, 16, 32, 64].map(eight).to_vec()),
        (
            "s_groups grow",
            [1, 2, 4, 8, 16, GROUPS].map(grouped).to_vec(),
        ),
        ("names grow", [1, 2, 4, 8, 16, BODY].map(named).to_vec()),
    ]
}

/// How the test grows with the roster, the s_groups and the names.
pub fn growth(seed: u64) {
    for coming in [WARM, COLD] {
        let mut prng = Prng::new(seed);
        for (what, sizes) in growing() {
            coming.heading(&format!("the test as the {what}"));
            for size in sizes {
                let Size {
                    nodes,
                    groups,
                    members,
                    names,
                } = size;
                let what =
                    format!("{nodes} nodes, {groups} groups of {members} nodes, {names} names");
                coming.row(&mut prng, &what, &move |prng| table(prng, size));
            }
        }
    }
}

/// The rows that say most, as words between tabs: what is tested, the proved side, its peer, their ratio.
pub fn main_rows(seed: u64) {
    for coming in [WARM, COLD] {
        let mut prng = Prng::new(seed);
        for (what, size) in MAIN_SIZES {
            let times = coming.timed(&mut prng, &move |prng| table(prng, size));
            let Times { ours, theirs, .. } = fastest(&times, TESTED.peers);
            let (what, ratio) = (format!("{what}, {}", coming.what), ours / theirs);
            println!("{what}\t{ours:.1}\t{theirs:.1}\t{ratio:.3}");
        }
    }
}
