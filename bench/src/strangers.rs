//! Pids hosted outside their s_group: the four lookups where every pid lives on a member, on a stranger, and every other one on each. Both sides are held
//! to the same answers and words on random tables, and timed on full and small ones.

use crate::api::{PLAIN, PLAIN_UNTESTED, PROVED, PROVED_UNTESTED};
use crate::call::{outcome, Asked, Lent, Which};
use crate::commands::{main_cases, pick, row_of, TESTED, UNTESTED};
use crate::plain::sizes::BODY;
use crate::rows::heading;
use crate::tables::{hosted, Size, FULL, SMALL};
use model::prng::Prng;

/// Random tables on which both sides agree, each with a call of every lookup.
const AGREED: u64 = 25_000;
/// The reason beside a stranger's pid.
pub const STRANGER: u64 = 21;

/// Where the pids of a table live.
#[derive(Clone, Copy)]
enum Hosts {
    Members,
    Strangers,
    /// Every other pid on a member. Calls draw their names, so that no branch can be foretold.
    Either,
}

const TIMED: [(&str, Hosts); 3] = [
    ("all members", Hosts::Members),
    ("all strangers", Hosts::Strangers),
    ("half of each", Hosts::Either),
];

/// The tables that are timed; the small one has two names, so that both kinds fit.
const SIZES: [(&str, Size); 2] = [
    ("full table", FULL),
    ("small table", Size { names: 2, ..SMALL }),
];

impl Hosts {
    /// The host of the pid at this place of a namespace.
    fn host(self, prng: &mut Prng, members: u64, strangers: u64, place: usize) -> u32 {
        match self {
            Hosts::Either if place % 2 == 0 => pick(prng, members),
            Hosts::Members => pick(prng, members),
            Hosts::Strangers | Hosts::Either => pick(prng, strangers),
        }
    }

    /// A table of this size whose pids live there.
    fn table(self, prng: &mut Prng, size: Size) -> Vec<u64> {
        let roster = u64::MAX >> (64 - size.nodes);
        hosted(prng, size, |prng, members, place| {
            self.host(prng, members, roster & !members, place)
        })
    }

    /// Holds the calls to what the row says: how many of them find a stranger.
    fn held(self, which: Which, words: &[u64], asked: &[Asked]) {
        let stranger = |one: &&Asked| outcome(&PLAIN, which, Lent::new(words), **one).0 == STRANGER;
        let (found, all) = (asked.iter().filter(stranger).count(), asked.len());
        let holds = match self {
            Hosts::Members => found == 0,
            Hosts::Strangers => found == all,
            Hosts::Either => (all / 3..=all - all / 3).contains(&found),
        };
        assert!(holds, "{which:?}: {found} of {all} find a stranger");
    }
}

/// A sound table of any size, some of whose pids live on members.
fn random(prng: &mut Prng) -> Vec<u64> {
    let nodes = 1 + prng.below(64);
    let size = Size {
        nodes,
        groups: 1 + prng.below(4) as usize,
        members: 1 + prng.below(nodes),
        names: 1 + prng.below(BODY as u64) as usize,
    };
    hosted(prng, size, |prng, members, _| {
        if prng.once_in(3) {
            pick(prng, members)
        } else {
            prng.below(nodes) as u32
        }
    })
}

/// How many lookups found a member and a stranger.
#[derive(Default)]
pub struct Agreed {
    pub members: u64,
    pub strangers: u64,
}

/// Holds both sides to the same answers and words on random lookups, with the test and without. Each lookup finds both kinds, at least once in twenty.
pub fn agree(seed: u64) -> Agreed {
    let mut prng = Prng::new(seed);
    let mut strangers = [0; Which::LOOKUPS.len()];
    for _ in 0..AGREED {
        let words = random(&mut prng);
        for (which, strangers) in Which::LOOKUPS.into_iter().zip(&mut strangers) {
            let asked = main_cases(&mut prng, which, &words, 1)[0];
            let ours = outcome(&PROVED, which, Lent::new(&words), asked);
            for api in [&PLAIN, &PROVED_UNTESTED, &PLAIN_UNTESTED] {
                let other = outcome(api, which, Lent::new(&words), asked);
                assert!(ours == other, "{which:?} {asked:?} {words:?}");
            }
            assert!(ours.0 == 0 || ours.0 == STRANGER, "{which:?} {asked:?}");
            *strangers += u64::from(ours.0 == STRANGER);
        }
    }
    let often = AGREED / 20..=AGREED - AGREED / 20;
    assert!(strangers.iter().all(|found| often.contains(found)));
    let found: u64 = strangers.iter().sum();
    Agreed {
        members: AGREED * strangers.len() as u64 - found,
        strangers: found,
    }
}

/// The four lookups on full and small tables, with the test and without.
pub fn times(seed: u64) {
    let mut prng = Prng::new(seed);
    for (table, size) in SIZES {
        for sides in [TESTED, UNTESTED] {
            heading(&format!("strangers, {table}, {}", sides.what));
            for which in Which::LOOKUPS {
                for (what, hosts) in TIMED {
                    let words = hosts.table(&mut prng, size);
                    let asked = main_cases(&mut prng, which, &words, sides.calls);
                    hosts.held(which, &words, &asked);
                    let what = format!("{which:?}, {what}");
                    row_of(&what, sides, which, &[words], &asked);
                }
            }
        }
    }
}
