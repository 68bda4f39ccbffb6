//! Names that leave with their node: removals that drop none, some and all names of an s_group. Both sides are held to the same answers and words on
//! random removals, and timed on full tables.

use crate::api::{PLAIN, PLAIN_UNTESTED, PROVED, PROVED_UNTESTED};
use crate::call::{outcome, Asked, Lent, Which};
use crate::commands::{pick, row_of, TESTED, UNTESTED};
use crate::plain::sizes::{BODY, CONTENTS, MEMBERS};
use crate::rows::heading;
use crate::tables::{hosted, subset, Size, FULL};
use model::prng::Prng;

/// Random removals on which both sides agree.
const AGREED: u64 = 100_000;

/// The removals that are timed, by how many of an s_group's 32 names leave.
#[derive(Clone, Copy)]
enum Leaving {
    /// No pid lives on a member; one member leaves.
    None,
    /// On each member lives one pid; one member leaves.
    One,
    /// Every pid lives on a member; half of the members leave.
    Half,
    /// Every pid lives on a member but the lowest; all but the lowest leave.
    All,
}

const TIMED: [(&str, Leaving); 4] = [
    ("RemoveNodes that drops no name", Leaving::None),
    ("RemoveNodes that drops 1 name", Leaving::One),
    ("RemoveNodes that drops 16 names on average", Leaving::Half),
    ("RemoveNodes that drops 32 names", Leaving::All),
];

/// The set without its lowest node.
fn rest(set: u64) -> u64 {
    set & (set - 1)
}

impl Leaving {
    /// The host of the pid at this place of a namespace.
    fn host(self, prng: &mut Prng, members: u64, place: usize) -> u32 {
        match self {
            Leaving::One if place % 2 == 0 => (0..place / 2)
                .fold(members, |left, _| rest(left))
                .trailing_zeros(),
            Leaving::None | Leaving::One => pick(prng, !members),
            Leaving::Half => pick(prng, members),
            Leaving::All => pick(prng, rest(members)),
        }
    }

    /// The members that leave.
    fn set(self, prng: &mut Prng, members: u64) -> u64 {
        match self {
            Leaving::None | Leaving::One => 1 << pick(prng, members),
            Leaving::Half => {
                (0..FULL.members / 2).fold(members, |left, _| left & !(1 << pick(prng, left)))
            }
            Leaving::All => rest(members),
        }
    }

    /// A full table, and removals from any of its s_groups.
    fn calls(self, prng: &mut Prng, many: usize) -> (Vec<u64>, Vec<Asked>) {
        let words = hosted(prng, FULL, |prng, members, place| {
            self.host(prng, members, place)
        });
        let asked = (0..many)
            .map(|_| {
                let group = prng.below(FULL.groups as u64) as usize;
                let set = self.set(prng, words[MEMBERS + group]);
                removal(prng, &words, group, set)
            })
            .collect();
        (words, asked)
    }
}

/// A member of the s_group removes the set.
fn removal(prng: &mut Prng, words: &[u64], group: usize, set: u64) -> Asked {
    Asked {
        caller: pick(prng, words[MEMBERS + group]),
        s: (words[CONTENTS + group] & 0xffff) as u32,
        set,
        ..Asked::default()
    }
}

/// How many names the s_group has.
fn names(words: &[u64], group: usize) -> u64 {
    words[CONTENTS + group] >> 16
}

/// A sound table, most of whose pids live on some of the members, and a removal that leaves a member; the s_group's place.
fn random(prng: &mut Prng) -> (Vec<u64>, Asked, usize) {
    let nodes = 2 + prng.below(63);
    let size = Size {
        nodes,
        groups: 1 + prng.below(4) as usize,
        members: 2 + prng.below(nodes - 1),
        names: 1 + prng.below(BODY as u64) as usize,
    };
    let homes = prng.word();
    let words = hosted(prng, size, |prng, members, _| {
        if members & homes == 0 || prng.once_in(40) {
            prng.below(nodes) as u32
        } else {
            pick(prng, members & homes)
        }
    });
    let group = prng.below(size.groups as u64) as usize;
    let many = prng.below(nodes);
    let drawn = subset(prng, nodes, many);
    let homes = homes & u64::MAX >> (64 - nodes);
    let set = drawn | if prng.once_in(2) { homes } else { 0 };
    let stays = 1 << pick(prng, words[MEMBERS + group]);
    let asked = removal(prng, &words, group, set & !stays);
    (words, asked, group)
}

/// How many removals dropped no name, some, and all.
#[derive(Default)]
pub struct Agreed {
    pub none: u64,
    pub some: u64,
    pub all: u64,
}

/// Holds both sides to the same answers and words on random removals, with the test and without. Each kind is among them, at least once in twenty.
pub fn agree(seed: u64) -> Agreed {
    let mut prng = Prng::new(seed);
    let mut agreed = Agreed::default();
    for _ in 0..AGREED {
        let (words, asked, group) = random(&mut prng);
        let ours = outcome(&PROVED, Which::RemoveNodes, Lent::new(&words), asked);
        assert_eq!(ours.0, 0, "{asked:?} {words:?}");
        for api in [&PLAIN, &PROVED_UNTESTED, &PLAIN_UNTESTED] {
            let other = outcome(api, Which::RemoveNodes, Lent::new(&words), asked);
            assert!(ours == other, "{asked:?} {words:?}");
        }
        let kept = names(&ours.1.table, group);
        if kept == 0 {
            agreed.all += 1;
        } else if kept == names(&words, group) {
            agreed.none += 1;
        } else {
            agreed.some += 1;
        }
    }
    assert!(agreed.none.min(agreed.some).min(agreed.all) >= AGREED / 20);
    agreed
}

/// Removals from a full table that drop none, one, half and all names of an s_group, with the test and without.
pub fn times(seed: u64) {
    let mut prng = Prng::new(seed);
    for sides in [TESTED, UNTESTED] {
        heading(&format!("names that leave, {}", sides.what));
        for (what, leaving) in TIMED {
            let (words, asked) = leaving.calls(&mut prng, sides.calls);
            row_of(what, sides, Which::RemoveNodes, &[words], &asked);
        }
    }
}
