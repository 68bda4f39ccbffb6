//! Tables that are mostly not sound: one word of a sound table changed, and
//! random words.

use crate::prng::Prng;
use crate::state::MOST_GROUPS;
use crate::table::{
    BODIES, BODY, CONNECTIONS, CONTENTS, FREE_GROUPS, GROUP_COUNT, MEMBERS, ROSTER_SIZE, WORDS,
};

/// The table with one word changed; now and then the change is none.
pub fn mutated(words: &[u64], prng: &mut Prng) -> Vec<u64> {
    let mut changed = words.to_vec();
    let place = some_place(words, prng);
    changed[place] = other_word(words, place, prng);
    changed
}

/// A place in any part of the table, the used parts more often.
fn some_place(words: &[u64], prng: &mut Prng) -> usize {
    let size = words[ROSTER_SIZE].clamp(1, 64);
    let groups = words[GROUP_COUNT].clamp(1, MOST_GROUPS as u64);
    let group = prng.below(groups) as usize;
    let names = (words[CONTENTS + group] >> 16).clamp(1, BODY as u64);
    let place = match prng.below(12) {
        0 => prng.below(4) as usize,
        1..=2 => CONTENTS + group,
        3 => MEMBERS + group,
        4..=5 => CONNECTIONS + prng.below(size) as usize,
        6..=7 => FREE_GROUPS + prng.below(size) as usize,
        8..=10 => BODIES + BODY * group + prng.below(names) as usize,
        _ => prng.below(WORDS as u64) as usize,
    };
    // Just past the used part is where an off-by-one would show.
    if prng.once_in(6) && place + 1 < WORDS {
        place + 1
    } else {
        place
    }
}

/// Another word for this place: a changed bit, a near number, or parts of the
/// words beside it.
fn other_word(words: &[u64], place: usize, prng: &mut Prng) -> u64 {
    let old = words[place];
    let before = words[place.saturating_sub(1)];
    let after = words[(place + 1).min(WORDS - 1)];
    let low_half = 0xFFFF_FFFF;
    match prng.below(14) {
        0..=3 => old ^ (1 << prng.below(64)),
        4 => old ^ (1 << prng.below(8)),
        5 => old.wrapping_add(1),
        6 => old.wrapping_sub(1),
        7 => 0,
        8 => prng.word(),
        9 => before,
        10 => after,
        11 => (old & !low_half) | (before & low_half),
        12 => (before & !low_half) | (old & low_half),
        _ => old.wrapping_add(65_536 * prng.below(40)),
    }
}

/// 1,220 random words: all random, small, or mostly zero, with counts that are
/// sometimes in range.
pub fn random_words(prng: &mut Prng) -> Vec<u64> {
    let shift = prng.below(64);
    let rarity = 1 + prng.below(40);
    let mut words: Vec<u64> = (0..WORDS)
        .map(|_| {
            if prng.once_in(rarity) {
                prng.word() >> shift
            } else {
                0
            }
        })
        .collect();
    if !prng.once_in(4) {
        words[ROSTER_SIZE] = 1 + prng.below(64);
        words[GROUP_COUNT] = prng.below(4);
    }
    words
}
