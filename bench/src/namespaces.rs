//! Namespaces through what users call: a table of one s_group, whose names are found, registered and taken out. Both sides are held to the same
//! answers and words on random namespaces, sound and unsound, and timed on 4 and 32 names.

use crate::agree::same_verdict;
use crate::api::{PLAIN, PROVED};
use crate::call::{outcome, Lent, Which};
use crate::commands::{commands, main_cases, UNTESTED};
use crate::plain::sizes::{BODIES, BODY, CONTENTS};
use crate::rows::heading;
use crate::tables::{one_group, table};
use model::prng::Prng;

/// Finding, adding and dropping a name.
const NAMING: [Which; 3] = [
    Which::WhereisName,
    Which::RegisterName,
    Which::UnregisterName,
];
/// Random namespaces on which both sides agree.
const AGREED: u64 = 200_000;

/// A change to one name's word or to the count of names, so that the namespace is often unsound.
fn spoil(prng: &mut Prng, words: &mut [u64]) {
    let i = BODIES + prng.below(BODY as u64) as usize;
    let j = BODIES + prng.below(BODY as u64) as usize;
    match prng.below(7) {
        0 => words.swap(i, j),
        1 => words[i] = (words[i] >> 32) << 32 | (words[j] & 0xffff_ffff),
        2 => words[i] = words[j],
        3 => words[i] = 0,
        4 => words[i] = prng.word(),
        5 => words[CONTENTS] = (words[CONTENTS] & 0xffff) + 65_536 * (1 + prng.below(34)),
        _ => words[i] &= 0xffff_ffff,
    }
}

/// Holds both sides to the same test, answers and words on random namespaces, every other one spoiled; how many there were.
pub fn agree(seed: u64) -> u64 {
    let mut prng = Prng::new(seed);
    for round in 0..AGREED {
        let names = 1 + prng.below(BODY as u64) as usize;
        let mut words = table(&mut prng, one_group(names));
        let asked = NAMING.map(|which| main_cases(&mut prng, which, &words, 1)[0]);
        if round % 2 == 1 {
            spoil(&mut prng, &mut words);
        }
        same_verdict(&words);
        for (which, asked) in NAMING.into_iter().zip(asked) {
            let ours = outcome(&PROVED, which, Lent::new(&words), asked);
            let theirs = outcome(&PLAIN, which, Lent::new(&words), asked);
            assert!(ours == theirs, "{which:?} {asked:?} {words:?}");
        }
    }
    AGREED
}

/// The commands on names without the test, for few names and for as many as fit.
pub fn times(seed: u64) {
    let mut prng = Prng::new(seed);
    for names in [4, BODY] {
        heading(&format!("one s_group of {names} names, {}", UNTESTED.what));
        commands(&mut prng, &NAMING, one_group(names), UNTESTED);
    }
}
