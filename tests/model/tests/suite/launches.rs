//! Random launches: the same seed gives the same launch, together they reach
//! every reason, and each leaves a sound table or the old words.

use crate::helpers::{rounds, seed};
use model::answer::{Reason, Value};
use model::launch::{launch, Book};
use model::launch_file::read;
use model::launch_gen::{fitting_launch, Launch};
use model::prng::Prng;
use model::sound::failing_clauses;
use model::table::{GROUP_COUNT, HIDDEN, ROSTER_SIZE, WORDS};
use std::collections::{BTreeMap, BTreeSet};

fn random(seed: u64) -> Launch {
    model::launch_gen::launch(&mut Prng::new(seed))
}

#[test]
fn the_same_seed_gives_the_same_launch() {
    assert_eq!(random(5), random(5));
    assert_ne!(random(5), random(6));
}

#[test]
fn every_reason_of_a_launch_is_reached() {
    let first = seed();
    let mut seen: BTreeMap<(u32, bool), u32> = BTreeMap::new();
    for seed in first..first + rounds(3_000) {
        let given = random(seed);
        let old = vec![seed; WORDS];
        let launched = launch(
            &old,
            given.n,
            given.hidden,
            given.start,
            &given.book,
            &given.file,
        );
        let reason = launched.answer.reason;
        if reason == Reason::MainCase {
            assert_eq!(launched.answer.value, Value::Ok);
            assert_eq!(
                failing_clauses(&launched.table),
                BTreeSet::new(),
                "seed {seed}"
            );
            assert_eq!(launched.table[ROSTER_SIZE], u64::from(given.n));
            assert_eq!(launched.table[HIDDEN], given.hidden);
            assert!(launched.table[GROUP_COUNT] <= 32);
        } else {
            assert_eq!(launched.table, old, "seed {seed}");
        }
        assert!(launched.place == 0 || reason == Reason::NotLaunchFile);
        let bad_book = Book::read(&given.book, given.n as usize).is_none();
        *seen.entry((reason.number(), bad_book)).or_default() += 1;
    }
    println!("{seen:?}");
    let expected = [
        (0, false),
        (2, true),
        (7, false),
        (7, true),
        (16, false),
        (18, false),
        (18, true),
        (19, false),
        (20, false),
    ];
    for pair in expected {
        assert!(seen.contains_key(&pair), "{pair:?}");
    }
    assert!(seen
        .keys()
        .all(|pair| expected.contains(pair) || pair.0 == 2));
}

#[test]
fn fitting_launches_are_well_formed() {
    let first = seed();
    for seed in first..first + rounds(1_000) {
        let given = fitting_launch(&mut Prng::new(seed));
        assert!(read(&given.file).is_ok(), "seed {seed}");
        assert!(
            Book::read(&given.book, given.n as usize).is_some(),
            "seed {seed}"
        );
        assert!(given.start < given.n, "seed {seed}");
    }
}
