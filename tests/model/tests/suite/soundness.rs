//! Soundness over the words: each clause by a hand-made table that breaks it,
//! random changes of one word, random words, and a second reading of soundness
//! over the state to hold the clauses against.

use crate::helpers::{rounds, seed, sound_table, state_after, table};
use model::mutate::{mutated, random_words};
use model::prng::Prng;
use model::sound::{failing_clauses, sound, Clause};
use model::table::{
    read, state_of, words_of, BODIES, BODY, CONNECTIONS, CONTENTS, FREE_GROUPS, HIDDEN, MEMBERS,
    WORDS,
};
use std::collections::BTreeSet;

/// Six nodes, 4 and 5 hidden; groups 5 = {0,1} with names 70, 71 and 9 = {1};
/// free groups {2,3}.
fn base() -> Vec<u64> {
    words_of(&state_after(&[
        "open 6 48",
        "0 new_s_group 5 3",
        "0 register_name 5 70 67108865",
        "0 register_name 5 71 7",
        "1 new_s_group 9 2",
        "2 send 201326592",
        "4 send 0",
    ]))
}

/// The word of a registered name.
fn entry(name: u64, pid: u64) -> u64 {
    (name << 32) + pid
}

/// The base with some words changed.
fn edited(edits: &[(usize, u64)]) -> Vec<u64> {
    let mut words = base();
    for (place, word) in edits {
        words[*place] = *word;
    }
    words
}

#[test]
fn the_base_is_sound_and_as_described() {
    let expected = table(&[
        (0, 6),
        (1, 48),
        (2, 2),
        (4, 5 + 2 * 65_536),
        (5, 9),
        (36, 3),
        (37, 2),
        (68, 2 + 16),
        (69, 1),
        (70, 8),
        (71, 4),
        (72, 1),
        (134, 12),
        (135, 12),
        (196, (70 << 32) + 67_108_865),
        (197, (71 << 32) + 7),
    ]);
    assert_eq!(base(), expected);
    assert!(sound(&base()));
}

/// A clause with changes of the base after which it fails and no other does.
type Breach = (Clause, Vec<(usize, u64)>);

/// Breaches of every clause. Disjointness follows from each group standing in
/// its own words, so that it can't fail alone.
fn breaches() -> Vec<Breach> {
    [
        breaches_of_first_words(),
        breaches_of_contents(),
        breaches_of_members(),
        breaches_of_bodies(),
        breaches_of_connections(),
        breaches_of_free_groups(),
    ]
    .concat()
}

fn breaches_of_first_words() -> Vec<Breach> {
    vec![
        (Clause::RosterSizeInRange, vec![(0, 0)]),
        (Clause::RosterSizeInRange, vec![(0, 65)]),
        (Clause::RosterSizeInRange, vec![(0, u64::MAX)]),
        (Clause::GroupCountInRange, vec![(2, 33)]),
        (Clause::GroupCountInRange, vec![(2, 1 << 63)]),
        (Clause::HiddenOnRoster, vec![(HIDDEN, 48 + 64)]),
        (Clause::HiddenOnRoster, vec![(HIDDEN, 48 + (1 << 63))]),
        (Clause::WordThreeZero, vec![(3, 1)]),
        (Clause::WordThreeZero, vec![(3, 1 << 63)]),
    ]
}

fn breaches_of_contents() -> Vec<Breach> {
    let full = (0..32).map(|i| (BODIES + i, entry(1 + i as u64, i as u64)));
    let one_more = full.chain([(CONTENTS, 5 + 33 * 65_536)]).collect();
    vec![
        (Clause::GroupNameInRange, vec![(CONTENTS, 2 * 65_536)]),
        (Clause::NameCountInRange, one_more),
        (Clause::GroupNamesAscend, vec![(CONTENTS, 10 + 2 * 65_536)]),
        (Clause::GroupNamesAscend, vec![(CONTENTS + 1, 4)]),
        (Clause::GroupNamesDistinct, vec![(CONTENTS + 1, 5)]),
        (Clause::UnusedContentsZero, vec![(CONTENTS + 2, 11)]),
        (Clause::UnusedContentsZero, vec![(CONTENTS + 31, 1)]),
    ]
}

fn breaches_of_members() -> Vec<Breach> {
    let unconnected = vec![(CONNECTIONS, 16), (CONNECTIONS + 1, 0)];
    vec![
        (Clause::GroupHasMember, vec![(MEMBERS + 1, 0)]),
        (Clause::MembersOnRoster, vec![(MEMBERS, 3 + 64)]),
        (Clause::MembersOnRoster, vec![(MEMBERS + 1, 2 + (1 << 63))]),
        (Clause::UnusedMembersZero, vec![(MEMBERS + 2, 1)]),
        (Clause::UnusedMembersZero, vec![(MEMBERS + 31, 1)]),
        (Clause::MembersConnected, unconnected),
    ]
}

fn breaches_of_bodies() -> Vec<Breach> {
    let (first, second) = (BODIES, BODIES + 1);
    let last_pid = u64::from(u32::MAX);
    vec![
        (Clause::ProcessNameInRange, vec![(first, 67_108_865)]),
        (
            Clause::ProcessNamesAscend,
            vec![(first, entry(72, 67_108_865))],
        ),
        (Clause::ProcessNamesAscend, vec![(second, entry(69, 7))]),
        (Clause::ProcessNamesDistinct, vec![(second, entry(70, 7))]),
        (Clause::PidsDistinct, vec![(second, entry(71, 67_108_865))]),
        (
            Clause::HostsOnRoster,
            vec![(second, entry(71, 6 * 67_108_864))],
        ),
        (Clause::HostsOnRoster, vec![(first, entry(70, last_pid))]),
        (Clause::UnusedBodiesZero, vec![(BODIES + 2, entry(72, 8))]),
        (Clause::UnusedBodiesZero, vec![(BODIES + BODY - 1, 1)]),
        (Clause::UnusedBodiesZero, vec![(BODIES + BODY, entry(1, 1))]),
        (Clause::UnusedBodiesZero, vec![(BODIES + 2 * BODY, 1)]),
        (Clause::UnusedBodiesZero, vec![(WORDS - 1, 1)]),
    ]
}

fn breaches_of_connections() -> Vec<Breach> {
    vec![
        (Clause::ConnectionsOnRoster, vec![(CONNECTIONS + 4, 1 + 64)]),
        (Clause::UnusedConnectionsZero, vec![(CONNECTIONS + 6, 1)]),
        (Clause::UnusedConnectionsZero, vec![(CONNECTIONS + 63, 1)]),
        (Clause::ConnectionsMutual, vec![(CONNECTIONS + 5, 1)]),
        (Clause::ConnectionsMutual, vec![(CONNECTIONS + 4, 0)]),
        (Clause::NoSelfConnection, vec![(CONNECTIONS + 5, 32)]),
        (Clause::NoSelfConnection, vec![(CONNECTIONS + 2, 8 + 4)]),
    ]
}

fn breaches_of_free_groups() -> Vec<Breach> {
    let pair = |part: usize, two: u64, three: u64| vec![(part + 2, two), (part + 3, three)];
    let swapped = [pair(FREE_GROUPS, 8, 4), pair(CONNECTIONS, 8, 4)].concat();
    let too_wide = pair(FREE_GROUPS, 12 + 64, 12 + 64);
    vec![
        (Clause::FreeGroupsOnRoster, too_wide),
        (Clause::UnusedFreeWordsZero, vec![(FREE_GROUPS + 6, 64)]),
        (Clause::UnusedFreeWordsZero, vec![(FREE_GROUPS + 63, 1)]),
        (Clause::FreeGroupsInOwnWords, swapped),
        (Clause::FreeGroupsInOwnWords, vec![(FREE_GROUPS, 12)]),
        (Clause::FreeGroupsCover, vec![(FREE_GROUPS + 4, 16)]),
        (Clause::FreeGroupsCover, vec![(FREE_GROUPS, 1)]),
        (Clause::FreeGroupsCover, vec![(HIDDEN, 48 + 4 + 8)]),
        (Clause::SharedAreConnected, pair(CONNECTIONS, 0, 0)),
        (Clause::ConnectedShare, pair(FREE_GROUPS, 4, 8)),
        (Clause::FreeGroupsDisjoint, vec![(FREE_GROUPS + 2, 4)]),
    ]
}

/// The clauses that fail together after the hand-made changes, where it isn't
/// one alone.
fn failing_together(clause: Clause) -> BTreeSet<Clause> {
    match clause {
        Clause::FreeGroupsDisjoint => BTreeSet::from([
            Clause::FreeGroupsInOwnWords,
            Clause::FreeGroupsDisjoint,
            Clause::ConnectedShare,
        ]),
        other => BTreeSet::from([other]),
    }
}

#[test]
fn each_clause_fails_alone_on_a_table_made_for_it() {
    for (clause, edits) in breaches() {
        let failing = failing_clauses(&edited(&edits));
        assert_eq!(failing, failing_together(clause), "{clause:?} {edits:?}");
    }
    let breached: BTreeSet<Clause> = breaches().iter().map(|(clause, _)| *clause).collect();
    assert_eq!(breached, BTreeSet::from(Clause::ALL));
}

/// A second reading of soundness: the words are those of a well formed state.
fn words_of_a_well_formed_state(words: &[u64]) -> bool {
    read(words).is_some_and(|state| state.fault().is_none() && words_of(&state) == words)
}

#[test]
fn the_hand_made_tables_are_no_words_of_a_state() {
    assert!(words_of_a_well_formed_state(&base()));
    for (clause, edits) in breaches() {
        assert!(!words_of_a_well_formed_state(&edited(&edits)), "{clause:?}");
    }
}

#[test]
fn every_clause_is_hit_by_a_change_of_one_word() {
    let first = seed();
    let mut hit = BTreeSet::new();
    let mut still_sound = 0;
    for seed in first..first + rounds(150) {
        let words = sound_table(seed);
        let mut prng = Prng::new(!seed);
        for _ in 0..40 {
            let changed = mutated(&words, &mut prng);
            let failing = failing_clauses(&changed);
            let agreed = words_of_a_well_formed_state(&changed) == failing.is_empty();
            assert!(agreed, "seed {seed}: {failing:?}");
            still_sound += usize::from(failing.is_empty() && changed != words);
            hit.extend(failing);
        }
    }
    let missed: Vec<Clause> = Clause::ALL
        .into_iter()
        .filter(|c| !hit.contains(c))
        .collect();
    assert_eq!(missed, []);
    println!("{still_sound} changed tables were sound still");
    assert!(still_sound > 0);
}

#[test]
fn random_words_are_judged_alike_both_ways() {
    let mut prng = Prng::new(seed());
    for _ in 0..rounds(400) {
        let words = random_words(&mut prng);
        assert_eq!(sound(&words), words_of_a_well_formed_state(&words));
    }
}

#[test]
fn a_sound_table_after_a_change_comes_back_from_its_state() {
    let first = seed();
    for seed in first..first + rounds(60) {
        let mut prng = Prng::new(seed);
        let changed = mutated(&sound_table(seed), &mut prng);
        match state_of(&changed) {
            Ok(state) => assert_eq!(words_of(&state), changed, "seed {seed}"),
            Err(failing) => assert!(!failing.is_empty()),
        }
    }
}

#[test]
fn the_all_zero_table_is_unsound() {
    let zero = vec![0; WORDS];
    assert_eq!(
        failing_clauses(&zero),
        BTreeSet::from([Clause::RosterSizeInRange])
    );
}

#[test]
fn full_tables_are_sound() {
    let mut lines: Vec<String> = vec!["open 64 0".to_string()];
    for s in 1..=32 {
        lines.push(format!("63 new_s_group {s} 18446744073709551615"));
        for n in 1..=32 {
            lines.push(format!("0 register_name {s} {n} {}", 4_294_967_295u32 - n));
        }
    }
    let borrowed: Vec<&str> = lines.iter().map(String::as_str).collect();
    let words = words_of(&state_after(&borrowed));
    assert!(sound(&words));
    assert!(words[CONTENTS..].iter().filter(|word| **word == 0).count() == 64);
}
