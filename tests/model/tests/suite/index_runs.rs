//! Random runs with an index held from call to call: it is what a walk over the
//! words of the table gives, reading by pid finds what the table has, and answers
//! and tables are those of the calls without an index.

use crate::helpers::{
    holds, on_random_scripts, printed_outcome, rounds, same, seed, sound_table, Beside,
};
use model::compare::outcome;
use model::crowd::crowd;
use model::generate::Generator;
use model::index::{self, index_of, Entry, IndexRequest};
use model::index_change::{changes, readings, Change, Reading};
use model::index_fault::Fault;
use model::mutate::mutated;
use model::prng::Prng;
use model::rules::{Law, Rules};
use model::script::{parse, ROOM};
use model::sound::sound;
use model::state::host_of;
use model::table::{state_of, words_of, BODIES, BODY, CONTENTS, GROUP_COUNT, ROSTER_SIZE, WORDS};
use std::collections::BTreeSet;

/// Every name of a sound table by its words: first and second word of an entry.
fn walked(table: &[u64]) -> BTreeSet<(u64, u64)> {
    let groups = table[GROUP_COUNT] as usize;
    let names = (0..groups).flat_map(|place| {
        let (s, count) = (
            table[CONTENTS + place] & 0xFFFF,
            table[CONTENTS + place] >> 16,
        );
        let body = &table[BODIES + BODY * place..][..count as usize];
        let entry = move |word: &u64| ((word << 32) + s, word >> 32);
        body.iter().map(entry)
    });
    names.collect()
}

/// Whether these words are the index of a sound table, judged by the words of both.
fn is_index(table: &[u64], index: &[u64]) -> Result<(), String> {
    holds(index.len() == index::WORDS, "another length")?;
    let names = walked(table);
    let (used, unused) = index.split_at(2 * names.len());
    let firsts: Vec<u64> = used.iter().copied().step_by(2).collect();
    let entries: BTreeSet<(u64, u64)> = used.chunks(2).map(|pair| (pair[0], pair[1])).collect();
    holds(firsts.windows(2).all(|two| two[0] < two[1]), "no ascent")?;
    same(&entries, &names, "other entries than the names")?;
    holds(unused.iter().all(|word| *word == 0), "an unused word")
}

/// The list of a pid by the words of the table.
fn named_in(table: &[u64], p: u32) -> Vec<u64> {
    let names = walked(table);
    let own = names
        .into_iter()
        .filter(|(first, _)| first >> 32 == u64::from(p));
    own.flat_map(|(first, n)| [first & 0xFFFF_FFFF, n])
        .collect()
}

/// Holds one line with the index against the same without it.
fn same_without(beside: &mut Beside, line: &[u8]) -> Result<(), String> {
    let Some(request) = parse(line) else {
        return Ok(());
    };
    let (table, index) = (beside.table.clone(), beside.index.clone());
    let plain = outcome(&table, &request, ROOM);
    let printed = beside.ask(&IndexRequest::Beside(request));
    same(&printed, &printed_outcome(&plain), "another answer")?;
    same(&beside.table, &plain.table, "another table")?;
    if sound(&beside.table) {
        is_index(&beside.table, &beside.index)
    } else {
        same(&beside.index, &index, "the index of no table changed")
    }
}

/// Holds reading by pids that are there, and beside them, against the table.
fn reads(beside: &mut Beside) -> Result<(), String> {
    if !sound(&beside.table) {
        return Ok(());
    }
    let names = walked(&beside.table);
    let pids = names.iter().map(|(first, _)| (first >> 32) as u32);
    let near = pids.flat_map(|p| [p.wrapping_sub(1), p, p.wrapping_add(1)]);
    let near: BTreeSet<u32> = near.chain([0, u32::MAX]).collect();
    for p in near {
        let list = named_in(&beside.table, p);
        let fields: String = list.iter().map(|word| format!(" {word}")).collect();
        let on = u64::from(host_of(p)) < beside.table[ROSTER_SIZE];
        let expected = match on {
            true => format!("list {}{fields} 0", list.len()),
            false => "error 7".to_string(),
        };
        let printed = beside.ask(&IndexRequest::NamesOf { p });
        same(&printed, &expected, "reading by pid")?;
    }
    Ok(())
}

#[test]
fn the_index_of_a_run_is_its_walk() {
    on_random_scripts("index", 60, 200, &|script| {
        let mut beside = Beside::new(&Law);
        for (place, line) in script.split_inclusive(|byte| *byte == b'\n').enumerate() {
            same_without(&mut beside, line)?;
            if place % 16 == 0 {
                reads(&mut beside)?;
            }
        }
        Ok(())
    });
}

#[test]
fn runs_on_crowds_keep_the_index_in_every_way() {
    let first = seed();
    let mut seen: BTreeSet<Change> = BTreeSet::new();
    let mut read: BTreeSet<Reading> = BTreeSet::new();
    for seed in first..first + rounds(80) {
        let mut prng = Prng::new(seed);
        let state = match seed % 4 {
            0 => None,
            _ => Some(crowd(&mut prng)),
        };
        let mut generator = match state {
            None => Generator::new(seed),
            Some(state) => Generator::on(seed, state),
        };
        let before = generator.opened_state();
        let mut beside = Beside::new(&Law);
        beside.table = words_of(&before);
        beside.index = index_of(&before);
        for _ in 0..150 {
            let request = generator.request();
            let before = state_of(&beside.table).expect("a sound table");
            beside.ask(&IndexRequest::Beside(request.clone()));
            let after = state_of(&beside.table).expect("a sound table");
            is_index(&beside.table, &beside.index)
                .unwrap_or_else(|wrong| panic!("seed {seed}: {wrong} after {}", request.line()));
            let entries = Law.entries(&after);
            seen.extend(changes(&Law.entries(&before), &entries));
            for p in some_pids(&entries, &mut prng) {
                read.extend(readings(&entries, p));
            }
        }
    }
    let unseen: Vec<Change> = Change::ALL
        .into_iter()
        .filter(|kind| !seen.contains(kind))
        .collect();
    let unread: Vec<Reading> = Reading::ALL
        .into_iter()
        .filter(|kind| !read.contains(kind))
        .collect();
    let all = unseen.is_empty() && unread.is_empty();
    assert!(all || rounds(80) < 80, "never seen: {unseen:?} {unread:?}");
}

/// The pid of an entry and its neighbours; where there is none, any.
fn some_pids(entries: &[Entry], prng: &mut Prng) -> [u32; 3] {
    match entries.len() {
        0 => [0, 1, 2],
        many => {
            let p = entries[prng.below(many as u64) as usize].p;
            [p.wrapping_sub(1), p, p.wrapping_add(1)]
        }
    }
}

#[test]
fn crowds_are_sound_and_some_are_full() {
    let first = seed();
    let mut full = 0;
    for seed in first..first + rounds(100) {
        let state = crowd(&mut Prng::new(seed));
        assert_eq!(state.fault(), None, "seed {seed}");
        assert!(sound(&words_of(&state)), "seed {seed}");
        full += usize::from(index_of(&state)[index::WORDS - 1] != 0);
    }
    assert!(full > 0 || rounds(100) < 100);
}

#[test]
fn faults_on_random_indexes_are_22_unless_nothing_changed() {
    let first = seed();
    let mut wrong: BTreeSet<Fault> = BTreeSet::new();
    for seed in first..first + rounds(150) {
        let table = sound_table(seed);
        let mut prng = Prng::new(seed);
        let right = index_of(&state_of(&table).expect("a sound table"));
        let stale = index_of(&state_of(&sound_table(seed + 1)).expect("a sound table"));
        for fault in Fault::ALL {
            let index = fault.on(&right, &stale, &mut prng);
            let request = IndexRequest::NamesOf { p: 0 };
            let told = index::outcome(&table, &index, &request, ROOM);
            assert_eq!(
                told.outcome.reason == 22,
                index != right,
                "{fault:?}, seed {seed}"
            );
            if index != right {
                wrong.insert(fault);
            }
        }
    }
    assert!(wrong.len() == Fault::ALL.len() || rounds(150) < 150);
}

#[test]
fn other_tables_leave_every_word() {
    let first = seed();
    for seed in first..first + rounds(300) {
        let table = sound_table(seed);
        let index = index_of(&state_of(&table).expect("a sound table"));
        let mut prng = Prng::new(seed);
        let other = match prng.below(4) {
            0 => table[..WORDS - 1].to_vec(),
            _ => mutated(&table, &mut prng),
        };
        let reason = match (other.len() == WORDS).then(|| sound(&other)) {
            None => 1,
            Some(false) => 3,
            Some(true) => continue,
        };
        let requests = [IndexRequest::NamesOf { p: 0 }, IndexRequest::Write];
        for request in requests {
            let told = index::outcome(&other, &index, &request, ROOM);
            assert_eq!(told.outcome.reason, reason);
            assert!(told.outcome.table == other && told.index == index);
        }
    }
}
