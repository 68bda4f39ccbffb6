//! Readings of the index of 02 that look right, each as other rules for the model,
//! and calls that tell each of them apart.

use crate::helpers::Beside;
use model::answer::{Answer, Reason, Value};
use model::index::{walk, words_of, Entry};
use model::rules::{Law, Rules};
use model::state::State;
use std::collections::BTreeSet;

/// Lines after which s_group 5 of 0 and 1 and s_group 3 of 0 and 2 have names: the
/// pid 67108865, of node 1, has 71 in s_group 3 and 70 in s_group 5; the pid 9, of
/// node 0, has 72 in s_group 5.
const NAMED: [&str; 6] = [
    "open 4 0",
    "0 new_s_group 5 3",
    "0 new_s_group 3 5",
    "0 register_name 3 71 67108865",
    "0 register_name 5 70 67108865",
    "0 register_name 5 72 9",
];

/// The index after `NAMED` by a reading, and by the documents.
fn named(rules: &dyn Rules) -> Beside<'_> {
    Beside::after(rules, &NAMED)
}

/// What lines print under the documents and under a wrong reading, on tables and
/// indexes that `spoil` has changed.
fn told_apart(wrong: &dyn Rules, spoil: &dyn Fn(&mut Beside), lines: &[(&str, &str, &str)]) {
    let run = |rules: &dyn Rules| -> Vec<String> {
        let mut beside = named(rules);
        spoil(&mut beside);
        lines
            .iter()
            .map(|(line, _, _)| beside.print(line))
            .collect()
    };
    let by_law: Vec<&str> = lines.iter().map(|(_, law, _)| *law).collect();
    let by_wrong: Vec<&str> = lines.iter().map(|(_, _, wrong)| *wrong).collect();
    assert_eq!(run(&Law), by_law);
    assert_eq!(run(wrong), by_wrong);
    assert_ne!(by_law, by_wrong);
}

/// The entries that a line leaves under the documents and under a wrong reading.
fn left_apart(
    wrong: &dyn Rules,
    line: &str,
    by_law: &[(u64, u64, u64)],
    by_wrong: &[(u64, u64, u64)],
) {
    let left = |rules: &dyn Rules| {
        let mut beside = named(rules);
        beside.print(line);
        beside.entries()
    };
    assert_eq!(left(&Law), by_law);
    assert_eq!(left(wrong), by_wrong);
    assert_ne!(by_law, by_wrong);
}

/// A wrong word in the index.
fn other_word(beside: &mut Beside) {
    beside.index[1] += 1;
}

/// A word less in the index.
fn other_length(beside: &mut Beside) {
    beside.index.pop();
}

/// Gives the lowest number, 22 after all others.
struct ByNumber;

impl Rules for ByNumber {
    fn choose(&self, applying: &BTreeSet<Reason>) -> Option<Reason> {
        applying.first().copied()
    }
}

#[test]
fn giving_the_lowest_number_is_told_apart() {
    told_apart(
        &ByNumber,
        &other_word,
        &[
            ("0 own_nodes", "error 22", "error 22"),
            ("4 own_nodes", "error 22", "error 4"),
            ("2 whereis_name 5 70", "error 22", "undefined 9"),
            ("names_of 268435456", "error 22", "error 7"),
        ],
    );
    told_apart(
        &ByNumber,
        &other_length,
        &[("open 4 16", "error 22", "error 7")],
    );
}

/// Tests the index before the table.
struct IndexFirst;

impl Rules for IndexFirst {
    fn choose(&self, applying: &BTreeSet<Reason>) -> Option<Reason> {
        let mismatch = applying.get(&Reason::IndexMismatch).copied();
        mismatch.or_else(|| Law.choose(applying))
    }
}

#[test]
fn testing_the_index_first_is_told_apart() {
    let unsound = |beside: &mut Beside| {
        other_length(beside);
        beside.table[3] = 1;
    };
    told_apart(
        &IndexFirst,
        &unsound,
        &[
            ("0 own_nodes", "error 3", "error 22"),
            ("names_of 9", "error 3", "error 22"),
            ("index", "error 3", "error 22"),
            ("open 65 0", "error 2", "error 22"),
        ],
    );
}

/// Tests the words of the index at opening too.
struct OpeningTestsWords;

impl Rules for OpeningTestsWords {
    fn opening_takes(&self, index: &[u64]) -> bool {
        Law.opening_takes(index) && index.iter().all(|word| *word == 0)
    }
}

#[test]
fn an_opening_that_tests_words_is_told_apart() {
    let mut beside = Beside::new(&OpeningTestsWords);
    beside.index.fill(7);
    assert_eq!(beside.print("open 4 0"), "error 22");
    let mut beside = Beside::new(&Law);
    beside.index.fill(7);
    assert_eq!(beside.print("open 4 0"), "ok 0");
}

/// Leaves the index where the table has no s_group, as after opening.
struct OpeningLeavesIndex;

impl Rules for OpeningLeavesIndex {
    fn index_after(&self, before: &[u64], after: &State) -> Vec<u64> {
        if after.s_groups.is_empty() {
            return before.to_vec();
        }
        Law.index_after(before, after)
    }
}

#[test]
fn an_opening_that_leaves_the_index_is_told_apart() {
    let entries = [(9, 5, 72), (67_108_865, 3, 71), (67_108_865, 5, 70)];
    left_apart(&OpeningLeavesIndex, "open 4 0", &[], &entries);
}

/// Keeps entries whose names have gone: only what comes is put in.
struct OnlyGrows;

impl Rules for OnlyGrows {
    fn index_after(&self, before: &[u64], after: &State) -> Vec<u64> {
        let come = Law.entries(after).into_iter().map(|entry| entry.words());
        let held = before.chunks(2).filter(|pair| pair[0] != 0);
        let held = held.map(|pair| [pair[0], pair[1]]);
        let all: BTreeSet<[u64; 2]> = come.chain(held).collect();
        let mut words: Vec<u64> = all.into_iter().flatten().collect();
        words.resize(before.len(), 0);
        words
    }
}

#[test]
fn an_index_that_only_grows_is_told_apart() {
    let entries = [(9, 5, 72), (67_108_865, 3, 71), (67_108_865, 5, 70)];
    for line in ["0 remove_nodes 5 2", "0 unregister_name 5 70"] {
        left_apart(&OnlyGrows, line, &entries[..2], &entries);
    }
    left_apart(&OnlyGrows, "0 delete_s_group 5", &entries[1..2], &entries);
    left_apart(
        &OnlyGrows,
        "0 re_register_name 5 72 8",
        &[(8, 5, 72), entries[1], entries[2]],
        &[(8, 5, 72), entries[0], entries[1], entries[2]],
    );
}

/// Has the entries as the walk meets them: by s_group and name.
struct AsWalked;

impl Rules for AsWalked {
    fn entries(&self, state: &State) -> Vec<Entry> {
        walk(state)
    }
}

#[test]
fn entries_in_the_order_of_the_walk_are_told_apart() {
    left_apart(
        &AsWalked,
        "0 own_nodes",
        &[(9, 5, 72), (67_108_865, 3, 71), (67_108_865, 5, 70)],
        &[(67_108_865, 3, 71), (67_108_865, 5, 70), (9, 5, 72)],
    );
}

/// Orders the entries of a pid by name.
struct ByName;

impl Rules for ByName {
    fn entries(&self, state: &State) -> Vec<Entry> {
        let mut entries = walk(state);
        entries.sort_by_key(|entry| (entry.p, entry.n));
        entries
    }
}

#[test]
fn entries_by_name_are_told_apart() {
    told_apart(
        &ByName,
        &|_| {},
        &[(
            "names_of 67108865",
            "list 4 3 71 5 70 0",
            "list 4 5 70 3 71 0",
        )],
    );
}

/// Lists one word an entry, as registered_names does.
struct OneWordEach;

impl Rules for OneWordEach {
    fn list(&self, entries: &[Entry]) -> Vec<u64> {
        let word = |entry: &Entry| (u64::from(entry.s) << 32) + u64::from(entry.n);
        entries.iter().map(word).collect()
    }
}

#[test]
fn a_list_of_one_word_an_entry_is_told_apart() {
    told_apart(
        &OneWordEach,
        &|_| {},
        &[("names_of 9", "list 2 5 72 0", "list 1 21474836552 0")],
    );
}

/// Lists the words of the entries.
struct WholeEntries;

impl Rules for WholeEntries {
    fn list(&self, entries: &[Entry]) -> Vec<u64> {
        entries.iter().flat_map(Entry::words).collect()
    }
}

#[test]
fn a_list_of_the_entries_words_is_told_apart() {
    told_apart(
        &WholeEntries,
        &|_| {},
        &[("names_of 9", "list 2 5 72 0", "list 2 38654705669 72 0")],
    );
}

/// Answers Undefined for a pid that nobody goes by.
struct NobodyUndefined;

impl Rules for NobodyUndefined {
    fn read(&self, list: Vec<u64>) -> Answer {
        if list.is_empty() {
            return Answer {
                value: Value::Undefined,
                reason: Reason::NameAbsent,
            };
        }
        Law.read(list)
    }
}

#[test]
fn nobody_as_undefined_is_told_apart() {
    told_apart(
        &NobodyUndefined,
        &|_| {},
        &[
            ("names_of 9", "list 2 5 72 0", "list 2 5 72 0"),
            ("names_of 10", "list 0 0", "undefined 12"),
        ],
    );
}

/// Takes an index whose used entries are right, whatever stands behind them.
struct RestIgnored;

impl Rules for RestIgnored {
    fn matches(&self, state: &State, index: &[u64]) -> bool {
        let used = words_of(&self.entries(state));
        let many = 2 * self.entries(state).len();
        index.len() == used.len() && index[..many] == used[..many]
    }
}

#[test]
fn ignoring_the_unused_words_is_told_apart() {
    told_apart(
        &RestIgnored,
        &|beside| beside.index[2_047] = 1,
        &[("0 own_nodes", "error 22", "nodes 7 3 0")],
    );
}

/// Takes an index that has the right entries in any order.
struct AnyOrder;

impl Rules for AnyOrder {
    fn matches(&self, state: &State, index: &[u64]) -> bool {
        let sorted = |words: &[u64]| {
            let mut pairs: Vec<Vec<u64>> = words.chunks(2).map(<[u64]>::to_vec).collect();
            pairs.sort();
            pairs
        };
        sorted(index) == sorted(&words_of(&self.entries(state)))
    }
}

#[test]
fn taking_any_order_is_told_apart() {
    told_apart(
        &AnyOrder,
        &|beside| {
            beside.index.swap(0, 2);
            beside.index.swap(1, 3);
        },
        &[("0 own_nodes", "error 22", "nodes 7 3 0")],
    );
}

/// Writes an index over a wrong one and goes on.
struct Mended;

impl Rules for Mended {
    fn matches(&self, _: &State, index: &[u64]) -> bool {
        index.len() == words_of(&[]).len()
    }
}

#[test]
fn mending_a_wrong_index_is_told_apart() {
    told_apart(
        &Mended,
        &other_word,
        &[
            ("0 register_name 5 73 10", "error 22", "true 0"),
            ("names_of 10", "error 22", "list 2 5 73 0"),
        ],
    );
}
