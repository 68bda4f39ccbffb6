//! The index beside the table, as 02 has it: its words, the reasons of calls with
//! one and their order, what each command does to it, reading by pid, opening and
//! writing.

use crate::helpers::{index_request, sound_table, Beside};
use model::index::{index_of, outcome, ENTRY, WORDS};
use model::index_fault::Fault;
use model::launch::launch;
use model::prng::Prng;
use model::rules::Law;
use model::state::PIDS_PER_HOST;
use model::table::{self, state_of};

/// Lines that open six nodes with s_group 5 of 0, 1 and 2 and s_group 9 of 0 and 4.
/// The pid 67108871, of node 1, has names in both; 201326599 is of node 3, which is
/// in neither; 7 is of node 0, and 268435456 of node 4.
const NAMED: [&str; 8] = [
    "open 6 0",
    "0 new_s_group 9 17",
    "0 new_s_group 5 7",
    "0 register_name 9 8 67108871",
    "0 register_name 5 20 67108871",
    "2 register_name 5 40 201326599",
    "0 register_name 5 30 7",
    "4 register_name 9 20 268435456",
];

/// The entries after these lines.
const ENTRIES: [(u64, u64, u64); 5] = [
    (7, 5, 30),
    (67_108_871, 5, 20),
    (67_108_871, 9, 8),
    (201_326_599, 5, 40),
    (268_435_456, 9, 20),
];

/// A call of every command that is granted after these lines.
const GRANTED: [&str; 15] = [
    "0 register_name 5 21 8",
    "0 re_register_name 5 20 8",
    "0 unregister_name 5 20",
    "0 registered_names 5",
    "0 whereis_name 5 20",
    "3 whereis_name 0 5 20",
    "3 send 1",
    "0 send 5 20",
    "3 send 0 5 20",
    "3 new_s_group 6 8",
    "0 add_nodes 5 8",
    "0 remove_nodes 5 2",
    "0 delete_s_group 5",
    "3 own_nodes",
    "0 own_s_groups",
];

fn named() -> Beside<'static> {
    Beside::after(&Law, &NAMED)
}

/// A call that must be refused with Error and leave every word.
fn refused(beside: &Beside, line: &str, reason: u32) {
    let told = outcome(&beside.table, &beside.index, &index_request(line), 64);
    let numbers = (told.outcome.kind, told.outcome.first, told.outcome.reason);
    assert_eq!(numbers, (4, 0, reason), "{line}");
    assert!(told.outcome.table == beside.table, "{line}: another table");
    assert!(told.index == beside.index, "{line}: another index");
    assert!(told.outcome.list.is_empty());
}

/// Runs lines after `NAMED`, each beside what it prints and the entries that it
/// takes from those there and adds.
type Entry = (u64, u64, u64);
fn changes(lines: &[(&str, &str, &[Entry], &[Entry])]) {
    let mut beside = named();
    for (line, printed, gone, come) in lines {
        let mut entries = beside.entries();
        assert!(gone.iter().all(|entry| entries.contains(entry)), "{line}");
        entries.retain(|entry| !gone.contains(entry));
        entries.extend_from_slice(come);
        entries.sort();
        assert_eq!(beside.print(line), *printed, "at {line:?}");
        assert_eq!(beside.entries(), entries, "after {line:?}");
    }
}

#[test]
fn the_figures_are_those_of_the_documents() {
    assert_eq!((table::WORDS, WORDS, ENTRY), (1_220, 2_048, 2));
}

#[test]
fn an_entry_is_the_pid_and_the_s_group_then_the_name() {
    let beside = named();
    assert_eq!(beside.entries(), ENTRIES);
    let words = [(7 << 32) + 5, 30, (67_108_871 << 32) + 5, 20];
    assert_eq!(beside.index[..4], words);
    assert_eq!(beside.index[4..6], [(67_108_871 << 32) + 9, 8]);
    assert!(beside.index[10..].iter().all(|word| *word == 0));
    assert_eq!(beside.index.len(), 2_048);
}

#[test]
fn the_widest_numbers_have_their_place() {
    let mut beside = Beside::after(
        &Law,
        &[
            "open 64 0",
            "63 new_s_group 65535 9223372036854775808",
            "63 new_s_group 1 9223372036854775808",
            "63 register_name 65535 4294967295 4294967295",
            "63 register_name 1 1 0",
            "63 register_name 65535 1 0",
        ],
    );
    let largest = u64::from(u32::MAX);
    let entries = [(0, 1, 1), (0, 65_535, 1), (largest, 65_535, largest)];
    assert_eq!(beside.entries(), entries);
    beside.expect(&[
        ("names_of 0", "list 4 1 1 65535 1 0"),
        ("names_of 4294967295", "list 2 65535 4294967295 0"),
    ]);
}

// ---- reasons

#[test]
fn every_command_is_called_with_its_index() {
    for line in GRANTED {
        let mut beside = named();
        let printed = beside.print(line);
        assert!(printed.ends_with(" 0"), "{line}: {printed}");
        let state = state_of(&beside.table).expect("a sound table is left");
        assert!(beside.index == index_of(&state), "{line}");
    }
}

#[test]
fn an_index_of_another_length_is_22() {
    for length in [0, 1, WORDS - ENTRY, WORDS - 1, WORDS + 1, 2 * WORDS] {
        let mut beside = named();
        beside.index.resize(length, 0);
        for line in GRANTED {
            refused(&beside, line, 22);
        }
        for line in ["open 6 0", "names_of 7", "index"] {
            refused(&beside, line, 22);
        }
    }
}

#[test]
fn an_index_with_any_fault_is_22() {
    let mut prng = Prng::new(1);
    let stale = Beside::after(&Law, &NAMED[..6]).index;
    for fault in Fault::ALL {
        let mut beside = named();
        let right = beside.index.clone();
        let faulty = (0..20).map(|_| fault.on(&right, &stale, &mut prng));
        let wrong: Vec<Vec<u64>> = faulty.filter(|index| *index != right).collect();
        assert!(wrong.len() > 10, "{fault:?}");
        for index in wrong {
            beside.index = index;
            for line in GRANTED {
                refused(&beside, line, 22);
            }
            refused(&beside, "names_of 7", 22);
        }
    }
}

#[test]
fn each_word_of_the_index_counts() {
    let request = index_request("0 own_nodes");
    let beside = named();
    for place in 0..WORDS {
        for bit in [0, 31, 32, 63] {
            let mut index = beside.index.clone();
            index[place] ^= 1 << bit;
            let told = outcome(&beside.table, &index, &request, 0);
            assert_eq!(told.outcome.reason, 22, "word {place}, bit {bit}");
        }
    }
}

#[test]
fn a_table_without_names_has_an_index_of_zeros() {
    let mut beside = Beside::after(&Law, &["open 2 0", "0 new_s_group 5 3"]);
    assert_eq!(beside.entries(), []);
    beside.expect(&[("0 own_nodes", "nodes 3 2 0")]);
    beside.index[WORDS - 1] = 1;
    refused(&beside, "0 own_nodes", 22);
}

#[test]
fn reasons_1_and_3_come_before_22() {
    let lines = GRANTED.into_iter().chain(["names_of 7", "index"]);
    for line in lines {
        let mut beside = named();
        beside.index.pop();
        beside.table[3] = 1;
        refused(&beside, line, 3);
        beside.table.push(0);
        refused(&beside, line, 1);
    }
}

#[test]
fn an_unsound_table_with_its_walk_beside_it_is_3() {
    let mut beside = named();
    beside.table[3] = 1;
    refused(&beside, "0 own_nodes", 3);
    refused(&beside, "names_of 7", 3);
    refused(&beside, "index", 3);
}

#[test]
fn reason_22_comes_before_those_from_4_on() {
    let refusals = [
        ("6 own_nodes", 4),
        ("0 register_name 0 1 1", 5),
        ("0 register_name 5 0 1", 6),
        ("0 register_name 5 1 402653184", 7),
        ("0 register_name 6 1 1", 8),
        ("3 register_name 5 1 1", 9),
        ("0 register_name 5 20 1", 10),
        ("0 register_name 5 21 7", 11),
        ("0 whereis_name 5 21", 12),
        ("3 new_s_group 6 1", 14),
        ("0 new_s_group 5 1", 15),
        ("names_of 402653184", 7),
    ];
    for (line, reason) in refusals {
        let mut beside = named();
        let printed = beside.print(line);
        assert!(printed.ends_with(&format!(" {reason}")), "{line}");
        beside.index[1] += 1;
        refused(&beside, line, 22);
        beside.index.clear();
        refused(&beside, line, 22);
    }
}

#[test]
fn reason_22_comes_before_a_short_answer_run() {
    for line in ["0 registered_names 5", "0 own_s_groups", "names_of 7"] {
        let mut beside = named();
        let reason = |beside: &Beside| {
            let told = outcome(&beside.table, &beside.index, &index_request(line), 1);
            told.outcome.reason
        };
        assert_eq!(reason(&beside), 17, "{line}");
        beside.index[0] += 1;
        assert_eq!(reason(&beside), 22, "{line}");
    }
}

// ---- opening

#[test]
fn opening_zeroes_any_index_of_its_length() {
    for word in [0, 1, u64::MAX] {
        let mut beside = named();
        beside.index.fill(word);
        assert_eq!(beside.print("open 3 4"), "ok 0");
        assert!(beside.index.iter().all(|word| *word == 0));
        beside.table.fill(word);
        beside.index.fill(word);
        assert_eq!(beside.print("open 64 0"), "ok 0");
        assert!(beside.index.iter().all(|word| *word == 0));
    }
}

#[test]
fn opening_is_refused_with_1_2_22_7_in_this_order() {
    let mut beside = named();
    refused(&beside, "open 3 8", 7);
    beside.index.pop();
    refused(&beside, "open 3 8", 22);
    refused(&beside, "open 3 0", 22);
    refused(&beside, "open 0 8", 2);
    refused(&beside, "open 65 0", 2);
    beside.table.pop();
    refused(&beside, "open 65 8", 1);
}

#[test]
fn a_refused_opening_leaves_a_wrong_index_as_it_was() {
    let mut beside = named();
    beside.index.fill(9);
    refused(&beside, "open 3 8", 7);
    refused(&beside, "open 0 0", 2);
}

// ---- what the commands do

#[test]
fn registering_puts_an_entry_in_its_place() {
    changes(&[
        ("0 register_name 5 50 0", "true 0", &[], &[(0, 5, 50)]),
        (
            "4 register_name 9 1 402653183",
            "true 0",
            &[],
            &[(402_653_183, 9, 1)],
        ),
        (
            "4 register_name 9 3 201326599",
            "true 0",
            &[],
            &[(201_326_599, 9, 3)],
        ),
        (
            "2 register_name 5 1 268435456",
            "true 0",
            &[],
            &[(268_435_456, 5, 1)],
        ),
        ("0 register_name 5 51 8", "true 0", &[], &[(8, 5, 51)]),
    ]);
}

#[test]
fn re_registering_moves_an_entry_or_adds_one() {
    changes(&[
        (
            "0 re_register_name 5 20 268435457",
            "true 0",
            &[(67_108_871, 5, 20)],
            &[(268_435_457, 5, 20)],
        ),
        (
            "0 re_register_name 5 20 1",
            "true 0",
            &[(268_435_457, 5, 20)],
            &[(1, 5, 20)],
        ),
        (
            "0 re_register_name 5 20 2",
            "true 0",
            &[(1, 5, 20)],
            &[(2, 5, 20)],
        ),
        (
            "0 re_register_name 9 20 2",
            "true 0",
            &[(268_435_456, 9, 20)],
            &[(2, 9, 20)],
        ),
        (
            "0 re_register_name 5 21 67108871",
            "true 0",
            &[],
            &[(67_108_871, 5, 21)],
        ),
    ]);
}

#[test]
fn unregistering_takes_an_entry_out() {
    changes(&[
        (
            "0 unregister_name 5 20",
            "true 0",
            &[(67_108_871, 5, 20)],
            &[],
        ),
        ("0 unregister_name 5 20", "true 12", &[], &[]),
        (
            "0 unregister_name 9 20",
            "true 0",
            &[(268_435_456, 9, 20)],
            &[],
        ),
        ("0 unregister_name 5 30", "true 0", &[(7, 5, 30)], &[]),
        (
            "0 unregister_name 9 8",
            "true 0",
            &[(67_108_871, 9, 8)],
            &[],
        ),
        (
            "0 unregister_name 5 40",
            "true 0",
            &[(201_326_599, 5, 40)],
            &[],
        ),
        ("0 unregister_name 5 40", "true 12", &[], &[]),
    ]);
}

#[test]
fn a_refused_change_leaves_the_entries() {
    changes(&[
        ("0 register_name 5 20 1", "false 10", &[], &[]),
        ("0 register_name 5 21 7", "false 11", &[], &[]),
        ("0 re_register_name 5 30 7", "false 11", &[], &[]),
        ("0 register_name 6 1 1", "false 8", &[], &[]),
        ("3 register_name 5 1 1", "false 9", &[], &[]),
        ("3 unregister_name 5 20", "false 9", &[], &[]),
        ("3 remove_nodes 5 2", "error 9", &[], &[]),
        ("3 delete_s_group 5", "error 9", &[], &[]),
        ("0 register_name 5 0 1", "error 6", &[], &[]),
    ]);
}

#[test]
fn lookups_and_sends_leave_the_entries() {
    changes(&[
        ("0 whereis_name 5 20", "pid 67108871 0", &[], &[]),
        ("3 whereis_name 0 5 40", "pid 201326599 21", &[], &[]),
        ("3 whereis_name 4 9 9", "undefined 12", &[], &[]),
        ("5 whereis_name 3 6 9", "undefined 8", &[], &[]),
        ("3 send 402653183", "pid 402653183 0", &[], &[]),
        ("0 send 5 40", "pid 201326599 21", &[], &[]),
        ("5 send 4 9 20", "pid 268435456 0", &[], &[]),
        (
            "0 registered_names 9",
            "list 2 38654705672 38654705684 0",
            &[],
            &[],
        ),
        ("3 own_nodes", "nodes 40 2 0", &[], &[]),
        ("4 own_s_groups", "list 2 9 17 0", &[], &[]),
    ]);
}

#[test]
fn groups_that_come_and_grow_leave_the_entries() {
    changes(&[
        ("3 new_s_group 1 12", "group 1 12 0", &[], &[]),
        ("0 new_s_group 7 3", "group 7 3 0", &[], &[]),
        ("0 add_nodes 5 8", "group 5 8 0", &[], &[]),
        ("3 register_name 1 20 7", "true 0", &[], &[(7, 1, 20)]),
        ("1 register_name 7 20 7", "true 0", &[], &[(7, 7, 20)]),
    ]);
}

#[test]
fn removing_nodes_takes_their_names_out_of_one_s_group() {
    changes(&[
        ("0 add_nodes 9 2", "group 9 2 0", &[], &[]),
        ("0 remove_nodes 5 2", "true 0", &[(67_108_871, 5, 20)], &[]),
        ("0 remove_nodes 5 56", "true 0", &[], &[]),
        (
            "0 remove_nodes 9 18",
            "true 0",
            &[(67_108_871, 9, 8), (268_435_456, 9, 20)],
            &[],
        ),
        ("2 remove_nodes 5 1", "true 0", &[(7, 5, 30)], &[]),
    ]);
}

#[test]
fn an_s_group_left_empty_takes_all_its_names() {
    changes(&[
        (
            "0 remove_nodes 5 7",
            "true 0",
            &[(7, 5, 30), (67_108_871, 5, 20), (201_326_599, 5, 40)],
            &[],
        ),
        (
            "4 remove_nodes 9 63",
            "true 0",
            &[(67_108_871, 9, 8), (268_435_456, 9, 20)],
            &[],
        ),
    ]);
}

#[test]
fn deleting_takes_all_names_of_the_s_group() {
    changes(&[
        (
            "4 delete_s_group 9",
            "true 0",
            &[(67_108_871, 9, 8), (268_435_456, 9, 20)],
            &[],
        ),
        (
            "1 delete_s_group 5",
            "true 0",
            &[(7, 5, 30), (67_108_871, 5, 20), (201_326_599, 5, 40)],
            &[],
        ),
    ]);
}

#[test]
fn a_full_index_has_no_unused_word() {
    let mut beside = Beside::after(&Law, &["open 64 0"]);
    for s in 1..=32 {
        assert!(beside
            .print(&format!("0 new_s_group {s} 1"))
            .ends_with(" 0"));
        for n in 1..=32 {
            let p = (n * 7 + s) % 64 * PIDS_PER_HOST + n;
            let line = format!("0 register_name {s} {n} {p}");
            assert_eq!(beside.print(&line), "true 0");
        }
    }
    assert_eq!(beside.entries().len(), 1_024);
    let full = beside.index.clone();
    beside.expect(&[
        ("0 register_name 5 33 1", "false 13"),
        ("0 new_s_group 33 1", "error 16"),
        ("0 re_register_name 5 32 1", "true 0"),
        ("0 unregister_name 5 32", "true 0"),
    ]);
    assert_eq!(beside.entries().len(), 1_023);
    let held = 37 % 64 * PIDS_PER_HOST + 32;
    beside.expect(&[(&format!("0 register_name 5 32 {held}"), "true 0")]);
    assert!(beside.index == full);
}

// ---- reading by pid

#[test]
fn reading_lists_s_group_and_name_by_s_group() {
    named().expect(&[
        ("names_of 7", "list 2 5 30 0"),
        ("names_of 67108871", "list 4 5 20 9 8 0"),
        ("names_of 201326599", "list 2 5 40 0"),
        ("names_of 268435456", "list 2 9 20 0"),
    ]);
}

#[test]
fn a_pid_that_nobody_goes_by_has_the_empty_list() {
    named().expect(&[
        ("names_of 0", "list 0 0"),
        ("names_of 8", "list 0 0"),
        ("names_of 402653183", "list 0 0"),
    ]);
    Beside::after(&Law, &["open 1 0"]).expect(&[("names_of 0", "list 0 0")]);
}

#[test]
fn a_host_off_the_roster_is_7() {
    named().expect(&[
        ("names_of 402653184", "error 7"),
        ("names_of 4294967295", "error 7"),
    ]);
    Beside::after(&Law, &["open 64 0"]).expect(&[("names_of 4294967295", "list 0 0")]);
}

#[test]
fn reading_needs_room_for_the_whole_list() {
    let beside = named();
    let told = |p: &str, room: usize| {
        let request = index_request(&format!("names_of {p}"));
        outcome(&beside.table, &beside.index, &request, room).outcome
    };
    for (p, length) in [("7", 2), ("67108871", 4)] {
        for room in 0..length {
            let short = told(p, room);
            assert_eq!((short.kind, short.first, short.reason), (4, 0, 17));
            assert!(short.list.is_empty());
        }
        for room in [length, length + 1, 64] {
            let listed = told(p, room);
            let numbers = (listed.kind, listed.first, listed.second, listed.reason);
            assert_eq!(numbers, (9, length as u64, 0, 0));
        }
    }
    assert_eq!(told("8", 0).reason, 0);
    assert_eq!(told("402653184", 0).reason, 7);
    let run = told("67108871", 6).answer_run(&[u64::MAX; 6]);
    assert_eq!(run, [5, 20, 9, 8, u64::MAX, u64::MAX]);
}

#[test]
fn a_pid_can_be_in_every_s_group() {
    let mut beside = Beside::after(&Law, &["open 2 0"]);
    let mut printed = "list 64".to_string();
    for s in 1..=32 {
        let name = 100 - s;
        beside.print(&format!("0 new_s_group {s} 1"));
        beside.print(&format!("0 register_name {s} {name} 67108864"));
        printed += &format!(" {s} {name}");
    }
    beside.expect(&[("names_of 67108864", &format!("{printed} 0"))]);
    beside.expect(&[
        ("names_of 67108863", "list 0 0"),
        ("names_of 67108865", "list 0 0"),
    ]);
}

#[test]
fn reading_leaves_every_word() {
    let mut beside = named();
    let before = (beside.table.clone(), beside.index.clone());
    beside.print("names_of 67108871");
    assert!((beside.table, beside.index) == before);
}

// ---- writing

#[test]
fn the_index_of_any_sound_table_can_be_written() {
    for seed in 0..200 {
        let table = sound_table(seed);
        let mut beside = Beside::new(&Law);
        beside.table.clone_from(&table);
        beside.index.fill(seed.wrapping_neg());
        assert_eq!(beside.print("index"), "ok 0");
        assert!(beside.table == table);
        let state = state_of(&table).expect("a sound table");
        assert!(beside.index == index_of(&state));
        let printed = beside.print("0 own_nodes");
        assert!(printed.ends_with(" 0"), "{printed}");
    }
}

#[test]
fn the_index_of_a_launched_table_is_written() {
    let book = b"a\nb\nc\nfonts\n";
    let file = b"[{kernel, [{s_groups, [{fonts, normal, [a, b]}]}]}].";
    let told = launch(&vec![0; table::WORDS], 3, 0, 0, book, file);
    let mut beside = Beside::new(&Law);
    beside.table = told.table;
    beside.index.fill(1);
    refused(&beside, "0 own_nodes", 22);
    beside.expect(&[
        ("index", "ok 0"),
        ("0 register_name 1 70 67108864", "true 0"),
        ("names_of 67108864", "list 2 1 70 0"),
    ]);
}
