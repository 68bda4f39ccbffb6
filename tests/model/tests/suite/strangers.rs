//! Pids hosted outside their s_group, as 02 has them: which lookups tell it, by
//! whose members it is judged, and that the steps are those of reason 0.

use crate::helpers::{expect, expect_after, request, state_after, table, words_of_run};
use model::compare::outcome;
use model::rules::Law;
use model::script::Session;
use model::state::{State, PIDS_PER_HOST};
use model::table::words_of;

/// Lines that open six nodes with s_group 5 of 0, 1 and 2. Its name 20 is hosted
/// on 1; 40 is hosted on node 3, which is no member.
const HOSTED: [&str; 4] = [
    "open 6 0",
    "0 new_s_group 5 7",
    "0 register_name 5 20 67108871",
    "2 register_name 5 40 201326599",
];

/// Runs lines after those of `HOSTED`.
fn expect_hosted(lines: &[(&str, &str)]) {
    expect_after(&HOSTED.map(str::to_string), lines);
}

#[test]
fn all_four_lookups_tell_a_stranger() {
    expect_hosted(&[
        ("0 whereis_name 5 40", "pid 201326599 21"),
        ("4 whereis_name 1 5 40", "pid 201326599 21"),
        ("0 send 5 40", "pid 201326599 21"),
        ("4 send 1 5 40", "pid 201326599 21"),
        ("0 whereis_name 5 20", "pid 67108871 0"),
        ("4 whereis_name 1 5 20", "pid 67108871 0"),
        ("0 send 5 20", "pid 67108871 0"),
        ("4 send 1 5 20", "pid 67108871 0"),
    ]);
}

#[test]
fn no_other_command_tells_a_stranger() {
    expect_hosted(&[
        ("0 send 201326599", "pid 201326599 0"),
        ("4 send 201326599", "pid 201326599 0"),
        ("0 register_name 5 41 201326600", "true 0"),
        ("0 re_register_name 5 41 201326601", "true 0"),
        (
            "0 registered_names 5",
            "list 3 21474836500 21474836520 21474836521 0",
        ),
        ("0 unregister_name 5 40", "true 0"),
        ("0 unregister_name 5 40", "true 12"),
    ]);
}

#[test]
fn who_finds_nothing_is_told_nothing() {
    expect_hosted(&[
        ("3 whereis_name 5 40", "undefined 9"),
        ("3 send 5 40", "undefined 9"),
        ("0 whereis_name 3 5 40", "undefined 9"),
        ("0 send 3 5 40", "undefined 9"),
        ("0 whereis_name 6 40", "undefined 8"),
        ("0 whereis_name 5 41", "undefined 12"),
        ("3 whereis_name 0 0 40", "undefined 12"),
        ("3 send 0 0 40", "undefined 12"),
        ("3 whereis_name 6 5 40", "error 7"),
    ]);
}

#[test]
fn a_stranger_that_joins_is_none_and_leaves_with_its_name() {
    expect_hosted(&[
        ("0 whereis_name 5 40", "pid 201326599 21"),
        ("4 send 1 5 40", "pid 201326599 21"),
        ("1 add_nodes 5 8", "group 5 8 0"),
        ("0 whereis_name 5 40", "pid 201326599 0"),
        ("4 whereis_name 1 5 40", "pid 201326599 0"),
        ("3 send 5 40", "pid 201326599 0"),
        ("4 send 3 5 40", "pid 201326599 0"),
        ("0 remove_nodes 5 8", "true 0"),
        ("0 whereis_name 5 40", "undefined 12"),
        ("4 send 1 5 40", "undefined 12"),
        ("1 register_name 5 40 201326599", "true 0"),
        ("0 send 5 40", "pid 201326599 21"),
    ]);
}

#[test]
fn a_member_leaves_with_a_name_that_another_registered() {
    expect_hosted(&[
        ("2 whereis_name 5 20", "pid 67108871 0"),
        ("2 remove_nodes 5 2", "true 0"),
        ("2 whereis_name 5 20", "undefined 12"),
        ("0 send 5 20", "undefined 12"),
        ("2 register_name 5 20 67108871", "true 0"),
        ("0 whereis_name 5 20", "pid 67108871 21"),
    ]);
}

#[test]
fn a_stranger_stays_one_as_others_come_and_go() {
    expect_hosted(&[
        ("0 add_nodes 5 16", "group 5 16 0"),
        ("4 whereis_name 5 40", "pid 201326599 21"),
        ("0 remove_nodes 5 6", "true 0"),
        ("4 whereis_name 5 40", "pid 201326599 21"),
        ("0 remove_nodes 5 8", "true 0"),
        ("4 whereis_name 5 40", "pid 201326599 21"),
        ("0 remove_nodes 5 25", "true 0"),
        ("0 whereis_name 5 40", "undefined 8"),
    ]);
}

#[test]
fn re_registering_moves_a_name_out_and_in_again() {
    expect_hosted(&[
        ("0 whereis_name 5 20", "pid 67108871 0"),
        ("1 re_register_name 5 20 201326600", "true 0"),
        ("0 whereis_name 5 20", "pid 201326600 21"),
        ("4 send 0 5 20", "pid 201326600 21"),
        ("1 re_register_name 5 20 134217735", "true 0"),
        ("0 whereis_name 5 20", "pid 134217735 0"),
        ("4 send 0 5 20", "pid 134217735 0"),
    ]);
}

#[test]
fn another_s_group_of_the_asking_node_makes_no_member() {
    expect_hosted(&[
        ("0 new_s_group 6 9", "group 6 9 0"),
        ("0 own_nodes", "nodes 15 4 0"),
        ("0 whereis_name 5 40", "pid 201326599 21"),
        ("0 send 5 40", "pid 201326599 21"),
        ("3 whereis_name 0 5 40", "pid 201326599 21"),
        ("0 register_name 6 40 201326599", "true 0"),
        ("0 whereis_name 6 40", "pid 201326599 0"),
    ]);
}

#[test]
fn another_s_group_without_a_member_makes_no_stranger() {
    expect_hosted(&[
        ("0 new_s_group 6 9", "group 6 9 0"),
        ("0 register_name 6 20 67108871", "true 0"),
        ("0 whereis_name 5 20", "pid 67108871 0"),
        ("3 whereis_name 0 5 20", "pid 67108871 0"),
        ("0 whereis_name 6 20", "pid 67108871 21"),
        ("1 whereis_name 0 6 20", "pid 67108871 21"),
        ("3 send 6 20", "pid 67108871 21"),
    ]);
}

#[test]
fn whose_pid_it_is_does_not_count() {
    expect_hosted(&[
        ("3 whereis_name 0 5 40", "pid 201326599 21"),
        ("3 send 0 5 40", "pid 201326599 21"),
        ("1 whereis_name 5 20", "pid 67108871 0"),
        ("1 send 5 20", "pid 67108871 0"),
        ("4 whereis_name 1 5 20", "pid 67108871 0"),
        ("4 send 1 5 20", "pid 67108871 0"),
        ("2 whereis_name 1 5 40", "pid 201326599 21"),
    ]);
}

#[test]
fn hidden_nodes_are_strangers_and_members_like_others() {
    expect(&[
        ("open 6 48", "ok 0"),
        ("4 new_s_group 5 17", "group 5 17 0"),
        ("0 register_name 5 1 268435456", "true 0"),
        ("0 register_name 5 2 335544320", "true 0"),
        ("0 register_name 5 3 67108864", "true 0"),
        ("0 whereis_name 5 1", "pid 268435456 0"),
        ("0 whereis_name 5 2", "pid 335544320 21"),
        ("4 whereis_name 5 3", "pid 67108864 21"),
        ("5 send 4 5 2", "pid 335544320 21"),
        ("5 new_s_group 6 32", "group 6 32 0"),
        ("4 send 5 2", "pid 335544320 21"),
        ("4 add_nodes 5 32", "group 5 32 0"),
        ("5 send 5 2", "pid 335544320 0"),
    ]);
}

#[test]
fn an_s_group_of_one_node_has_one_host() {
    expect(&[
        ("open 64 0", "ok 0"),
        (
            "63 new_s_group 65535 9223372036854775808",
            "group 65535 9223372036854775808 0",
        ),
        ("63 register_name 65535 4294967295 4294967295", "true 0"),
        ("63 register_name 65535 1 4227858432", "true 0"),
        ("63 register_name 65535 2 4227858431", "true 0"),
        ("63 register_name 65535 3 0", "true 0"),
        ("63 whereis_name 65535 4294967295", "pid 4294967295 0"),
        ("63 whereis_name 65535 1", "pid 4227858432 0"),
        ("63 whereis_name 65535 2", "pid 4227858431 21"),
        ("63 send 65535 3", "pid 0 21"),
        ("0 send 63 65535 3", "pid 0 21"),
    ]);
}

#[test]
fn each_of_64_nodes_is_judged_by_its_own_place() {
    for members in [0x5555_5555_5555_5555, u64::from(u32::MAX), 1 << 63 | 1] {
        let opened = [
            "open 64 0".to_string(),
            format!("0 new_s_group 5 {members}"),
        ];
        let mut session = Session::new(&Law);
        opened
            .iter()
            .for_each(|line| drop(session.answer(&request(line))));
        for host in 0..64 {
            let pid = host * PIDS_PER_HOST + 1;
            session.answer(&request(&format!("0 re_register_name 5 1 {pid}")));
            let reason = if members >> host & 1 == 1 { 0 } else { 21 };
            let told = session.answer(&request("0 whereis_name 5 1")).to_string();
            assert_eq!(told, format!("pid {pid} {reason}"));
        }
    }
}

#[test]
fn in_numbers_it_is_a_pid_with_reason_21() {
    let words = words_of(&state_after(&HOSTED));
    for line in ["0 whereis_name 5 40", "4 send 1 5 40"] {
        let told = outcome(&words, &request(line), 64);
        let numbers = (told.kind, told.first, told.second, told.reason);
        assert_eq!(numbers, (6, 201_326_599, 0, 21), "{line}");
        assert!(told.list.is_empty());
    }
}

/// The words of `HOSTED`, with these in place of its connections and free groups.
fn hosted_words(linked: &[(usize, u64)]) -> Vec<u64> {
    let mut words = vec![
        (0, 6),
        (2, 1),
        (4, 5 + 2 * 65_536),
        (36, 7),
        (196, (20 << 32) + 67_108_871),
        (197, (40 << 32) + 201_326_599),
    ];
    words.extend_from_slice(linked);
    table(&words)
}

/// The words after a call that tells the stranger, with these connections and
/// free groups.
fn links(line: &str, linked: &[(usize, u64)]) {
    let told = outcome(&words_of(&state_after(&HOSTED)), &request(line), 0);
    assert_eq!((told.kind, told.reason), (6, 21), "{line}");
    assert_eq!(told.table, hosted_words(linked), "{line}");
}

#[test]
fn a_lookup_of_a_stranger_links_nothing_of_its_own() {
    links(
        "0 whereis_name 5 40",
        &[(68, 6), (69, 5), (70, 3), (135, 8), (136, 16), (137, 32)],
    );
    links(
        "4 whereis_name 1 5 40",
        &[
            (68, 6),
            (69, 21),
            (70, 3),
            (72, 2),
            (135, 8),
            (136, 16),
            (137, 32),
        ],
    );
}

#[test]
fn a_send_to_a_stranger_links_it_to_the_caller() {
    links(
        "0 send 5 40",
        &[
            (68, 14),
            (69, 5),
            (70, 3),
            (71, 1),
            (135, 8),
            (136, 16),
            (137, 32),
        ],
    );
    links(
        "4 send 1 5 40",
        &[
            (68, 6),
            (69, 21),
            (70, 3),
            (71, 16),
            (72, 10),
            (135, 24),
            (136, 24),
            (137, 32),
        ],
    );
    links(
        "3 send 1 5 40",
        &[
            (68, 6),
            (69, 13),
            (70, 3),
            (71, 2),
            (135, 8),
            (136, 16),
            (137, 32),
        ],
    );
}

/// The bits of the table that a call changes, and its reason.
fn changed(state: &State, line: &str) -> (Vec<u64>, u32) {
    let before = words_of(state);
    let after = outcome(&before, &request(line), 0);
    let bits = before.iter().zip(&after.table).map(|(old, new)| old ^ new);
    (bits.collect(), after.reason)
}

#[test]
fn a_stranger_is_linked_as_a_member_is() {
    let mut lines = HOSTED.to_vec();
    lines.extend([
        "3 new_s_group 6 8",
        "3 new_s_group 7 9",
        "3 new_s_group 8 10",
    ]);
    lines.push("3 new_s_group 9 12");
    let outside = state_after(&lines);
    lines.push("0 add_nodes 5 8");
    let inside = state_after(&lines);
    for line in [
        "0 whereis_name 5 40",
        "4 whereis_name 1 5 40",
        "1 send 5 40",
        "4 send 1 5 40",
        "3 send 2 5 40",
    ] {
        let (stranger, member) = (changed(&outside, line), changed(&inside, line));
        assert_eq!((stranger.1, member.1), (21, 0), "{line}");
        assert_eq!(stranger.0, member.0, "{line}");
    }
}

#[test]
fn a_send_by_name_links_as_sends_to_both_nodes() {
    let mut by_name = HOSTED.to_vec();
    by_name.push("4 send 1 5 40");
    let mut by_pids = HOSTED.to_vec();
    by_pids.extend(["4 send 67108864", "4 send 201326592"]);
    assert_eq!(state_after(&by_name), state_after(&by_pids));
}

/// What two scripts print in a mix after `HOSTED`, each by itself, and the words
/// at the end. Bit i of the mix tells which script has the line at place i.
fn mixed(scripts: [&[&str]; 2], mix: u32) -> ([Vec<String>; 2], Vec<u64>) {
    let mut session = Session::new(&Law);
    let mut left = scripts.map(|lines| lines.iter());
    let mut printed = [Vec::new(), Vec::new()];
    for line in HOSTED {
        session.answer(&request(line));
    }
    for place in 0..scripts[0].len() + scripts[1].len() {
        let which = (mix >> place & 1) as usize;
        let line = left[which].next().expect("a mix has the lines of both");
        printed[which].push(session.answer(&request(line)).to_string());
    }
    (printed, words_of_run(&session.state))
}

/// Every mix of two scripts prints the same for each and ends in the same words.
fn mixes_print(scripts: [&[(&str, &str)]; 2]) {
    let lines = scripts.map(|script| script.iter().map(|(line, _)| *line).collect::<Vec<_>>());
    let expected = scripts.map(|script| script.iter().map(|(_, told)| *told).collect::<Vec<_>>());
    let [one, two] = [0, 1].map(|which| lines[which].len() as u32);
    let in_turn = (1 << (one + two)) - (1 << one);
    let (_, words) = mixed([&lines[0], &lines[1]], in_turn);
    for mix in (0..1u32 << (one + two)).filter(|mix| mix.count_ones() == two) {
        let (printed, end) = mixed([&lines[0], &lines[1]], mix);
        assert_eq!(printed, expected, "mix {mix:b}");
        assert_eq!(end, words, "mix {mix:b}");
    }
}

/// Lines of a script that names s_group 6 alone, and takes node 3 into it.
const OTHERS: [(&str, &str); 3] = [
    ("0 add_nodes 6 8", "group 6 8 0"),
    ("3 register_name 6 40 201326599", "true 0"),
    ("3 whereis_name 6 40", "pid 201326599 0"),
];

#[test]
fn another_script_cannot_take_a_stranger_in() {
    let two = [&[("0 new_s_group 6 1", "group 6 1 0")][..], &OTHERS].concat();
    mixes_print([
        &[
            ("0 whereis_name 5 40", "pid 201326599 21"),
            ("1 re_register_name 5 20 201326600", "true 0"),
            ("2 whereis_name 5 20", "pid 201326600 21"),
            ("0 whereis_name 5 40", "pid 201326599 21"),
        ],
        &two,
    ]);
}

#[test]
fn the_same_script_can_take_a_stranger_in() {
    let two = [&[("0 new_s_group 6 1", "group 6 1 0")][..], &OTHERS].concat();
    mixes_print([
        &[
            ("0 whereis_name 5 40", "pid 201326599 21"),
            ("1 add_nodes 5 8", "group 5 8 0"),
            ("2 whereis_name 5 40", "pid 201326599 0"),
            ("3 whereis_name 5 40", "pid 201326599 0"),
        ],
        &two,
    ]);
}
