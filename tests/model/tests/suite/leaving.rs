//! Names that leave with their node, as 02 has them: which names a removal
//! drops, which it keeps, and every word of the table afterwards.

use crate::helpers::{expect, expect_after, request, state_after, table};
use model::compare::outcome;
use model::table::words_of;

/// Lines that open five nodes with s_group 5 of 0, 1 and 2. Its names 10, 20 and
/// 30 are hosted on these, 40 on node 3, which is no member.
fn hosted_group() -> Vec<String> {
    let lines = [
        "open 5 0",
        "0 new_s_group 5 7",
        "0 register_name 5 10 7",
        "0 register_name 5 20 67108871",
        "0 register_name 5 30 134217735",
        "0 register_name 5 40 201326599",
    ];
    lines.map(str::to_string).to_vec()
}

#[test]
fn a_member_leaves_with_its_names() {
    expect_after(
        &hosted_group(),
        &[
            ("0 whereis_name 5 20", "pid 67108871 0"),
            ("0 remove_nodes 5 2", "true 0"),
            ("0 whereis_name 5 20", "undefined 12"),
            ("0 send 5 20", "undefined 12"),
            ("4 whereis_name 0 5 20", "undefined 12"),
            ("4 send 0 5 20", "undefined 12"),
            ("0 unregister_name 5 20", "true 12"),
            ("1 whereis_name 5 20", "undefined 9"),
            (
                "0 registered_names 5",
                "list 3 21474836490 21474836510 21474836520 0",
            ),
        ],
    );
}

#[test]
fn the_caller_leaves_with_its_own_names() {
    expect_after(
        &hosted_group(),
        &[
            ("1 remove_nodes 5 2", "true 0"),
            ("1 whereis_name 5 20", "undefined 9"),
            ("2 whereis_name 5 20", "undefined 12"),
            ("2 whereis_name 5 10", "pid 7 0"),
            ("2 whereis_name 5 30", "pid 134217735 0"),
        ],
    );
}

#[test]
fn a_node_of_the_set_that_is_no_member_takes_nothing_along() {
    expect_after(
        &hosted_group(),
        &[
            ("0 remove_nodes 5 8", "true 0"),
            ("0 whereis_name 5 40", "pid 201326599 21"),
            ("0 remove_nodes 5 26", "true 0"),
            ("0 whereis_name 5 20", "undefined 12"),
            ("0 whereis_name 5 40", "pid 201326599 21"),
        ],
    );
}

#[test]
fn a_node_that_left_before_takes_nothing_along() {
    expect_after(
        &hosted_group(),
        &[
            ("0 remove_nodes 5 2", "true 0"),
            ("0 register_name 5 20 67108872", "true 0"),
            ("0 remove_nodes 5 2", "true 0"),
            ("0 whereis_name 5 20", "pid 67108872 21"),
            ("0 remove_nodes 5 6", "true 0"),
            ("0 whereis_name 5 20", "pid 67108872 21"),
            ("0 whereis_name 5 30", "undefined 12"),
        ],
    );
}

#[test]
fn a_name_hosted_outside_stays_until_its_host_joins_and_leaves() {
    expect_after(
        &hosted_group(),
        &[
            ("0 remove_nodes 5 6", "true 0"),
            ("0 whereis_name 5 40", "pid 201326599 21"),
            ("0 add_nodes 5 8", "group 5 8 0"),
            ("0 whereis_name 5 40", "pid 201326599 0"),
            ("0 remove_nodes 5 8", "true 0"),
            ("0 whereis_name 5 40", "undefined 12"),
            ("0 registered_names 5", "list 1 21474836490 0"),
        ],
    );
}

#[test]
fn another_s_group_keeps_the_names_of_a_host_that_leaves() {
    expect_after(
        &hosted_group(),
        &[
            ("1 new_s_group 6 6", "group 6 6 0"),
            ("1 register_name 6 20 67108871", "true 0"),
            ("2 register_name 6 21 67108872", "true 0"),
            ("0 remove_nodes 5 2", "true 0"),
            ("0 whereis_name 5 20", "undefined 12"),
            ("1 whereis_name 6 20", "pid 67108871 0"),
            ("1 whereis_name 6 21", "pid 67108872 0"),
            ("2 remove_nodes 6 2", "true 0"),
            ("2 registered_names 6", "list 0 0"),
        ],
    );
}

/// Lines that fill s_group 5 of 0 and 1 with 32 names, all hosted on this node.
fn full_of(host: u32) -> Vec<String> {
    let mut filled = vec!["open 2 0".to_string(), "0 new_s_group 5 3".to_string()];
    let pid = |n: u32| host * 67_108_864 + n;
    filled.extend((1..=32).map(|n| format!("0 register_name 5 {n} {}", pid(n))));
    filled
}

/// What registered_names prints for the names 1 to 32 of s_group 5.
fn full_list() -> String {
    let listed: Vec<String> = (1..=32).map(|n: u64| ((5 << 32) + n).to_string()).collect();
    format!("list 32 {} 0", listed.join(" "))
}

#[test]
fn a_removal_may_drop_all_32_names() {
    expect_after(
        &full_of(1),
        &[
            ("0 register_name 5 33 33", "false 13"),
            ("0 remove_nodes 5 2", "true 0"),
            ("0 registered_names 5", "list 0 0"),
            ("0 own_nodes", "nodes 1 1 0"),
            ("0 register_name 5 33 33", "true 0"),
        ],
    );
}

#[test]
fn a_removal_may_drop_none_of_32_names() {
    expect_after(
        &full_of(0),
        &[
            ("0 remove_nodes 5 2", "true 0"),
            ("0 registered_names 5", &full_list()),
            ("0 register_name 5 33 33", "false 13"),
        ],
    );
}

#[test]
fn a_full_namespace_has_room_again() {
    let mut filled = full_of(1);
    filled.push("0 re_register_name 5 17 17".to_string());
    filled.push("0 re_register_name 5 32 32".to_string());
    filled.push("1 re_register_name 5 1 1".to_string());
    expect_after(
        &filled,
        &[
            ("0 register_name 5 33 33", "false 13"),
            ("1 remove_nodes 5 2", "true 0"),
            (
                "0 registered_names 5",
                "list 3 21474836481 21474836497 21474836512 0",
            ),
            ("0 register_name 5 33 33", "true 0"),
            ("0 re_register_name 5 34 34", "true 0"),
        ],
    );
}

#[test]
fn an_s_group_left_empty_goes_with_all_its_names() {
    expect_after(
        &hosted_group(),
        &[
            ("0 remove_nodes 5 31", "true 0"),
            ("0 whereis_name 5 40", "undefined 8"),
            ("0 whereis_name 5 10", "undefined 8"),
            ("0 new_s_group 5 15", "group 5 15 0"),
            ("3 registered_names 5", "list 0 0"),
            ("3 register_name 5 40 201326599", "true 0"),
        ],
    );
}

#[test]
fn a_dropped_name_and_its_pid_may_be_registered_again() {
    expect_after(
        &hosted_group(),
        &[
            ("0 register_name 5 20 1", "false 10"),
            ("0 register_name 5 21 67108871", "false 11"),
            ("0 re_register_name 5 20 67108871", "false 11"),
            ("0 remove_nodes 5 2", "true 0"),
            ("0 register_name 5 20 1", "true 0"),
            ("0 register_name 5 21 67108871", "true 0"),
            ("0 whereis_name 5 21", "pid 67108871 21"),
        ],
    );
}

#[test]
fn a_refused_or_empty_removal_drops_nothing() {
    expect_after(
        &hosted_group(),
        &[
            ("3 remove_nodes 5 2", "error 9"),
            ("0 remove_nodes 6 2", "error 8"),
            ("0 remove_nodes 5 34", "error 7"),
            ("5 remove_nodes 5 2", "error 4"),
            ("0 remove_nodes 5 0", "true 0"),
            (
                "0 registered_names 5",
                "list 4 21474836490 21474836500 21474836510 21474836520 0",
            ),
        ],
    );
}

#[test]
fn a_hidden_member_leaves_with_its_names_too() {
    expect(&[
        ("open 64 9223372036854775808", "ok 0"),
        (
            "63 new_s_group 65535 9223372036854775809",
            "group 65535 9223372036854775809 0",
        ),
        ("63 register_name 65535 1 4294967295", "true 0"),
        ("63 register_name 65535 2 4227858432", "true 0"),
        ("63 register_name 65535 3 4227858431", "true 0"),
        ("63 remove_nodes 65535 9223372036854775808", "true 0"),
        ("0 whereis_name 65535 1", "undefined 12"),
        ("0 whereis_name 65535 2", "undefined 12"),
        ("0 whereis_name 65535 3", "pid 4227858431 21"),
    ]);
}

/// A name with its pid as a word.
fn entry(name: u64, pid: u64) -> u64 {
    (name << 32) + pid
}

/// S_group 5 of 0, 1 and 2 with six names, between the s_groups 4 and 9 of node
/// 1 alone with a name each.
const SIX_NAMES: [&str; 12] = [
    "open 4 0",
    "0 new_s_group 5 7",
    "1 new_s_group 4 2",
    "1 new_s_group 9 2",
    "1 register_name 4 3 67108865",
    "1 register_name 9 5 67108865",
    "0 register_name 5 1 67108865",
    "0 register_name 5 2 1",
    "0 register_name 5 3 134217729",
    "0 register_name 5 4 134217730",
    "0 register_name 5 5 2",
    "0 register_name 5 6 67108866",
];

/// The words that no removal of 1 and 2 from s_group 5 changes: the roster, the
/// s_groups 4 and 9, and the connections of 0, 1 and 2, which are never taken away.
fn around() -> Vec<(usize, u64)> {
    vec![
        (0, 4),
        (2, 3),
        (4, 4 + 65_536),
        (6, 9 + 65_536),
        (36, 2),
        (38, 2),
        (68, 6),
        (69, 5),
        (70, 3),
        (135, 8),
        (196, entry(3, 67_108_865)),
        (260, entry(5, 67_108_865)),
    ]
}

/// The words after a removal from s_group 5 that leaves these words of its own.
fn after_removal(line: &str, own: &[(usize, u64)]) {
    let before = words_of(&state_after(&SIX_NAMES));
    let after = outcome(&before, &request(line), 0);
    assert_eq!((after.kind, after.reason), (2, 0), "{line}");
    let mut words = around();
    words.extend_from_slice(own);
    assert_eq!(after.table, table(&words), "{line}");
}

#[test]
fn the_first_and_the_last_name_go() {
    after_removal(
        "0 remove_nodes 5 2",
        &[
            (5, 5 + 4 * 65_536),
            (37, 5),
            (228, entry(2, 1)),
            (229, entry(3, 134_217_729)),
            (230, entry(4, 134_217_730)),
            (231, entry(5, 2)),
        ],
    );
}

#[test]
fn names_in_the_middle_go() {
    after_removal(
        "2 remove_nodes 5 12",
        &[
            (5, 5 + 4 * 65_536),
            (37, 3),
            (134, 4),
            (228, entry(1, 67_108_865)),
            (229, entry(2, 1)),
            (230, entry(5, 2)),
            (231, entry(6, 67_108_866)),
        ],
    );
}

#[test]
fn names_of_two_hosts_go_at_once() {
    after_removal(
        "1 remove_nodes 5 6",
        &[
            (5, 5 + 2 * 65_536),
            (37, 1),
            (134, 4),
            (228, entry(2, 1)),
            (229, entry(5, 2)),
        ],
    );
}
