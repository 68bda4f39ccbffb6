//! The edges of 01 and of how it is read, command by command, and for each
//! command a ladder of calls on which one reason after the other falls away.

use crate::helpers::{expect, expect_after, state_after};
use model::state::NodeSet;

/// Lines that open four nodes, 3 of them hidden, with group 5 of 0 and 1 whose
/// name 70 has pid 67108865.
fn named_group() -> Vec<String> {
    lines(&[
        "open 4 8",
        "0 new_s_group 5 3",
        "0 register_name 5 70 67108865",
    ])
}

fn lines(given: &[&str]) -> Vec<String> {
    given.iter().map(|line| line.to_string()).collect()
}

/// Lines that fill the namespace of group 5 with names 1 to 32, pids the same.
fn full_namespace() -> Vec<String> {
    let mut filled = lines(&["open 4 8", "0 new_s_group 5 3"]);
    filled.extend((1..=32).map(|n| format!("0 register_name 5 {n} {n}")));
    filled
}

/// Lines that make groups 1 to 32, each of node 0 alone.
fn full_of_groups() -> Vec<String> {
    let mut filled = lines(&["open 4 8"]);
    filled.extend((1..=32).map(|s| format!("0 new_s_group {s} 1")));
    filled
}

#[test]
fn the_32nd_name_goes_in_and_the_33rd_does_not() {
    let mut filled = full_namespace();
    filled.pop();
    expect_after(
        &filled,
        &[
            ("0 register_name 5 32 32", "true 0"),
            ("0 register_name 5 33 33", "false 13"),
            ("1 re_register_name 5 33 33", "false 13"),
            ("1 re_register_name 5 7 33", "true 0"),
            ("1 whereis_name 5 7", "pid 33 0"),
            ("1 re_register_name 5 8 7", "true 0"),
            ("0 register_name 5 34 9", "false 11"),
            ("0 re_register_name 5 34 9", "false 11"),
            ("0 register_name 5 9 34", "false 10"),
            ("0 unregister_name 5 1", "true 0"),
            ("0 register_name 5 33 1", "true 0"),
            ("0 register_name 5 1 8", "false 13"),
        ],
    );
}

#[test]
fn a_full_namespace_is_listed_whole() {
    let listed: Vec<String> = (1..=32).map(|n: u64| ((5 << 32) + n).to_string()).collect();
    let line = format!("list 32 {} 0", listed.join(" "));
    expect_after(&full_namespace(), &[("1 registered_names 5", &line)]);
}

#[test]
fn openings_at_the_edge() {
    expect(&[
        ("open 64 0", "ok 0"),
        ("open 64 18446744073709551615", "ok 0"),
        ("63 own_nodes", "nodes 9223372036854775808 1 0"),
        ("open 65 0", "error 2"),
        ("open 0 0", "error 2"),
        ("open 0 1", "error 2"),
        ("open 4294967295 1", "error 2"),
        ("open 4 16", "error 7"),
        ("open 63 9223372036854775808", "error 7"),
        ("63 own_nodes", "nodes 9223372036854775808 1 0"),
        ("open 1 1", "ok 0"),
        ("0 own_nodes", "nodes 1 1 0"),
        ("1 own_nodes", "error 4"),
    ]);
}

#[test]
fn group_names_at_the_edge() {
    expect(&[
        ("open 4 8", "ok 0"),
        ("0 new_s_group 65535 1", "group 65535 1 0"),
        ("0 new_s_group 65536 1", "error 5"),
        ("0 new_s_group 0 1", "error 5"),
        ("0 new_s_group 4294967295 1", "error 5"),
        ("0 new_s_group 1 1", "group 1 1 0"),
        ("0 own_s_groups", "list 4 1 1 65535 1 0"),
        ("1 whereis_name 0 65535 1", "undefined 12"),
        ("1 whereis_name 0 65536 1", "error 5"),
        ("1 send 0 65536 1", "error 5"),
    ]);
}

#[test]
fn process_names_and_pids_at_the_edge() {
    expect(&[
        ("open 64 0", "ok 0"),
        ("0 new_s_group 5 1", "group 5 1 0"),
        ("0 register_name 5 4294967295 4294967295", "true 0"),
        ("0 register_name 5 1 0", "true 0"),
        ("0 registered_names 5", "list 2 21474836481 25769803775 0"),
        ("0 send 5 4294967295", "pid 4294967295 21"),
        ("open 63 0", "ok 0"),
        ("0 send 4227858431", "pid 4227858431 0"),
        ("0 send 4227858432", "error 7"),
    ]);
}

#[test]
fn the_32nd_group_goes_in_and_the_33rd_does_not() {
    let mut filled = full_of_groups();
    filled.pop();
    expect_after(
        &filled,
        &[
            ("1 new_s_group 32 2", "group 32 2 0"),
            ("0 new_s_group 33 1", "error 16"),
            ("0 new_s_group 32 1", "error 15"),
            ("0 new_s_group 32 2", "error 14"),
            ("0 delete_s_group 7", "true 0"),
            ("0 new_s_group 33 1", "group 33 1 0"),
        ],
    );
}

#[test]
fn own_s_groups_of_a_node_in_32_groups_fills_the_run() {
    let listed: Vec<String> = (1..=32).map(|s| format!("{s} 1")).collect();
    let line = format!("list 64 {} 0", listed.join(" "));
    expect_after(
        &full_of_groups(),
        &[("0 own_s_groups", &line), ("1 own_s_groups", "list 0 0")],
    );
}

#[test]
fn re_registering_moves_a_name_to_a_new_pid() {
    expect_after(
        &named_group(),
        &[
            ("1 re_register_name 5 70 67108865", "false 11"),
            ("1 re_register_name 5 70 7", "true 0"),
            ("0 whereis_name 5 70", "pid 7 0"),
            ("0 re_register_name 5 71 67108865", "true 0"),
            ("0 re_register_name 5 70 67108865", "false 11"),
            ("0 registered_names 5", "list 2 21474836550 21474836551 0"),
        ],
    );
}

#[test]
fn a_pid_may_be_held_in_two_groups_and_hosts_may_repeat() {
    let mut two = named_group();
    two.push("0 new_s_group 6 1".to_string());
    expect_after(
        &two,
        &[
            ("0 register_name 6 70 67108865", "true 0"),
            ("0 register_name 6 71 67108866", "true 0"),
            ("1 whereis_name 6 70", "undefined 9"),
        ],
    );
}

#[test]
fn a_pid_may_be_hosted_outside_its_group() {
    expect_after(
        &named_group(),
        &[
            ("0 register_name 5 71 201326592", "true 0"),
            ("1 whereis_name 5 71", "pid 201326592 21"),
        ],
    );
}

#[test]
fn unregistering_drops_the_name_and_its_pid() {
    expect_after(
        &named_group(),
        &[
            ("1 unregister_name 5 70", "true 0"),
            ("1 unregister_name 5 70", "true 12"),
            ("0 registered_names 5", "list 0 0"),
            ("0 register_name 5 71 67108865", "true 0"),
        ],
    );
}

#[test]
fn lists_of_outsiders_are_empty() {
    expect_after(
        &named_group(),
        &[
            ("2 registered_names 5", "list 0 9"),
            ("2 registered_names 6", "list 0 8"),
            ("2 own_s_groups", "list 0 0"),
            ("3 own_s_groups", "list 0 0"),
        ],
    );
}

#[test]
fn group_zero_finds_nothing_and_still_connects() {
    expect(&[
        ("open 4 8", "ok 0"),
        ("0 whereis_name 1 0 0", "error 6"),
        ("0 whereis_name 4 0 1", "error 7"),
        ("4 whereis_name 0 0 1", "error 4"),
        ("0 own_nodes", "nodes 1 1 0"),
        ("0 whereis_name 1 0 1", "undefined 12"),
        ("0 own_nodes", "nodes 3 2 0"),
        ("0 send 2 0 1", "undefined 12"),
        ("1 own_nodes", "nodes 7 3 0"),
        ("0 whereis_name 0 1", "error 5"),
        ("0 send 0 1", "error 5"),
        ("0 whereis_name 0 0 1", "undefined 12"),
    ]);
}

#[test]
fn the_asked_node_must_be_the_member() {
    expect_after(
        &named_group(),
        &[
            ("0 whereis_name 2 5 70", "undefined 9"),
            ("2 whereis_name 1 5 70", "pid 67108865 0"),
            ("0 send 2 5 70", "undefined 9"),
            ("2 send 1 5 70", "pid 67108865 0"),
            ("2 send 5 70", "undefined 9"),
            ("2 send 2 5 70", "undefined 9"),
        ],
    );
}

#[test]
fn a_refused_remote_call_leaves_the_connection() {
    let state = state_after(&["open 4 8", "0 new_s_group 5 3", "0 whereis_name 2 5 70"]);
    assert!(state.connected(0, 2) && state.connected(2, 0));
    assert_eq!(state.free_group_of(2), Some(NodeSet::from([2])));
}

#[test]
fn send_links_the_caller_and_the_host() {
    let remote = state_after(&[
        "open 6 0",
        "0 new_s_group 5 3",
        "0 register_name 5 70 201326592",
        "2 send 1 5 70",
    ]);
    assert!(remote.connected(2, 1), "the lookup's link");
    assert!(remote.connected(2, 3), "the link of the caller to the host");
    assert!(
        !remote.connected(1, 3),
        "no link of the asked node to the host"
    );
    assert_eq!(remote.free_group_of(2), Some(NodeSet::from([2, 3])));
}

#[test]
fn send_by_name_links_as_send_to_the_pid() {
    let state = state_after(&[
        "open 4 8",
        "0 new_s_group 5 3",
        "0 register_name 5 70 201326592",
        "1 send 5 70",
    ]);
    assert!(state.connected(1, 3));
    assert!(!state.connected(0, 3));
}

#[test]
fn sending_to_oneself_links_nothing() {
    let state = state_after(&["open 4 8", "0 send 5", "0 whereis_name 0 7 1"]);
    assert!(state.nodes.values().all(|node| node.connections.is_empty()));
}

#[test]
fn two_linked_free_nodes_bring_their_groups_together() {
    let state = state_after(&[
        "open 5 0",
        "0 send 67108864",
        "2 send 201326592",
        "1 send 134217728",
    ]);
    assert_eq!(state.free_group_of(4), Some(NodeSet::from([4])));
    assert_eq!(state.free_group_of(0), Some(NodeSet::from([0, 1, 2, 3])));
    assert!(state.connected(0, 3) && state.connected(1, 3) && state.connected(0, 2));
}

#[test]
fn new_groups_merge_no_free_groups() {
    let state = state_after(&[
        "open 6 0",
        "0 send 67108864",
        "2 send 201326592",
        "0 new_s_group 5 5",
    ]);
    assert_eq!(state.free_group_of(1), Some(NodeSet::from([1])));
    assert_eq!(state.free_group_of(3), Some(NodeSet::from([3])));
    assert!(!state.connected(1, 3));
    assert_eq!(state.free_group_of(0), None);
}

#[test]
fn a_whole_free_group_leaving_disappears() {
    let state = state_after(&["open 3 0", "0 send 67108864", "0 new_s_group 5 3"]);
    assert_eq!(state.free_groups.len(), 1);
    assert_eq!(state.free_group_of(2), Some(NodeSet::from([2])));
}

#[test]
fn add_nodes_takes_all_kinds_of_nodes() {
    expect_after(
        &named_group(),
        &[
            ("0 add_nodes 5 0", "group 5 0 0"),
            ("0 add_nodes 5 3", "group 5 3 0"),
            ("0 add_nodes 5 13", "group 5 13 0"),
            ("3 own_nodes", "nodes 15 4 0"),
            ("3 whereis_name 5 70", "pid 67108865 0"),
            ("0 add_nodes 5 16", "error 7"),
        ],
    );
    let state = state_after(&["open 4 8", "0 new_s_group 5 3", "1 add_nodes 5 12"]);
    assert!(state.connected(0, 2) && state.connected(0, 3) && state.connected(2, 3));
    assert!(state.free_groups.is_empty());
}

#[test]
fn overlapping_groups_give_a_union() {
    expect(&[
        ("open 6 0", "ok 0"),
        ("0 new_s_group 5 3", "group 5 3 0"),
        ("1 new_s_group 4 6", "group 4 6 0"),
        ("1 own_nodes", "nodes 7 3 0"),
        ("0 own_nodes", "nodes 3 2 0"),
        ("1 own_s_groups", "list 4 4 6 5 3 0"),
        ("1 delete_s_group 5", "true 0"),
        ("1 own_nodes", "nodes 6 2 0"),
        ("0 own_nodes", "nodes 1 1 0"),
        ("1 delete_s_group 4", "true 0"),
        ("0 own_nodes", "nodes 7 3 0"),
    ]);
}

#[test]
fn remove_nodes_ignores_those_outside() {
    expect_after(
        &named_group(),
        &[
            ("0 remove_nodes 5 0", "true 0"),
            ("0 remove_nodes 5 12", "true 0"),
            ("0 own_nodes", "nodes 3 2 0"),
            ("0 remove_nodes 5 16", "error 7"),
            ("0 remove_nodes 5 5", "true 0"),
            ("0 own_nodes", "nodes 1 1 0"),
            ("0 remove_nodes 5 2", "error 9"),
            ("1 own_nodes", "nodes 2 1 0"),
            ("1 whereis_name 5 70", "pid 67108865 0"),
            ("1 remove_nodes 5 2", "true 0"),
            ("1 whereis_name 5 70", "undefined 8"),
            ("1 own_nodes", "nodes 3 2 0"),
            ("1 new_s_group 5 2", "group 5 2 0"),
            ("1 registered_names 5", "list 0 0"),
        ],
    );
}

#[test]
fn freed_nodes_join_every_touching_group_as_one_lot() {
    let state = state_after(&[
        "open 8 0",
        "0 new_s_group 5 3",
        "2 send 201326592",
        "4 send 335544320",
        "0 send 134217728",
        "1 send 268435456",
        "0 delete_s_group 5",
    ]);
    assert_eq!(
        state.free_group_of(0),
        Some(NodeSet::from([0, 1, 2, 3, 4, 5]))
    );
    assert!(state.connected(3, 5) && state.connected(1, 3) && state.connected(0, 5));
    assert_eq!(state.free_group_of(6), Some(NodeSet::from([6])));
}

#[test]
fn only_those_in_no_s_group_become_free() {
    let state = state_after(&[
        "open 4 0",
        "0 new_s_group 5 7",
        "1 new_s_group 6 2",
        "3 send 67108864",
        "0 delete_s_group 5",
    ]);
    assert_eq!(state.free_group_of(1), None);
    assert_eq!(state.free_group_of(0), Some(NodeSet::from([0, 2])));
    assert_eq!(
        state.free_group_of(3),
        Some(NodeSet::from([3])),
        "1 is no bridge"
    );
}

#[test]
fn freed_hidden_nodes_stand_alone_and_bridge_nothing() {
    let state = state_after(&[
        "open 4 4",
        "0 new_s_group 5 6",
        "1 new_s_group 5 6",
        "0 send 134217728",
        "1 delete_s_group 5",
    ]);
    assert_eq!(state.free_group_of(2), None);
    assert_eq!(state.free_group_of(0), Some(NodeSet::from([0])));
    assert_eq!(state.free_group_of(1), Some(NodeSet::from([1])));
    assert!(state.connected(0, 2) && state.connected(1, 2) && !state.connected(0, 1));
}

#[test]
fn a_group_of_hidden_nodes_frees_no_lot() {
    let state = state_after(&[
        "open 4 3",
        "0 new_s_group 5 3",
        "0 send 134217728",
        "0 delete_s_group 5",
    ]);
    assert_eq!(state.free_groups.len(), 2);
}

#[test]
fn the_caller_may_remove_itself() {
    expect_after(
        &named_group(),
        &[
            ("0 remove_nodes 5 1", "true 0"),
            ("0 own_nodes", "nodes 1 1 0"),
            ("0 delete_s_group 5", "error 9"),
            ("1 delete_s_group 5", "true 0"),
            ("1 delete_s_group 5", "error 8"),
            ("0 own_nodes", "nodes 3 2 0"),
        ],
    );
}

#[test]
fn ladder_of_the_registering_commands() {
    expect_after(
        &full_namespace(),
        &[
            ("4 register_name 0 0 4294967295", "error 4"),
            ("2 register_name 65536 0 4294967295", "error 5"),
            ("2 register_name 6 0 4294967295", "error 6"),
            ("2 register_name 6 1 4294967295", "error 7"),
            ("2 register_name 6 1 1", "false 8"),
            ("2 register_name 5 1 1", "false 9"),
            ("0 register_name 5 1 1", "false 10"),
            ("0 register_name 5 33 1", "false 11"),
            ("0 register_name 5 33 33", "false 13"),
            ("4 re_register_name 0 0 4294967295", "error 4"),
            ("2 re_register_name 65536 0 4294967295", "error 5"),
            ("2 re_register_name 6 0 4294967295", "error 6"),
            ("2 re_register_name 6 1 4294967295", "error 7"),
            ("2 re_register_name 6 1 1", "false 8"),
            ("2 re_register_name 5 1 1", "false 9"),
            ("0 re_register_name 5 33 1", "false 11"),
            ("0 re_register_name 5 33 33", "false 13"),
            ("0 re_register_name 5 1 33", "true 0"),
        ],
    );
}

#[test]
fn ladder_of_the_lookups() {
    expect_after(
        &named_group(),
        &[
            ("4 unregister_name 0 0", "error 4"),
            ("2 unregister_name 0 0", "error 5"),
            ("2 unregister_name 6 0", "error 6"),
            ("2 unregister_name 6 9", "false 8"),
            ("2 unregister_name 5 9", "false 9"),
            ("0 unregister_name 5 9", "true 12"),
            ("4 whereis_name 0 0", "error 4"),
            ("2 whereis_name 65536 0", "error 5"),
            ("2 whereis_name 6 0", "error 6"),
            ("2 whereis_name 6 9", "undefined 8"),
            ("2 whereis_name 5 9", "undefined 9"),
            ("0 whereis_name 5 9", "undefined 12"),
            ("4 send 0 0", "error 4"),
            ("2 send 65536 0", "error 5"),
            ("2 send 6 0", "error 6"),
            ("2 send 6 9", "undefined 8"),
            ("2 send 5 9", "undefined 9"),
            ("0 send 5 9", "undefined 12"),
            ("4 registered_names 0", "error 4"),
            ("2 registered_names 65536", "error 5"),
            ("2 registered_names 6", "list 0 8"),
            ("2 registered_names 5", "list 0 9"),
        ],
    );
}

#[test]
fn ladder_of_the_remote_forms_and_send() {
    expect_after(
        &named_group(),
        &[
            ("4 whereis_name 4 65536 0", "error 4"),
            ("0 whereis_name 4 65536 0", "error 5"),
            ("0 whereis_name 4 6 0", "error 6"),
            ("0 whereis_name 4 6 9", "error 7"),
            ("0 whereis_name 2 6 9", "undefined 8"),
            ("0 whereis_name 2 5 9", "undefined 9"),
            ("2 whereis_name 0 5 9", "undefined 12"),
            ("4 send 4 65536 0", "error 4"),
            ("0 send 4 65536 0", "error 5"),
            ("0 send 4 6 0", "error 6"),
            ("0 send 4 6 9", "error 7"),
            ("0 send 2 6 9", "undefined 8"),
            ("0 send 2 5 9", "undefined 9"),
            ("2 send 0 5 9", "undefined 12"),
            ("4 send 4294967295", "error 4"),
            ("0 send 4294967295", "error 7"),
            ("0 send 268435456", "error 7"),
            ("0 send 268435455", "pid 268435455 0"),
        ],
    );
}

#[test]
fn ladder_of_the_group_commands() {
    expect_after(
        &full_of_groups(),
        &[
            ("4 new_s_group 0 16", "error 4"),
            ("1 new_s_group 0 16", "error 5"),
            ("1 new_s_group 5 16", "error 7"),
            ("1 new_s_group 5 1", "error 14"),
            ("1 new_s_group 5 0", "error 14"),
            ("1 new_s_group 5 2", "error 15"),
            ("1 new_s_group 33 2", "error 16"),
            ("4 add_nodes 0 16", "error 4"),
            ("1 add_nodes 0 16", "error 5"),
            ("1 add_nodes 33 16", "error 7"),
            ("1 add_nodes 33 2", "error 8"),
            ("1 add_nodes 5 2", "error 9"),
            ("4 remove_nodes 0 16", "error 4"),
            ("1 remove_nodes 0 16", "error 5"),
            ("1 remove_nodes 33 16", "error 7"),
            ("1 remove_nodes 33 2", "error 8"),
            ("1 remove_nodes 5 2", "error 9"),
            ("4 delete_s_group 0", "error 4"),
            ("1 delete_s_group 0", "error 5"),
            ("1 delete_s_group 33", "error 8"),
            ("1 delete_s_group 5", "error 9"),
            ("4 own_nodes", "error 4"),
            ("4294967295 own_s_groups", "error 4"),
        ],
    );
}

#[test]
fn deleting_a_group_moves_the_later_ones_up() {
    expect(&[
        ("open 3 0", "ok 0"),
        ("0 new_s_group 9 1", "group 9 1 0"),
        ("0 register_name 9 1 1", "true 0"),
        ("0 new_s_group 4 1", "group 4 1 0"),
        ("0 register_name 4 2 2", "true 0"),
        ("0 new_s_group 6 1", "group 6 1 0"),
        ("0 delete_s_group 4", "true 0"),
        ("0 own_s_groups", "list 4 6 1 9 1 0"),
        ("0 whereis_name 9 1", "pid 1 0"),
        ("0 registered_names 6", "list 0 0"),
    ]);
}
