//! The five readings of 01 that look right and five of the names that leave with
//! their node, each as other rules for the model, and a script that tells each
//! of them apart.

use crate::helpers::{request, told_apart};
use model::answer::Reason;
use model::rules::{touching_groups, unite, Law, Rules};
use model::script::Session;
use model::state::{host_of, NodeSet, SGroup, State};
use std::collections::BTreeSet;

/// Takes nodes out of a free group one by one, each from the whole group.
struct OneByOne;

impl Rules for OneByOne {
    fn leave_free_groups(&self, state: &mut State, leaving: &NodeSet) {
        let mut left = BTreeSet::new();
        for group in &state.free_groups {
            let going = group & leaving;
            if going.is_empty() {
                left.insert(group.clone());
            }
            for node in going {
                left.insert(group - &NodeSet::from([node]));
            }
        }
        left.remove(&NodeSet::new());
        state.free_groups = left;
    }
}

#[test]
fn leaving_one_by_one_is_told_apart() {
    told_apart(
        &OneByOne,
        &[
            ("open 3 0", "ok 0", "ok 0"),
            ("0 send 67108864", "pid 67108864 0", "pid 67108864 0"),
            ("0 send 134217728", "pid 134217728 0", "pid 134217728 0"),
            ("2 own_nodes", "nodes 7 3 0", "nodes 7 3 0"),
            ("0 new_s_group 5 3", "group 5 3 0", "group 5 3 0"),
            ("2 own_nodes", "nodes 4 1 0", "nodes 5 2 0"),
        ],
    );
}

/// Joins freed nodes with the first connected free group only.
struct FirstGroupOnly;

impl Rules for FirstGroupOnly {
    fn join_free_groups(&self, state: &mut State, lot: &NodeSet) {
        let mut parts = touching_groups(state, lot);
        parts.truncate(1);
        parts.push(lot.clone());
        unite(state, &parts);
    }
}

#[test]
fn joining_the_first_group_only_is_told_apart() {
    told_apart(
        &FirstGroupOnly,
        &[
            ("open 5 8", "ok 0", "ok 0"),
            ("0 new_s_group 5 3", "group 5 3 0", "group 5 3 0"),
            ("2 whereis_name 0 5 70", "undefined 12", "undefined 12"),
            ("4 whereis_name 0 5 70", "undefined 12", "undefined 12"),
            ("2 own_nodes", "nodes 4 1 0", "nodes 4 1 0"),
            ("4 own_nodes", "nodes 16 1 0", "nodes 16 1 0"),
            ("1 delete_s_group 5", "true 0", "true 0"),
            ("1 own_nodes", "nodes 23 4 0", "nodes 7 3 0"),
            ("4 own_nodes", "nodes 23 4 0", "nodes 16 1 0"),
        ],
    );
}

/// Lets a free node's link to an s_group node or a hidden node merge groups.
struct EveryLinkMerges;

impl Rules for EveryLinkMerges {
    fn connect(&self, state: &mut State, a: u32, b: u32) {
        let parts = [a, b].map(|node| state.free_group_of(node));
        if a == b || parts == [None, None] {
            return Law.connect(state, a, b);
        }
        let whole = [a, b].map(|node| state.free_group_of(node).unwrap_or(NodeSet::from([node])));
        unite(state, &whole);
    }
}

#[test]
fn merging_over_an_s_group_node_is_told_apart() {
    told_apart(
        &EveryLinkMerges,
        &[
            ("open 4 8", "ok 0", "ok 0"),
            ("0 new_s_group 5 3", "group 5 3 0", "group 5 3 0"),
            ("2 whereis_name 0 5 70", "undefined 12", "undefined 12"),
            ("2 own_nodes", "nodes 4 1 0", "nodes 5 2 0"),
        ],
    );
}

#[test]
fn merging_over_a_hidden_node_is_told_apart() {
    told_apart(
        &EveryLinkMerges,
        &[
            ("open 4 8", "ok 0", "ok 0"),
            ("2 send 201326592", "pid 201326592 0", "pid 201326592 0"),
            ("2 own_nodes", "nodes 4 1 0", "nodes 12 2 0"),
            ("3 own_nodes", "nodes 8 1 0", "nodes 12 2 0"),
        ],
    );
}

/// Undoes the connection when the name isn't found.
struct LinkUndone;

impl Rules for LinkUndone {
    fn link_stays(&self) -> bool {
        false
    }
}

#[test]
fn undoing_the_connection_is_told_apart() {
    told_apart(
        &LinkUndone,
        &[
            ("open 4 8", "ok 0", "ok 0"),
            ("2 whereis_name 0 9 70", "undefined 8", "undefined 8"),
            ("2 own_nodes", "nodes 5 2 0", "nodes 4 1 0"),
            ("1 send 2 0 70", "undefined 12", "undefined 12"),
            ("1 own_nodes", "nodes 7 3 0", "nodes 2 1 0"),
        ],
    );
}

#[test]
fn undoing_the_connection_to_a_hidden_node_shows_in_the_table() {
    let connected = |rules: &dyn Rules| {
        let mut session = Session::new(rules);
        session.answer(&request("open 4 8"));
        session.answer(&request("2 whereis_name 3 9 70"));
        session.state.expect("opened").connected(2, 3)
    };
    assert!(connected(&Law));
    assert!(!connected(&LinkUndone));
}

/// Tests the name before the membership.
struct NameFirst;

impl Rules for NameFirst {
    fn choose(&self, applying: &BTreeSet<Reason>) -> Option<Reason> {
        let about_the_name = [Reason::NameHeld, Reason::PidHeld, Reason::NameAbsent];
        let least = applying.first().copied()?;
        let told = applying
            .iter()
            .find(|reason| about_the_name.contains(reason));
        match (least, told) {
            (Reason::NotMember, Some(reason)) => Some(*reason),
            _ => Some(least),
        }
    }
}

#[test]
fn testing_the_name_first_is_told_apart() {
    told_apart(
        &NameFirst,
        &[
            ("open 4 8", "ok 0", "ok 0"),
            ("0 new_s_group 5 3", "group 5 3 0", "group 5 3 0"),
            ("0 register_name 5 70 1", "true 0", "true 0"),
            ("2 whereis_name 5 70", "undefined 9", "undefined 9"),
            ("2 whereis_name 5 71", "undefined 9", "undefined 12"),
            ("2 register_name 5 70 2", "false 9", "false 10"),
            ("2 unregister_name 5 71", "false 9", "true 12"),
            ("0 whereis_name 2 5 71", "undefined 9", "undefined 12"),
        ],
    );
}

/// Drops the names of these hosts.
fn drop_hosted(group: &mut SGroup, hosts: &NodeSet) {
    group.names.retain(|_, pid| !hosts.contains(&host_of(*pid)));
}

/// The s_group of a removal.
fn named(state: &mut State, s: u32) -> &mut SGroup {
    state.s_groups.get_mut(&s).expect("the removal is granted")
}

/// Leaves the names of nodes that leave.
struct NamesStay;

impl Rules for NamesStay {
    fn drop_names(&self, _: &mut State, _: u32, _: &NodeSet) {}
}

#[test]
fn names_that_stay_are_told_apart() {
    told_apart(
        &NamesStay,
        &[
            ("open 4 0", "ok 0", "ok 0"),
            ("0 new_s_group 5 3", "group 5 3 0", "group 5 3 0"),
            ("0 register_name 5 70 67108865", "true 0", "true 0"),
            ("0 remove_nodes 5 2", "true 0", "true 0"),
            ("0 whereis_name 5 70", "undefined 12", "pid 67108865 21"),
            ("0 register_name 5 70 67108866", "true 0", "false 10"),
        ],
    );
}

/// Drops the names of every node of the set, members or not.
struct NamesOfTheSet;

impl Rules for NamesOfTheSet {
    fn drop_names(&self, state: &mut State, s: u32, set: &NodeSet) {
        drop_hosted(named(state, s), set);
    }
}

#[test]
fn dropping_names_of_the_whole_set_is_told_apart() {
    told_apart(
        &NamesOfTheSet,
        &[
            ("open 4 0", "ok 0", "ok 0"),
            ("0 new_s_group 5 3", "group 5 3 0", "group 5 3 0"),
            ("0 register_name 5 70 67108865", "true 0", "true 0"),
            ("0 register_name 5 71 134217729", "true 0", "true 0"),
            ("0 remove_nodes 5 6", "true 0", "true 0"),
            ("0 whereis_name 5 70", "undefined 12", "undefined 12"),
            ("0 whereis_name 5 71", "pid 134217729 21", "undefined 12"),
        ],
    );
}

/// Drops the names of members that leave in every s_group.
struct NamesEverywhere;

impl Rules for NamesEverywhere {
    fn drop_names(&self, state: &mut State, s: u32, set: &NodeSet) {
        let leaving = &named(state, s).members & set;
        for group in state.s_groups.values_mut() {
            drop_hosted(group, &leaving);
        }
    }
}

#[test]
fn dropping_names_in_every_s_group_is_told_apart() {
    told_apart(
        &NamesEverywhere,
        &[
            ("open 4 0", "ok 0", "ok 0"),
            ("0 new_s_group 5 3", "group 5 3 0", "group 5 3 0"),
            ("0 new_s_group 6 3", "group 6 3 0", "group 6 3 0"),
            ("0 register_name 5 70 67108865", "true 0", "true 0"),
            ("0 register_name 6 70 67108865", "true 0", "true 0"),
            ("0 remove_nodes 5 2", "true 0", "true 0"),
            ("0 whereis_name 5 70", "undefined 12", "undefined 12"),
            ("0 whereis_name 6 70", "pid 67108865 0", "undefined 12"),
        ],
    );
}

/// Keeps the names of the members that stay and no others.
struct NamesOfMembersOnly;

impl Rules for NamesOfMembersOnly {
    fn drop_names(&self, state: &mut State, s: u32, set: &NodeSet) {
        let group = named(state, s);
        let staying = &group.members - set;
        group
            .names
            .retain(|_, pid| staying.contains(&host_of(*pid)));
    }
}

#[test]
fn dropping_names_hosted_outside_is_told_apart() {
    told_apart(
        &NamesOfMembersOnly,
        &[
            ("open 4 0", "ok 0", "ok 0"),
            ("0 new_s_group 5 3", "group 5 3 0", "group 5 3 0"),
            ("0 register_name 5 70 67108865", "true 0", "true 0"),
            ("0 register_name 5 71 134217729", "true 0", "true 0"),
            ("0 remove_nodes 5 2", "true 0", "true 0"),
            ("0 whereis_name 5 70", "undefined 12", "undefined 12"),
            ("0 whereis_name 5 71", "pid 134217729 21", "undefined 12"),
        ],
    );
}

/// Drops the names of members that are in no other s_group.
struct NamesOfTheFreed;

impl Rules for NamesOfTheFreed {
    fn drop_names(&self, state: &mut State, s: u32, set: &NodeSet) {
        let leaving = &named(state, s).members & set;
        let freed = |node: &u32| state.group_names(*node).len() == 1;
        let freed: NodeSet = leaving.into_iter().filter(freed).collect();
        drop_hosted(named(state, s), &freed);
    }
}

#[test]
fn dropping_names_of_freed_nodes_only_is_told_apart() {
    told_apart(
        &NamesOfTheFreed,
        &[
            ("open 4 0", "ok 0", "ok 0"),
            ("0 new_s_group 5 7", "group 5 7 0", "group 5 7 0"),
            ("1 new_s_group 6 2", "group 6 2 0", "group 6 2 0"),
            ("0 register_name 5 70 67108865", "true 0", "true 0"),
            ("0 register_name 5 71 134217729", "true 0", "true 0"),
            ("0 remove_nodes 5 6", "true 0", "true 0"),
            ("0 whereis_name 5 70", "undefined 12", "pid 67108865 21"),
            ("0 whereis_name 5 71", "undefined 12", "undefined 12"),
        ],
    );
}
