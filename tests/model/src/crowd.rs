//! Large random states: up to as many s_groups and names as a table can hold, with
//! pids that go by several names.

use crate::command::{Command, Request};
use crate::prng::Prng;
use crate::state::{
    set_of, NodeSet, SGroup, State, LARGEST_GROUP_NAME, LARGEST_ROSTER, MOST_GROUPS, MOST_NAMES,
    PIDS_PER_HOST,
};
use std::collections::{BTreeMap, BTreeSet};

/// A random state of many s_groups with many names. One in three has as many of
/// both as there can be, one in three a name less. Nodes in no s_group stand alone.
pub fn crowd(prng: &mut Prng) -> State {
    let size = 1 + prng.below(u64::from(LARGEST_ROSTER)) as u32;
    let mut state = State::opened(size, &NodeSet::new());
    let missing = prng.pick(&[Some(0), Some(1), None]);
    let groups = match missing {
        Some(_) => MOST_GROUPS,
        None => 1 + prng.below(MOST_GROUPS as u64) as usize,
    };
    let pids = pids(prng, size);
    for (place, s) in (0..).zip(names(prng, groups, u64::from(LARGEST_GROUP_NAME))) {
        let members = members(prng, size);
        state.link_all(&members);
        let many = match missing {
            Some(missing) => MOST_NAMES - if place == 0 { missing } else { 0 },
            None => prng.below(MOST_NAMES as u64 + 1) as usize,
        };
        let group = SGroup {
            members,
            names: registered(prng, many, &pids),
        };
        state.s_groups.insert(s, group);
    }
    let grouped: NodeSet = (0..size)
        .filter(|node| !state.in_no_s_group(*node))
        .collect();
    let left = state.free_groups.iter().map(|group| group - &grouped);
    state.free_groups = left.filter(|group| !group.is_empty()).collect();
    state
}

/// Pids to draw from: so few that most go by several names, or many.
fn pids(prng: &mut Prng, size: u32) -> Vec<u32> {
    let many = prng.pick(&[MOST_NAMES, 2 * MOST_NAMES, MOST_GROUPS * MOST_NAMES]);
    let numbers = prng.pick(&[many as u64, 1_000, u64::from(PIDS_PER_HOST)]);
    let mut pids = BTreeSet::new();
    while pids.len() < many {
        let host = prng.below(u64::from(size)) as u32;
        pids.insert(host * PIDS_PER_HOST + prng.below(numbers) as u32);
    }
    pids.into_iter().collect()
}

/// So many numbers from 1 to the largest, in one run or scattered.
fn names(prng: &mut Prng, many: usize, largest: u64) -> BTreeSet<u32> {
    let room = prng.pick(&[many as u64, 4 * many as u64, largest]);
    let mut names = BTreeSet::new();
    while names.len() < many {
        names.insert(1 + prng.below(room.min(largest)) as u32);
    }
    names
}

fn members(prng: &mut Prng, size: u32) -> NodeSet {
    let drawn = prng.word() & prng.word() & (u64::MAX >> (64 - size));
    let mut members = set_of(drawn);
    members.insert(prng.below(u64::from(size)) as u32);
    members
}

/// So many names with pids, no two of them equal.
fn registered(prng: &mut Prng, many: usize, pids: &[u32]) -> BTreeMap<u32, u32> {
    let mut left = pids.to_vec();
    let names = names(prng, many, u64::from(u32::MAX));
    let with_pid = names.into_iter().map(|n| {
        let place = prng.below(left.len() as u64) as usize;
        (n, left.swap_remove(place))
    });
    with_pid.collect()
}

/// A registration that takes the last place for a name, where there is just one.
pub fn last_name(state: &State) -> Option<Request> {
    let many: usize = state.s_groups.values().map(|group| group.names.len()).sum();
    if many + 1 != MOST_GROUPS * MOST_NAMES {
        return None;
    }
    let mut groups = state.s_groups.iter();
    let (s, group) = groups.find(|(_, group)| group.names.len() < MOST_NAMES)?;
    let n = (1..).find(|n| !group.names.contains_key(n))?;
    let p = (0..).find(|p| !group.holds_pid(*p))?;
    Some(Request::Call {
        caller: *group.members.first()?,
        command: Command::RegisterName { s: *s, n, p },
    })
}
