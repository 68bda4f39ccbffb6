//! Sound tables of a chosen size, and of chosen pids.

use crate::plain::namespace::{mark, MARKS};
use crate::plain::sizes::{
    BODIES, BODY, CONTENTS, FREE, GROUPS, LINKS, MEMBERS, PIDS_PER_HOST, ROSTER, WORDS,
};
use crate::plain::stamps::FACTOR;
use model::prng::Prng;

/// How large a table is: nodes, s_groups, members of each, names of each.
#[derive(Clone, Copy, Debug)]
pub struct Size {
    pub nodes: u64,
    pub groups: usize,
    pub members: u64,
    pub names: usize,
}

pub const FULL: Size = Size {
    nodes: 64,
    groups: GROUPS,
    members: 16,
    names: BODY,
};
pub const SMALL: Size = Size {
    nodes: 4,
    groups: 1,
    members: 2,
    names: 1,
};
/// As a store has it.
pub const STORE: Size = Size {
    nodes: 8,
    groups: 2,
    members: 4,
    names: 8,
};

/// The sizes that say most.
pub const MAIN_SIZES: [(&str, Size); 3] = [
    ("full table", FULL),
    ("small table", SMALL),
    ("8 nodes, 2 s_groups of 8 names", STORE),
];

/// So many tables by turns that the processor has forgotten the branches of each when it comes again: with 64 it had not, and 1,024 take no longer.
pub const MANY: usize = 252;

/// One s_group with so many names.
pub fn one_group(names: usize) -> Size {
    Size {
        groups: 1,
        names,
        ..FULL
    }
}

/// The factor of slots times this is 1.
const INVERSE: u32 = 0x0e8b_2f51;
const _: () = assert!(FACTOR.wrapping_mul(INVERSE) == 1);
/// Digits of the multiple of a pid from the first of these on make its slot, where there are at most 4,096 slots; those below tell the place of a name from the second on.
const BELOW_SLOTS: u32 = 20;
const PLACE_DIGIT: u32 = 15;

/// A random set of so many of the first n nodes.
pub fn subset(prng: &mut Prng, n: u64, many: u64) -> u64 {
    let mut set = 0u64;
    while u64::from(set.count_ones()) < many.min(n) {
        set |= 1 << prng.below(n);
    }
    set
}

/// Names of one s_group, ascending; each host gives its pids in order, as a node does.
fn names(prng: &mut Prng, size: Size, serial: &mut [u64]) -> Vec<u64> {
    let mut name = 0;
    (0..size.names)
        .map(|_| {
            name += 2 + prng.below(1000);
            let host = prng.below(size.nodes);
            serial[host as usize] += 1 + prng.below(3);
            name << 32 | (host * PIDS_PER_HOST + serial[host as usize])
        })
        .collect()
}

/// The full table with other pids: `pid` gives that of each entry from the place of its name and a number that is drawn for its s_group.
fn full_with(prng: &mut Prng, pid: impl Fn(&mut Prng, u64, u64) -> u64) -> Vec<u64> {
    let mut words = table(prng, FULL);
    for group in 0..GROUPS {
        let drawn = prng.word();
        for k in 0..BODY {
            let word = &mut words[BODIES + BODY * group + k];
            *word = (*word >> 32) << 32 | pid(prng, k as u64, drawn);
        }
    }
    words
}

/// The full table, each s_group with one number on every other host.
pub fn one_number(prng: &mut Prng) -> Vec<u64> {
    full_with(prng, |_, k, drawn| {
        2 * k * PIDS_PER_HOST + drawn % PIDS_PER_HOST
    })
}

/// A pid for each place of a name whose slot `drawn` tells, however many slots there are up to 4,096.
fn pid_in_slot(prng: &mut Prng, k: u64, drawn: u64) -> u32 {
    let low = k << PLACE_DIGIT | prng.below(1 << PLACE_DIGIT);
    let multiple = drawn << BELOW_SLOTS | low;
    (multiple as u32).wrapping_mul(INVERSE)
}

/// The full table, all pids of an s_group in one slot.
pub fn one_slot(prng: &mut Prng) -> Vec<u64> {
    full_with(prng, |prng, k, drawn| {
        u64::from(pid_in_slot(prng, k, drawn))
    })
}

/// The full table, all pids of an s_group with one mark.
pub fn one_mark(prng: &mut Prng) -> Vec<u64> {
    let marks = MARKS as u64;
    full_with(prng, |_, k, drawn| {
        2 * k * PIDS_PER_HOST + marks + drawn % marks - 32 * k
    })
}

/// The full table, all pids of an s_group in one slot and with one mark.
pub fn one_slot_and_mark(prng: &mut Prng) -> Vec<u64> {
    full_with(prng, |prng, k, drawn| {
        let wanted = (drawn >> 32) as usize % MARKS;
        loop {
            let pid = pid_in_slot(prng, k, drawn);
            if mark(pid) == wanted {
                return u64::from(pid);
            }
        }
    })
}

/// The table of 64 normal nodes in two free groups of any 32.
pub fn two_free_groups(prng: &mut Prng) -> Vec<u64> {
    free_groups(subset(prng, ROSTER as u64, ROSTER as u64 / 2))
}

/// The table of 64 normal nodes in free groups: this one, and one of all others.
fn free_groups(one: u64) -> Vec<u64> {
    let mut words = vec![0u64; WORDS];
    words[0] = ROSTER as u64;
    for node in 0..ROSTER {
        let own = if one >> node & 1 == 1 { one } else { !one };
        words[LINKS + node] = own & !(1 << node);
        words[FREE + node] = own;
    }
    words
}

/// A sound table of this size with other pids: their hosts are given for the members of an s_group and the place of a name; each host gives its pids in
/// order.
pub fn hosted(
    prng: &mut Prng,
    size: Size,
    host: impl Fn(&mut Prng, u64, usize) -> u32,
) -> Vec<u64> {
    let mut words = table(prng, size);
    let mut serial = [1u64; 64];
    for group in 0..size.groups {
        let members = words[MEMBERS + group];
        for k in 0..size.names {
            let home = host(prng, members, k);
            serial[home as usize] += 1 + prng.below(3);
            let word = &mut words[BODIES + BODY * group + k];
            *word = (*word >> 32) << 32 | (u64::from(home) * PIDS_PER_HOST + serial[home as usize]);
        }
    }
    words
}

/// A sound table of this size, its groups drawn at random. Free normal nodes stand alone.
pub fn table(prng: &mut Prng, size: Size) -> Vec<u64> {
    let mut words = vec![0u64; WORDS];
    words[0] = size.nodes;
    words[2] = size.groups as u64;
    let mut serial = vec![1u64; 64];
    let mut grouped = 0;
    for i in 0..size.groups {
        let set = subset(prng, size.nodes, size.members);
        grouped |= set;
        words[CONTENTS + i] = (3 + 5 * i as u64) + 65_536 * size.names as u64;
        words[MEMBERS + i] = set;
        for node in (0..64).filter(|node| set >> node & 1 == 1) {
            words[LINKS + node] |= set & !(1 << node);
        }
        let held = names(prng, size, &mut serial);
        words[BODIES + BODY * i..][..held.len()].copy_from_slice(&held);
    }
    for node in (0..size.nodes).filter(|node| grouped >> node & 1 == 0) {
        words[FREE + node as usize] = 1 << node;
    }
    words
}

/// The sound table with every node connected with every other: its free nodes, which are normal, are then one free group.
pub fn dense(mut words: Vec<u64>) -> Vec<u64> {
    let grouped = words[MEMBERS..][..GROUPS]
        .iter()
        .fold(0, |all, set| all | set);
    let all = u64::MAX >> (ROSTER as u64 - words[0]);
    for node in (0..ROSTER).filter(|node| all >> node & 1 == 1) {
        words[LINKS + node] = all & !(1 << node);
        if grouped >> node & 1 == 0 {
            words[FREE + node] = all & !grouped;
        }
    }
    words
}

/// A table of 64 normal nodes: the first 32 in one s_group where that is wanted, else in a free group; the other 32 in a free group; where `bridged`,
/// node 0 is connected to node 32, which makes one free group of all where there is no s_group.
pub fn halves(group: bool, bridged: bool) -> Vec<u64> {
    let low = u64::from(u32::MAX);
    if !group {
        return free_groups(if bridged { u64::MAX } else { low });
    }
    let mut words = free_groups(low);
    words[2] = 1;
    words[CONTENTS] = 3;
    words[MEMBERS] = low;
    words[FREE..FREE + 32].fill(0);
    if bridged {
        words[LINKS] |= 1 << 32;
        words[LINKS + 32] |= 1;
    }
    words
}
