//! The table: the 1,220 words of a state, and the state of 1,220 words. Whether
//! words are sound is judged in `sound`.

use crate::sound::{failing_clauses, Clause};
use crate::state::{
    set_of, word_of, Node, NodeSet, NodeType, SGroup, State, MOST_GROUPS, MOST_NAMES,
};
use std::collections::{BTreeMap, BTreeSet};

pub const ROSTER_SIZE: usize = 0;
pub const HIDDEN: usize = 1;
pub const GROUP_COUNT: usize = 2;
pub const ZERO: usize = 3;
pub const CONTENTS: usize = 4;
pub const MEMBERS: usize = 36;
pub const CONNECTIONS: usize = 68;
pub const FREE_GROUPS: usize = 132;
pub const BODIES: usize = 196;
/// Words in the body of one group.
pub const BODY: usize = MOST_NAMES;
pub const WORDS: usize = BODIES + MOST_GROUPS * BODY;

/// The words of a well formed state.
pub fn words_of(state: &State) -> Vec<u64> {
    let mut words = vec![0; WORDS];
    words[ROSTER_SIZE] = state.nodes.len() as u64;
    words[GROUP_COUNT] = state.s_groups.len() as u64;
    for (id, node) in &state.nodes {
        if node.node_type == NodeType::Hidden {
            words[HIDDEN] |= 1 << id;
        }
        words[CONNECTIONS + *id as usize] = word_of(&node.connections);
    }
    for (place, (name, group)) in state.s_groups.iter().enumerate() {
        words[CONTENTS + place] = u64::from(*name) + 65_536 * group.names.len() as u64;
        words[MEMBERS + place] = word_of(&group.members);
        for (line, (process, pid)) in group.names.iter().enumerate() {
            words[BODIES + BODY * place + line] = (u64::from(*process) << 32) + u64::from(*pid);
        }
    }
    for group in &state.free_groups {
        for id in group {
            words[FREE_GROUPS + *id as usize] = word_of(group);
        }
    }
    words
}

/// The state of sound words, or the clauses that fail.
pub fn state_of(words: &[u64]) -> Result<State, BTreeSet<Clause>> {
    let failing = failing_clauses(words);
    if failing.is_empty() {
        Ok(read(words).expect("sound words can be read"))
    } else {
        Err(failing)
    }
}

/// What the words say, sound or not; none where the counts lead out of the
/// table. Reading loses what no state can hold, so only words that come back
/// from `words_of` unchanged are the words of a state.
pub fn read(words: &[u64]) -> Option<State> {
    let size = words[ROSTER_SIZE];
    let groups = words[GROUP_COUNT];
    let counts_fit = size <= 64
        && groups <= MOST_GROUPS as u64
        && (0..groups as usize).all(|place| words[CONTENTS + place] >> 16 <= BODY as u64);
    if !counts_fit {
        return None;
    }
    Some(State {
        nodes: (0..size as u32)
            .map(|id| (id, read_node(words, id)))
            .collect(),
        s_groups: (0..groups as usize)
            .map(|place| {
                (
                    (words[CONTENTS + place] & 0xFFFF) as u32,
                    read_group(words, place),
                )
            })
            .collect(),
        free_groups: read_free_groups(words),
    })
}

fn read_node(words: &[u64], id: u32) -> Node {
    let hidden = set_of(words[HIDDEN]).contains(&id);
    Node {
        node_type: if hidden {
            NodeType::Hidden
        } else {
            NodeType::Normal
        },
        connections: set_of(words[CONNECTIONS + id as usize]),
    }
}

fn read_group(words: &[u64], place: usize) -> SGroup {
    let count = (words[CONTENTS + place] >> 16) as usize;
    let start = BODIES + BODY * place;
    let names: BTreeMap<u32, u32> = words[start..start + count]
        .iter()
        .map(|entry| ((entry >> 32) as u32, *entry as u32))
        .collect();
    SGroup {
        members: set_of(words[MEMBERS + place]),
        names,
    }
}

fn read_free_groups(words: &[u64]) -> BTreeSet<NodeSet> {
    words[FREE_GROUPS..FREE_GROUPS + 64]
        .iter()
        .filter(|word| **word != 0)
        .map(|word| set_of(*word))
        .collect()
}
