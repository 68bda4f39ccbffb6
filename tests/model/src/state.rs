//! The state as sets and maps: nodes with their type and connections, s_groups
//! by name, and the free normal groups as a set of sets. The free hidden nodes
//! are the hidden ones in no s_group, and a node's group names are those of the
//! s_groups that hold it; neither is kept twice.

use std::collections::{BTreeMap, BTreeSet};

/// A set of node ids.
pub type NodeSet = BTreeSet<u32>;

pub const LARGEST_ROSTER: u32 = 64;
pub const LARGEST_GROUP_NAME: u32 = 65_535;
pub const MOST_GROUPS: usize = 32;
pub const MOST_NAMES: usize = 32;
pub const PIDS_PER_HOST: u32 = 67_108_864;

/// The set whose word this is: node i stands for 2^i.
pub fn set_of(word: u64) -> NodeSet {
    (0..64).filter(|i| (word >> i) & 1 == 1).collect()
}

/// The word of a set of nodes below 64.
pub fn word_of(set: &NodeSet) -> u64 {
    set.iter().map(|i| 1u64 << i).sum()
}

/// The host of a pid.
pub fn host_of(pid: u32) -> u32 {
    pid / PIDS_PER_HOST
}

#[derive(Clone, Copy, Debug, PartialEq, Eq, PartialOrd, Ord)]
pub enum NodeType {
    Normal,
    Hidden,
}

#[derive(Clone, Debug, PartialEq, Eq, PartialOrd, Ord)]
pub struct Node {
    pub node_type: NodeType,
    pub connections: NodeSet,
}

#[derive(Clone, Debug, PartialEq, Eq, PartialOrd, Ord)]
pub struct SGroup {
    pub members: NodeSet,
    /// Process names with their pids.
    pub names: BTreeMap<u32, u32>,
}

impl SGroup {
    /// Whether some name holds this pid.
    pub fn holds_pid(&self, pid: u32) -> bool {
        self.names.values().any(|held| *held == pid)
    }
}

#[derive(Clone, Debug, PartialEq, Eq, PartialOrd, Ord)]
pub struct State {
    pub nodes: BTreeMap<u32, Node>,
    pub s_groups: BTreeMap<u32, SGroup>,
    pub free_groups: BTreeSet<NodeSet>,
}

impl State {
    /// A roster without s_groups or connections, each normal node alone.
    pub fn opened(n: u32, hidden: &NodeSet) -> State {
        let node = |i: u32| Node {
            node_type: if hidden.contains(&i) {
                NodeType::Hidden
            } else {
                NodeType::Normal
            },
            connections: NodeSet::new(),
        };
        State {
            nodes: (0..n).map(|i| (i, node(i))).collect(),
            s_groups: BTreeMap::new(),
            free_groups: (0..n)
                .filter(|i| !hidden.contains(i))
                .map(|i| NodeSet::from([i]))
                .collect(),
        }
    }

    pub fn on_roster(&self, node: u32) -> bool {
        self.nodes.contains_key(&node)
    }

    pub fn is_normal(&self, node: u32) -> bool {
        self.nodes
            .get(&node)
            .is_some_and(|found| found.node_type == NodeType::Normal)
    }

    pub fn connected(&self, a: u32, b: u32) -> bool {
        self.nodes
            .get(&a)
            .is_some_and(|node| node.connections.contains(&b))
    }

    /// The names of the s_groups that hold this node.
    pub fn group_names(&self, node: u32) -> BTreeSet<u32> {
        self.s_groups
            .iter()
            .filter(|(_, group)| group.members.contains(&node))
            .map(|(name, _)| *name)
            .collect()
    }

    pub fn in_no_s_group(&self, node: u32) -> bool {
        self.group_names(node).is_empty()
    }

    /// The free normal group that holds this node, if one does.
    pub fn free_group_of(&self, node: u32) -> Option<NodeSet> {
        self.free_groups
            .iter()
            .find(|group| group.contains(&node))
            .cloned()
    }

    /// Connects one pair, both ways; a node is never connected to itself.
    pub fn link(&mut self, a: u32, b: u32) {
        if a != b {
            for (from, to) in [(a, b), (b, a)] {
                if let Some(node) = self.nodes.get_mut(&from) {
                    node.connections.insert(to);
                }
            }
        }
    }

    /// Connects each pair of the set and nothing more.
    pub fn link_all(&mut self, set: &NodeSet) {
        for a in set {
            if let Some(node) = self.nodes.get_mut(a) {
                node.connections.extend(set.iter().filter(|b| *b != a));
            }
        }
    }

    /// The first rule of soundness that this state breaks, said over the state.
    pub fn fault(&self) -> Option<String> {
        self.roster_fault()
            .or_else(|| self.s_group_fault())
            .or_else(|| self.connection_fault())
            .or_else(|| self.free_group_fault())
    }

    fn roster_fault(&self) -> Option<String> {
        let size = self.nodes.len() as u32;
        let ids_run = self.nodes.keys().copied().eq(0..size);
        let fits = ids_run && (1..=LARGEST_ROSTER).contains(&size);
        (!fits).then(|| "the roster is not 0 to N-1 with N from 1 to 64".to_string())
    }

    fn s_group_fault(&self) -> Option<String> {
        if self.s_groups.len() > MOST_GROUPS {
            return Some("too many s_groups".to_string());
        }
        self.s_groups.iter().find_map(|(name, group)| {
            let wrong = self.one_s_group_fault(*name, group)?;
            Some(format!("s_group {name}: {wrong}"))
        })
    }

    fn one_s_group_fault(&self, name: u32, group: &SGroup) -> Option<&'static str> {
        let pids: BTreeSet<u32> = group.names.values().copied().collect();
        let all_linked = group.members.iter().all(|a| {
            let mut others = group.members.iter().filter(|b| *b != a);
            others.all(|b| self.connected(*a, *b))
        });
        let rules = [
            (
                (1..=LARGEST_GROUP_NAME).contains(&name),
                "name out of range",
            ),
            (!group.members.is_empty(), "no member"),
            (
                group.members.iter().all(|m| self.on_roster(*m)),
                "member off the roster",
            ),
            (all_linked, "members not all connected"),
            (group.names.len() <= MOST_NAMES, "too many names"),
            (!group.names.contains_key(&0), "process name zero"),
            (pids.len() == group.names.len(), "pids not distinct"),
            (
                pids.iter().all(|p| self.on_roster(host_of(*p))),
                "host off the roster",
            ),
        ];
        rules
            .iter()
            .find(|(holds, _)| !holds)
            .map(|(_, wrong)| *wrong)
    }

    fn connection_fault(&self) -> Option<String> {
        self.nodes.iter().find_map(|(a, node)| {
            if node.connections.contains(a) {
                return Some(format!("node {a} connects to itself"));
            }
            let one_sided = node.connections.iter().find(|b| !self.connected(**b, *a))?;
            Some(format!("node {one_sided} doesn't connect back to {a}"))
        })
    }

    fn free_group_fault(&self) -> Option<String> {
        let free: NodeSet = self
            .nodes
            .keys()
            .copied()
            .filter(|i| self.is_normal(*i) && self.in_no_s_group(*i))
            .collect();
        let covered: NodeSet = self.free_groups.iter().flatten().copied().collect();
        let sizes: usize = self.free_groups.iter().map(NodeSet::len).sum();
        if self.free_groups.contains(&NodeSet::new()) {
            return Some("an empty free group".to_string());
        }
        if covered != free {
            return Some("the free groups don't cover the free normal nodes exactly".to_string());
        }
        if sizes != covered.len() {
            return Some("the free groups are not disjoint".to_string());
        }
        free.iter().find_map(|a| {
            let group = self.free_group_of(*a)?;
            let odd = free
                .iter()
                .find(|b| *b != a && group.contains(b) != self.connected(*a, **b))?;
            Some(format!(
                "free nodes {a} and {odd}: sharing is not connection"
            ))
        })
    }
}
