//! The parts of a state that can be taken out, one at a time, with what hangs on them, so that the rest is sound in nearly every case.

use model::command::{Command, Request};
use model::state::{host_of, Node, NodeSet, NodeType, SGroup, State, PIDS_PER_HOST};

/// One part of a state.
pub enum Part {
    /// An s_group with its names.
    SGroup(u32),
    /// A node with its memberships, connections and pids; higher nodes move down by one.
    Node(u32),
    /// A node's membership of an s_group.
    Member(u32, u32),
    /// A name of an s_group.
    Name(u32, u32),
    /// A node's place in its free group: it is alone from then on.
    FreeMember(u32),
    /// That a node is hidden.
    Hidden(u32),
    /// The connection of two nodes.
    Connection(u32, u32),
}

/// Every part of the state, the large ones first and nodes from the last.
pub fn parts(state: &State) -> Vec<Part> {
    let nodes = || state.nodes.keys().copied();
    let groups = || state.s_groups.iter();
    let mut all: Vec<Part> = state.s_groups.keys().copied().map(Part::SGroup).collect();
    all.extend(nodes().rev().map(Part::Node));
    all.extend(groups().flat_map(|(s, group)| group.members.iter().map(|i| Part::Member(*s, *i))));
    all.extend(groups().flat_map(|(s, group)| group.names.keys().map(|n| Part::Name(*s, *n))));
    all.extend(nodes().map(Part::FreeMember));
    all.extend(nodes().map(Part::Hidden));
    for (a, node) in &state.nodes {
        let higher = node.connections.iter().filter(|b| *b > a);
        all.extend(higher.map(|b| Part::Connection(*a, *b)));
    }
    all
}

/// Takes the part out of the state where it is there. The request follows the nodes that move down.
pub fn take_out(part: &Part, state: &mut State, request: &mut Request) {
    match part {
        Part::SGroup(s) => {
            let gone = state.s_groups.remove(s);
            for node in gone.iter().flat_map(|group| &group.members) {
                stand_alone(state, *node);
            }
        }
        Part::Node(gone) => {
            *state = state_without(state, *gone);
            move_down(request, *gone);
        }
        Part::Member(s, node) => {
            if let Some(group) = state.s_groups.get_mut(s) {
                group.members.remove(node);
                stand_alone(state, *node);
            }
        }
        Part::Name(s, n) => {
            if let Some(group) = state.s_groups.get_mut(s) {
                group.names.remove(n);
            }
        }
        Part::FreeMember(node) => stand_alone(state, *node),
        Part::Hidden(node) => {
            if let Some(found) = state.nodes.get_mut(node) {
                found.node_type = NodeType::Normal;
                stand_alone(state, *node);
            }
        }
        Part::Connection(a, b) => unlink(state, *a, *b),
    }
}

fn unlink(state: &mut State, a: u32, b: u32) {
    for (from, to) in [(a, b), (b, a)] {
        if let Some(node) = state.nodes.get_mut(&from) {
            node.connections.remove(&to);
        }
    }
}

/// A normal node in no s_group gets a free group of its own, without connections to other free normal nodes.
fn stand_alone(state: &mut State, node: u32) {
    if !state.is_normal(node) || !state.in_no_s_group(node) {
        return;
    }
    let own = NodeSet::from([node]);
    let others = state.free_groups.iter().map(|group| group - &own);
    state.free_groups = others.filter(|group| !group.is_empty()).collect();
    let free: NodeSet = state.free_groups.iter().flatten().copied().collect();
    for other in free {
        unlink(state, node, other);
    }
    state.free_groups.insert(own);
}

/// The number of a node after another has gone.
fn moved(node: u32, gone: u32) -> u32 {
    if node > gone {
        node - 1
    } else {
        node
    }
}

fn moved_set(set: &NodeSet, gone: u32) -> NodeSet {
    let left = set.iter().filter(|node| **node != gone);
    left.map(|node| moved(*node, gone)).collect()
}

fn moved_pid(pid: u32, gone: u32) -> u32 {
    moved(host_of(pid), gone) * PIDS_PER_HOST + pid % PIDS_PER_HOST
}

/// The state without a node; its names go with it, and an s_group or free group that it leaves empty.
fn state_without(state: &State, gone: u32) -> State {
    let node = |(id, node): (&u32, &Node)| {
        let connections = moved_set(&node.connections, gone);
        let node_type = node.node_type;
        let moved_node = Node {
            node_type,
            connections,
        };
        (moved(*id, gone), moved_node)
    };
    let group = |(name, group): (&u32, &SGroup)| {
        let names = group.names.iter().filter(|(_, p)| host_of(**p) != gone);
        let left = SGroup {
            members: moved_set(&group.members, gone),
            names: names.map(|(n, p)| (*n, moved_pid(*p, gone))).collect(),
        };
        (*name, left)
    };
    let nodes = state.nodes.iter().filter(|(id, _)| **id != gone);
    let s_groups = state.s_groups.iter().map(group);
    let free_groups = state.free_groups.iter().map(|set| moved_set(set, gone));
    State {
        nodes: nodes.map(node).collect(),
        s_groups: s_groups
            .filter(|(_, left)| !left.members.is_empty())
            .collect(),
        free_groups: free_groups.filter(|set| !set.is_empty()).collect(),
    }
}

/// The request with every node that it names moved down.
fn move_down(request: &mut Request, gone: u32) {
    let Request::Call { caller, command } = request else {
        return;
    };
    *caller = moved(*caller, gone);
    match command {
        Command::WhereisNameAt { at, .. } | Command::SendNameAt { at, .. } => {
            *at = moved(*at, gone);
        }
        Command::RegisterName { p, .. }
        | Command::ReRegisterName { p, .. }
        | Command::SendPid { p } => *p = moved_pid(*p, gone),
        Command::NewSGroup { set, .. }
        | Command::AddNodes { set, .. }
        | Command::RemoveNodes { set, .. } => *set = moved_set(set, gone),
        _ => {}
    }
}
