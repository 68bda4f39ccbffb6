//! The opening and the fifteen commands as steps on the state. A call's reason
//! is found by collecting every reason that applies and taking the first in
//! their order.
//!
//! The few rules that can be misread are methods of `Rules`. Their given bodies
//! are those of documents 01 and 02; a test may replace one to show that the
//! wrong reading is told apart.

use crate::answer::{Answer, Reason, Value};
use crate::command::{Command, Form};
use crate::index::{self, Entry};
use crate::state::{
    host_of, word_of, NodeSet, SGroup, State, LARGEST_GROUP_NAME, LARGEST_ROSTER, MOST_GROUPS,
    MOST_NAMES,
};
use std::collections::{BTreeMap, BTreeSet};

/// The rules that a wrong reading would change.
pub trait Rules {
    /// The reason given when these apply; none stands for the main case.
    fn choose(&self, applying: &BTreeSet<Reason>) -> Option<Reason> {
        let mut order = Reason::ORDER.into_iter();
        order.find(|reason| applying.contains(reason))
    }

    /// Whether a remote lookup that finds nothing leaves its connection.
    fn link_stays(&self) -> bool {
        true
    }

    /// Connects a and b. Two free normal nodes bring their groups together.
    fn connect(&self, state: &mut State, a: u32, b: u32) {
        if a == b {
            return;
        }
        match (state.free_group_of(a), state.free_group_of(b)) {
            (Some(one), Some(other)) => unite(state, &[one, other]),
            _ => state.link(a, b),
        }
    }

    /// Takes all these nodes out of the free groups together; a group left
    /// empty disappears.
    fn leave_free_groups(&self, state: &mut State, leaving: &NodeSet) {
        state.free_groups = state
            .free_groups
            .iter()
            .map(|group| group - leaving)
            .filter(|group| !group.is_empty())
            .collect();
    }

    /// Joins a lot of freed normal nodes with every free group that has a node
    /// connected to any of the lot.
    fn join_free_groups(&self, state: &mut State, lot: &NodeSet) {
        let mut parts = touching_groups(state, lot);
        parts.push(lot.clone());
        unite(state, &parts);
    }

    /// The pid that a lookup found. Its host is a stranger where it is not among the
    /// members of the s_group in which the name was found.
    fn tell(&self, state: &State, found: &Found) -> Answer {
        let members = &state.s_groups[&found.s].members;
        found.answer(!members.contains(&found.host()))
    }

    /// A send by name: the lookup, then send to the pid found.
    fn send_found(&self, state: &mut State, found: &Found) -> Answer {
        let answer = self.tell(state, found);
        self.connect(state, found.caller, found.host());
        answer
    }

    /// A send to a pid that is given.
    fn send(&self, state: &mut State, caller: u32, pid: u32) -> Answer {
        self.connect(state, caller, host_of(pid));
        Answer::main_case(Value::Pid(pid))
    }

    /// Drops the names that leave s with its members in the set: those whose pid
    /// is hosted on one of them. The members are still there.
    fn drop_names(&self, state: &mut State, s: u32, set: &NodeSet) {
        let group = state.s_groups.get_mut(&s).expect("reason 8 is ruled out");
        let leaving = &group.members & set;
        group
            .names
            .retain(|_, pid| !leaving.contains(&host_of(*pid)));
    }

    /// The entries of an index, in their order: what a walk of the table gives.
    fn entries(&self, state: &State) -> Vec<Entry> {
        let mut entries = index::walk(state);
        entries.sort_by_key(Entry::first_word);
        entries
    }

    /// Whether this is the index of a table of this state.
    fn matches(&self, state: &State, index: &[u64]) -> bool {
        index == index::words_of(&self.entries(state))
    }

    /// Whether an opening takes this index. The words of the table before it
    /// don't matter, nor do those of the index.
    fn opening_takes(&self, index: &[u64]) -> bool {
        index.len() == index::WORDS
    }

    /// The index after a call that left this state, given the index before it.
    fn index_after(&self, _before: &[u64], after: &State) -> Vec<u64> {
        index::words_of(&self.entries(after))
    }

    /// What reading by pid lists of the entries of a pid.
    fn list(&self, entries: &[Entry]) -> Vec<u64> {
        let pair = |entry: &Entry| [u64::from(entry.s), u64::from(entry.n)];
        entries.iter().flat_map(pair).collect()
    }

    /// What reading by pid answers with this list.
    fn read(&self, list: Vec<u64>) -> Answer {
        Answer::main_case(Value::List(list))
    }
}

/// The rules as documents 01 and 02 have them.
pub struct Law;

impl Rules for Law {}

/// A pid that was found by its name.
pub struct Found {
    pub caller: u32,
    /// The node that looks the name up: the caller or the node that it asks.
    pub asker: u32,
    /// The s_group in which the name was found.
    pub s: u32,
    pub pid: u32,
}

impl Found {
    /// The host of the pid.
    pub fn host(&self) -> u32 {
        host_of(self.pid)
    }

    /// The pid, and beside it whether its host is a stranger.
    pub fn answer(&self, stranger: bool) -> Answer {
        Answer {
            value: Value::Pid(self.pid),
            reason: if stranger {
                Reason::HostOutside
            } else {
                Reason::MainCase
            },
        }
    }
}

/// What a call of this command finds by its name, if it names one that is there.
pub fn found(state: &State, caller: u32, command: &Command) -> Option<Found> {
    let (s, n) = (command.s_group()?, command.process_name()?);
    let pid = *state.s_groups.get(&s)?.names.get(&n)?;
    let asker = command.asked_node().unwrap_or(caller);
    Some(Found {
        caller,
        asker,
        s,
        pid,
    })
}

/// The free groups that have a node connected to any node of the lot.
pub fn touching_groups(state: &State, lot: &NodeSet) -> Vec<NodeSet> {
    let touches = |group: &&NodeSet| {
        group
            .iter()
            .any(|a| lot.iter().any(|b| state.connected(*a, *b)))
    };
    state.free_groups.iter().filter(touches).cloned().collect()
}

/// Makes one free group of these parts, with all its nodes connected.
pub fn unite(state: &mut State, parts: &[NodeSet]) {
    for part in parts {
        state.free_groups.remove(part);
    }
    let whole: NodeSet = parts.iter().flatten().copied().collect();
    state.link_all(&whole);
    state.free_groups.insert(whole);
}

/// Every reason from 2 on for which an opening is refused.
pub fn opening_applying(n: u32, hidden: &NodeSet) -> BTreeSet<Reason> {
    let mut applying = BTreeSet::new();
    if !(1..=LARGEST_ROSTER).contains(&n) {
        applying.insert(Reason::RosterSize);
    }
    if hidden.iter().any(|node| *node >= n) {
        applying.insert(Reason::NodeOffRoster);
    }
    applying
}

/// The opening: its answer, and the new state where it is accepted.
pub fn open(n: u32, hidden: &NodeSet) -> (Answer, Option<State>) {
    match Law.choose(&opening_applying(n, hidden)) {
        Some(reason) => (Answer::error(reason), None),
        None => (Answer::main_case(Value::Ok), Some(State::opened(n, hidden))),
    }
}

/// One call on a well formed state, with the length of the answer run.
pub fn call(
    rules: &dyn Rules,
    state: &mut State,
    caller: u32,
    command: &Command,
    room: usize,
) -> Answer {
    let applying = applying(state, caller, command, room);
    match rules.choose(&applying) {
        None => step(rules, state, caller, command),
        Some(reason) => {
            if !reason.writes_nothing() && rules.link_stays() {
                connect_to_asked(rules, state, caller, command);
            }
            Answer {
                value: refused_value(command.form(), reason),
                reason,
            }
        }
    }
}

/// Every reason from 4 on for which this call is refused.
pub fn applying(state: &State, caller: u32, command: &Command, room: usize) -> BTreeSet<Reason> {
    let asked = Asked {
        state,
        caller,
        command,
        room,
    };
    let possible = command.form().reasons().iter().copied();
    possible.filter(|reason| asked.holds(*reason)).collect()
}

/// A call, looked at before anything is done.
struct Asked<'a> {
    state: &'a State,
    caller: u32,
    command: &'a Command,
    room: usize,
}

impl Asked<'_> {
    /// Whether the call is refused by the line of this reason.
    fn holds(&self, reason: Reason) -> bool {
        match reason {
            Reason::CallerOffRoster => !self.state.on_roster(self.caller),
            Reason::GroupNameRange => !self.group_name_in_range(),
            Reason::ProcessNameZero => self.command.process_name() == Some(0),
            Reason::NodeOffRoster => self.nodes_given().any(|node| !self.state.on_roster(node)),
            Reason::NoSuchGroup => !self.names_no_group() && self.group().is_none(),
            Reason::NotMember => self
                .group()
                .is_some_and(|g| !g.members.contains(&self.asker())),
            Reason::NameHeld => self.group().is_some_and(|g| self.name_held(g)),
            Reason::PidHeld => self.group().is_some_and(|g| self.pid_held(g)),
            Reason::NameAbsent => {
                self.names_no_group() || self.group().is_some_and(|g| !self.name_held(g))
            }
            Reason::NamespaceFull => self
                .group()
                .is_some_and(|g| g.names.len() >= MOST_NAMES && !self.name_held(g)),
            Reason::CallerNotInSet => self
                .command
                .set()
                .is_some_and(|s| !s.contains(&self.caller)),
            Reason::GroupNameInUse => self.group().is_some(),
            Reason::GroupsFull => self.state.s_groups.len() >= MOST_GROUPS,
            Reason::ShortRun => self.list_length() > self.room,
            Reason::MainCase | Reason::HostOutside => false,
            Reason::RunLength | Reason::RosterSize | Reason::Unsound => false,
            Reason::IndexMismatch => false,
            Reason::NotLaunchFile | Reason::Duplicates | Reason::AtomNotInBook => false,
        }
    }

    /// Zero is a name that the remote forms take.
    fn group_name_in_range(&self) -> bool {
        self.names_no_group()
            || self
                .command
                .s_group()
                .is_none_or(|s| (1..=LARGEST_GROUP_NAME).contains(&s))
    }

    /// Whether a remote form is asked with s_group zero.
    fn names_no_group(&self) -> bool {
        self.command.asked_node().is_some() && self.command.s_group() == Some(0)
    }

    fn group(&self) -> Option<&SGroup> {
        self.command
            .s_group()
            .and_then(|name| self.state.s_groups.get(&name))
    }

    /// The node whose membership counts.
    fn asker(&self) -> u32 {
        self.command.asked_node().unwrap_or(self.caller)
    }

    fn name_held(&self, group: &SGroup) -> bool {
        self.command
            .process_name()
            .is_some_and(|n| group.names.contains_key(&n))
    }

    fn pid_held(&self, group: &SGroup) -> bool {
        self.command.pid().is_some_and(|p| group.holds_pid(p))
    }

    /// The nodes given besides the caller, a given pid's host among them.
    fn nodes_given(&self) -> impl Iterator<Item = u32> + '_ {
        let set = self.command.set().into_iter().flatten().copied();
        let host = self.command.pid().map(host_of);
        set.chain(host).chain(self.command.asked_node())
    }

    /// The number of words in the list that the call would answer.
    fn list_length(&self) -> usize {
        match self.command {
            Command::RegisteredNames { .. } => match self.group() {
                Some(group) if group.members.contains(&self.caller) => group.names.len(),
                _ => 0,
            },
            Command::OwnSGroups => 2 * self.state.group_names(self.caller).len(),
            _ => 0,
        }
    }
}

/// The value that stands beside a refusal.
fn refused_value(form: Form, reason: Reason) -> Value {
    match reason {
        Reason::NoSuchGroup | Reason::NotMember => outsider_value(form),
        Reason::NameHeld | Reason::PidHeld | Reason::NamespaceFull => Value::False,
        Reason::NameAbsent if form == Form::UnregisterName => Value::True,
        Reason::NameAbsent => Value::Undefined,
        _ => Value::Error,
    }
}

/// The value under reasons 8 and 9.
fn outsider_value(form: Form) -> Value {
    match form {
        Form::RegisterName | Form::ReRegisterName | Form::UnregisterName => Value::False,
        Form::RegisteredNames => Value::List(Vec::new()),
        Form::WhereisName | Form::WhereisNameAt => Value::Undefined,
        Form::SendPid | Form::SendName | Form::SendNameAt => Value::Undefined,
        _ => Value::Error,
    }
}

/// The step of a call that is not refused, with its answer.
fn step(rules: &dyn Rules, state: &mut State, caller: u32, command: &Command) -> Answer {
    connect_to_asked(rules, state, caller, command);
    let value = match command {
        Command::RegisterName { s, n, p } | Command::ReRegisterName { s, n, p } => {
            names_of(state, *s).insert(*n, *p);
            Value::True
        }
        Command::UnregisterName { s, n } => {
            names_of(state, *s).remove(n);
            Value::True
        }
        Command::RegisteredNames { s } => registered_names(state, *s),
        Command::WhereisName { .. } | Command::WhereisNameAt { .. } => {
            let found = found(state, caller, command).expect("reason 12 is ruled out");
            return rules.tell(state, &found);
        }
        Command::SendPid { p } => return rules.send(state, caller, *p),
        Command::SendName { .. } | Command::SendNameAt { .. } => {
            let found = found(state, caller, command).expect("reason 12 is ruled out");
            return rules.send_found(state, &found);
        }
        Command::NewSGroup { s, set } => new_s_group(rules, state, *s, set),
        Command::AddNodes { s, set } => add_nodes(rules, state, caller, *s, set),
        Command::RemoveNodes { s, set } => remove_nodes(rules, state, *s, set),
        Command::DeleteSGroup { s } => delete_s_group(rules, state, *s),
        Command::OwnNodes => Value::Nodes(own_nodes(state, caller)),
        Command::OwnSGroups => own_s_groups(state, caller),
    };
    Answer::main_case(value)
}

/// The first connection of the remote forms; the other forms have none.
fn connect_to_asked(rules: &dyn Rules, state: &mut State, caller: u32, command: &Command) {
    if let Some(at) = command.asked_node() {
        rules.connect(state, caller, at);
    }
}

/// The namespace of an s_group that is known to be there.
fn names_of(state: &mut State, s: u32) -> &mut BTreeMap<u32, u32> {
    let group = state.s_groups.get_mut(&s).expect("reason 8 is ruled out");
    &mut group.names
}

fn registered_names(state: &mut State, s: u32) -> Value {
    let entry = |n: &u32| (u64::from(s) << 32) + u64::from(*n);
    Value::List(names_of(state, s).keys().map(entry).collect())
}

fn new_s_group(rules: &dyn Rules, state: &mut State, s: u32, set: &NodeSet) -> Value {
    state.link_all(set);
    let group = SGroup {
        members: set.clone(),
        names: BTreeMap::new(),
    };
    state.s_groups.insert(s, group);
    rules.leave_free_groups(state, set);
    Value::Group(s, set.clone())
}

fn add_nodes(rules: &dyn Rules, state: &mut State, caller: u32, s: u32, set: &NodeSet) -> Value {
    let group = state.s_groups.get_mut(&s).expect("reason 8 is ruled out");
    group.members.extend(set);
    let mut linked = group.members.clone();
    linked.insert(caller);
    state.link_all(&linked);
    rules.leave_free_groups(state, set);
    Value::Group(s, set.clone())
}

fn remove_nodes(rules: &dyn Rules, state: &mut State, s: u32, set: &NodeSet) -> Value {
    rules.drop_names(state, s, set);
    let group = state.s_groups.get_mut(&s).expect("reason 8 is ruled out");
    let leaving = &group.members & set;
    group.members = &group.members - set;
    if group.members.is_empty() {
        state.s_groups.remove(&s);
    }
    become_free(rules, state, &leaving);
    Value::True
}

fn delete_s_group(rules: &dyn Rules, state: &mut State, s: u32) -> Value {
    let group = state.s_groups.remove(&s).expect("reason 8 is ruled out");
    become_free(rules, state, &group.members);
    Value::True
}

/// Of the nodes that just left a group, the normal ones now in no s_group join
/// the free groups as one lot. Hidden ones stand alone, which needs no step.
fn become_free(rules: &dyn Rules, state: &mut State, left: &NodeSet) {
    let lot: NodeSet = left
        .iter()
        .copied()
        .filter(|node| state.is_normal(*node) && state.in_no_s_group(*node))
        .collect();
    if !lot.is_empty() {
        rules.join_free_groups(state, &lot);
    }
}

/// The free normal group, or the node alone if hidden and free, or the union of
/// the members of its s_groups.
pub fn own_nodes(state: &State, caller: u32) -> NodeSet {
    let names = state.group_names(caller);
    if !names.is_empty() {
        let members = names.iter().flat_map(|name| &state.s_groups[name].members);
        return members.copied().collect();
    }
    state
        .free_group_of(caller)
        .unwrap_or_else(|| NodeSet::from([caller]))
}

fn own_s_groups(state: &State, caller: u32) -> Value {
    let pair = |name: u32| [u64::from(name), word_of(&state.s_groups[&name].members)];
    Value::List(
        state
            .group_names(caller)
            .into_iter()
            .flat_map(pair)
            .collect(),
    )
}
