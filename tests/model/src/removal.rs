//! What a removal does to names, in kinds, so that random runs can say which of
//! them they met.

use crate::state::{host_of, NodeSet, SGroup, State, MOST_NAMES};
use std::collections::BTreeSet;

/// One thing that a removal can do to names.
#[derive(Clone, Copy, Debug, PartialEq, Eq, PartialOrd, Ord)]
pub enum Effect {
    /// The s_group stays and loses a name.
    Drops,
    /// The s_group loses a member and keeps a name.
    Keeps,
    /// A name goes and one behind it stays.
    MovesUp,
    /// The s_group stays and loses every name it had.
    Clears,
    /// The s_group had as many names as it can and loses one.
    MakesRoom,
    /// The caller leaves with a name that it hosts.
    TakesOwn,
    /// Several nodes leave with names.
    TakesSeveral,
    /// A name goes whose host is in another s_group too.
    TakesFromGrouped,
    /// A name stays whose host is in the set and no member.
    KeepsOfNonMember,
    /// The s_group loses a member and keeps a name hosted outside it and the set.
    KeepsOfStranger,
    /// Another s_group keeps a name whose host leaves this one.
    KeepsElsewhere,
    /// The s_group is left empty, and a name hosted outside it goes.
    Ends,
}

impl Effect {
    /// Every effect once.
    pub const ALL: [Effect; 12] = [
        Effect::Drops,
        Effect::Keeps,
        Effect::MovesUp,
        Effect::Clears,
        Effect::MakesRoom,
        Effect::TakesOwn,
        Effect::TakesSeveral,
        Effect::TakesFromGrouped,
        Effect::KeepsOfNonMember,
        Effect::KeepsOfStranger,
        Effect::KeepsElsewhere,
        Effect::Ends,
    ];
}

/// What a granted removal of the members in the set does to names.
pub fn effects(before: &State, caller: u32, s: u32, set: &NodeSet) -> BTreeSet<Effect> {
    let Some(group) = before.s_groups.get(&s) else {
        return BTreeSet::new();
    };
    let asked = Removal {
        before,
        caller,
        s,
        set,
        group,
        leaving: &group.members & set,
    };
    let all = Effect::ALL.into_iter();
    all.filter(|effect| asked.has(*effect)).collect()
}

/// A removal, looked at before it is done.
struct Removal<'a> {
    before: &'a State,
    caller: u32,
    s: u32,
    set: &'a NodeSet,
    group: &'a SGroup,
    leaving: NodeSet,
}

impl Removal<'_> {
    /// Whether the removal does this.
    fn has(&self, effect: Effect) -> bool {
        let stays = self.leaving != self.group.members;
        let hosts: Vec<u32> = self.group.names.values().map(|p| host_of(*p)).collect();
        let goes = |host: &u32| self.leaving.contains(host);
        let stranger = |host: &u32| !self.group.members.contains(host);
        let first_gone = hosts.iter().position(goes);
        let drops = stays && first_gone.is_some();
        let takes = stays && !self.leaving.is_empty();
        match effect {
            Effect::Drops => drops,
            Effect::Keeps => takes && !hosts.iter().all(goes),
            Effect::MovesUp => {
                stays && first_gone.is_some_and(|first| !hosts[first..].iter().all(goes))
            }
            Effect::Clears => drops && hosts.iter().all(goes),
            Effect::MakesRoom => drops && hosts.len() == MOST_NAMES,
            Effect::TakesOwn => stays && goes(&self.caller) && hosts.contains(&self.caller),
            Effect::TakesSeveral => stays && self.hosts_leaving(&hosts) > 1,
            Effect::TakesFromGrouped => stays && hosts.iter().any(|h| goes(h) && self.grouped(*h)),
            Effect::KeepsOfNonMember => {
                stays && hosts.iter().any(|h| stranger(h) && self.set.contains(h))
            }
            Effect::KeepsOfStranger => {
                takes && hosts.iter().any(|h| stranger(h) && !self.set.contains(h))
            }
            Effect::KeepsElsewhere => stays && self.elsewhere(),
            Effect::Ends => !stays && hosts.iter().any(stranger),
        }
    }

    /// How many nodes that leave host a name.
    fn hosts_leaving(&self, hosts: &[u32]) -> usize {
        let leaving = hosts.iter().filter(|host| self.leaving.contains(host));
        leaving.collect::<BTreeSet<_>>().len()
    }

    /// Whether a node is in another s_group too.
    fn grouped(&self, node: u32) -> bool {
        self.before.group_names(node).iter().any(|s| *s != self.s)
    }

    /// Whether another s_group has a name whose host leaves this one.
    fn elsewhere(&self) -> bool {
        let others = self.before.s_groups.iter().filter(|(s, _)| **s != self.s);
        let mut pids = others.flat_map(|(_, group)| group.names.values());
        pids.any(|pid| self.leaving.contains(&host_of(*pid)))
    }
}
