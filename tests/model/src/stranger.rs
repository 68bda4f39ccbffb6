//! What a lookup finds of the host of a pid, in kinds, so that random runs can
//! say which of them they met.

use crate::command::{Command, Form};
use crate::rules::{found, Found};
use crate::state::{NodeSet, State};
use std::collections::{BTreeMap, BTreeSet};

/// One way in which a lookup finds a pid of a stranger, told with 21, or of a
/// member, told with 0. A name that was told before has been there ever since.
#[derive(Clone, Copy, Debug, PartialEq, Eq, PartialOrd, Ord)]
pub enum Finding {
    /// The stranger is a free normal node.
    FreeStranger,
    /// The stranger is hidden.
    HiddenStranger,
    /// The stranger is in another s_group, the asking node is not in it.
    GroupedStranger,
    /// The asking node shares another s_group with the stranger.
    AskersStranger,
    /// The caller, which is no member, shares an s_group with the stranger.
    CallersStranger,
    /// The caller is the stranger, and asks a member.
    StrangerAsks,
    /// The asking node and the stranger are connected.
    ConnectedStranger,
    /// A send connects the caller and the stranger.
    LinksStranger,
    /// A send makes one free group of those of the caller and the stranger.
    JoinsStranger,
    /// The s_group has one member.
    StrangerToOne,
    /// The same stranger when it was told before, and a member has left since.
    StrangerAsOthersLeave,
    /// The same stranger when it was told before, and a node has joined since.
    StrangerAsOthersJoin,
    /// Another pid when it was told before, a member's.
    MovedOut,
    /// The asking node is in another s_group, and shares none of them with the
    /// member.
    MemberHereOnly,
    /// The caller is no member, and shares no s_group with the member.
    NotCallersMember,
    /// The node that is asked hosts the pid.
    MemberAsked,
    /// A send connects the caller and the member.
    LinksMember,
    /// The same pid, a stranger's when it was told before; its host has joined since.
    Joined,
    /// Another pid when it was told before, a stranger's.
    MovedIn,
}

impl Finding {
    /// Every finding once.
    pub const ALL: [Finding; 19] = [
        Finding::FreeStranger,
        Finding::HiddenStranger,
        Finding::GroupedStranger,
        Finding::AskersStranger,
        Finding::CallersStranger,
        Finding::StrangerAsks,
        Finding::ConnectedStranger,
        Finding::LinksStranger,
        Finding::JoinsStranger,
        Finding::StrangerToOne,
        Finding::StrangerAsOthersLeave,
        Finding::StrangerAsOthersJoin,
        Finding::MovedOut,
        Finding::MemberHereOnly,
        Finding::NotCallersMember,
        Finding::MemberAsked,
        Finding::LinksMember,
        Finding::Joined,
        Finding::MovedIn,
    ];
}

/// What the last lookup told of a name.
struct Told {
    pid: u32,
    stranger: bool,
    members: NodeSet,
}

/// The lookups of a run, with what they told of the names that stayed.
#[derive(Default)]
pub struct Lookups {
    told: BTreeMap<(u32, u32), Told>,
}

impl Lookups {
    /// What the next call of the run finds of a host, where it is a lookup that was
    /// granted. Every call is to be given, so that it is known which names stayed.
    pub fn findings(
        &mut self,
        before: &State,
        caller: u32,
        command: &Command,
        granted: bool,
    ) -> BTreeSet<Finding> {
        let stays = |s: u32, n: u32| {
            let group = before.s_groups.get(&s);
            group.is_some_and(|group| group.names.contains_key(&n))
        };
        self.told.retain(|(s, n), _| stays(*s, *n));
        let form = command.form();
        match (found(before, caller, command), command.process_name()) {
            (Some(found), Some(n)) if granted && form.looks_up() => {
                self.told_now(before, form, &found, n)
            }
            _ => BTreeSet::new(),
        }
    }

    /// Compares what is told of the name with what was told before.
    fn told_now(&mut self, before: &State, form: Form, found: &Found, n: u32) -> BTreeSet<Finding> {
        let members = before.s_groups[&found.s].members.clone();
        let now = Told {
            pid: found.pid,
            stranger: !members.contains(&found.host()),
            members,
        };
        let lookup = Lookup {
            before,
            found,
            sends: matches!(form, Form::SendName | Form::SendNameAt),
            now: &now,
            last: self.told.get(&(found.s, n)),
        };
        let all = Finding::ALL.into_iter();
        let findings = all.filter(|finding| lookup.has(*finding)).collect();
        self.told.insert((found.s, n), now);
        findings
    }
}

/// A granted lookup, looked at before a send's own connection is made.
struct Lookup<'a> {
    before: &'a State,
    found: &'a Found,
    sends: bool,
    now: &'a Told,
    last: Option<&'a Told>,
}

impl Lookup<'_> {
    /// Whether the lookup finds this.
    fn has(&self, finding: Finding) -> bool {
        if self.now.stranger {
            self.stranger_has(finding)
        } else {
            self.member_has(finding)
        }
    }

    /// Whether it finds this of a stranger.
    fn stranger_has(&self, finding: Finding) -> bool {
        let (host, asker, caller) = (self.found.host(), self.found.asker, self.found.caller);
        let free = |node: u32| self.before.free_group_of(node).is_some();
        let grouped = !self.before.in_no_s_group(host);
        let stayed = self.last.filter(|last| last.pid == self.now.pid);
        match finding {
            Finding::FreeStranger => free(host),
            Finding::HiddenStranger => !self.before.is_normal(host),
            Finding::GroupedStranger => grouped && !self.share(asker, host),
            Finding::AskersStranger => self.share(asker, host),
            Finding::CallersStranger => self.by_outsider() && self.share(caller, host),
            Finding::StrangerAsks => caller == host,
            Finding::ConnectedStranger => self.before.connected(asker, host),
            Finding::LinksStranger => self.links(),
            Finding::JoinsStranger => self.links() && free(caller) && free(host),
            Finding::StrangerToOne => self.now.members.len() == 1,
            Finding::StrangerAsOthersLeave => {
                stayed.is_some_and(|last| !last.members.is_subset(&self.now.members))
            }
            Finding::StrangerAsOthersJoin => {
                stayed.is_some_and(|last| !self.now.members.is_subset(&last.members))
            }
            Finding::MovedOut => self.last.is_some_and(|last| !last.stranger),
            _ => false,
        }
    }

    /// Whether it finds this of a member.
    fn member_has(&self, finding: Finding) -> bool {
        let (host, asker, caller) = (self.found.host(), self.found.asker, self.found.caller);
        let was_stranger = self.last.filter(|last| last.stranger);
        match finding {
            Finding::MemberHereOnly => {
                self.before.group_names(asker).len() > 1 && !self.share(asker, host)
            }
            Finding::NotCallersMember => self.by_outsider() && !self.share(caller, host),
            Finding::MemberAsked => asker == host && asker != caller,
            Finding::LinksMember => self.links(),
            Finding::Joined => was_stranger.is_some_and(|last| last.pid == self.now.pid),
            Finding::MovedIn => was_stranger.is_some_and(|last| last.pid != self.now.pid),
            _ => false,
        }
    }

    /// Whether the caller is no member.
    fn by_outsider(&self) -> bool {
        !self.now.members.contains(&self.found.caller)
    }

    /// Whether two nodes are in an s_group other than that of the name.
    fn share(&self, a: u32, b: u32) -> bool {
        let mut groups = self.before.group_names(a).into_iter();
        let others = self.before.group_names(b);
        groups.any(|s| s != self.found.s && others.contains(&s))
    }

    /// Whether a send's own connection is new.
    fn links(&self) -> bool {
        let (host, caller) = (self.found.host(), self.found.caller);
        let linked = host == caller || host == self.found.asker;
        self.sends && !linked && !self.before.connected(caller, host)
    }
}
