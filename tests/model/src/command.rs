//! The fifteen commands: their words, the widths of their arguments, and which
//! reasons each of them can have. `Request` adds the opening and the caller.

use crate::answer::Reason;
use crate::state::{set_of, word_of, NodeSet};

/// How wide an argument is.
#[derive(Clone, Copy, Debug, PartialEq, Eq)]
pub enum Width {
    Number32,
    Set64,
}

impl Width {
    /// The largest number that fits.
    pub fn largest(self) -> u64 {
        match self {
            Width::Number32 => u64::from(u32::MAX),
            Width::Set64 => u64::MAX,
        }
    }
}

/// A command without its arguments. "At" marks the forms that name a node to ask.
#[derive(Clone, Copy, Debug, PartialEq, Eq, PartialOrd, Ord)]
pub enum Form {
    RegisterName,
    ReRegisterName,
    UnregisterName,
    RegisteredNames,
    WhereisName,
    WhereisNameAt,
    SendPid,
    SendName,
    SendNameAt,
    NewSGroup,
    AddNodes,
    RemoveNodes,
    DeleteSGroup,
    OwnNodes,
    OwnSGroups,
}

impl Form {
    /// Every form once.
    pub const ALL: [Form; 15] = [
        Form::RegisterName,
        Form::ReRegisterName,
        Form::UnregisterName,
        Form::RegisteredNames,
        Form::WhereisName,
        Form::WhereisNameAt,
        Form::SendPid,
        Form::SendName,
        Form::SendNameAt,
        Form::NewSGroup,
        Form::AddNodes,
        Form::RemoveNodes,
        Form::DeleteSGroup,
        Form::OwnNodes,
        Form::OwnSGroups,
    ];

    /// The word in a script.
    pub fn word(self) -> &'static str {
        match self {
            Form::RegisterName => "register_name",
            Form::ReRegisterName => "re_register_name",
            Form::UnregisterName => "unregister_name",
            Form::RegisteredNames => "registered_names",
            Form::WhereisName | Form::WhereisNameAt => "whereis_name",
            Form::SendPid | Form::SendName | Form::SendNameAt => "send",
            Form::NewSGroup => "new_s_group",
            Form::AddNodes => "add_nodes",
            Form::RemoveNodes => "remove_nodes",
            Form::DeleteSGroup => "delete_s_group",
            Form::OwnNodes => "own_nodes",
            Form::OwnSGroups => "own_s_groups",
        }
    }

    /// The widths of the arguments, in the order of the script line.
    pub fn widths(self) -> &'static [Width] {
        use Width::{Number32, Set64};
        match self {
            Form::RegisterName | Form::ReRegisterName => &[Number32, Number32, Number32],
            Form::UnregisterName | Form::WhereisName | Form::SendName => &[Number32, Number32],
            Form::WhereisNameAt | Form::SendNameAt => &[Number32, Number32, Number32],
            Form::RegisteredNames | Form::DeleteSGroup | Form::SendPid => &[Number32],
            Form::NewSGroup | Form::AddNodes | Form::RemoveNodes => &[Number32, Set64],
            Form::OwnNodes | Form::OwnSGroups => &[],
        }
    }

    /// Whether it looks up a name: the two lookups and the two sends by name.
    pub fn looks_up(self) -> bool {
        matches!(
            self,
            Form::WhereisName | Form::WhereisNameAt | Form::SendName | Form::SendNameAt
        )
    }

    /// Whether there are as many arguments as it takes, each of its width.
    fn takes(self, arguments: &[u64]) -> bool {
        let mut each = self.widths().iter().zip(arguments);
        self.widths().len() == arguments.len() && each.all(|(w, a)| *a <= w.largest())
    }

    /// The reasons from 4 on that this command can have.
    #[rustfmt::skip]
    pub fn reasons(self) -> &'static [Reason] {
        use Reason::*;
        match self {
            Form::RegisterName => &[
                CallerOffRoster, GroupNameRange, ProcessNameZero, NodeOffRoster, NoSuchGroup,
                NotMember, NameHeld, PidHeld, NamespaceFull,
            ],
            Form::ReRegisterName => &[
                CallerOffRoster, GroupNameRange, ProcessNameZero, NodeOffRoster, NoSuchGroup,
                NotMember, PidHeld, NamespaceFull,
            ],
            Form::UnregisterName => &[
                CallerOffRoster, GroupNameRange, ProcessNameZero, NoSuchGroup, NotMember,
                NameAbsent,
            ],
            Form::WhereisName | Form::SendName => &[
                CallerOffRoster, GroupNameRange, ProcessNameZero, NoSuchGroup, NotMember,
                NameAbsent, HostOutside,
            ],
            Form::RegisteredNames => &[
                CallerOffRoster, GroupNameRange, NoSuchGroup, NotMember, ShortRun,
            ],
            Form::WhereisNameAt | Form::SendNameAt => &[
                CallerOffRoster, GroupNameRange, ProcessNameZero, NodeOffRoster, NoSuchGroup,
                NotMember, NameAbsent, HostOutside,
            ],
            Form::SendPid => &[CallerOffRoster, NodeOffRoster],
            Form::NewSGroup => &[
                CallerOffRoster, GroupNameRange, NodeOffRoster, CallerNotInSet, GroupNameInUse,
                GroupsFull,
            ],
            Form::AddNodes | Form::RemoveNodes => &[
                CallerOffRoster, GroupNameRange, NodeOffRoster, NoSuchGroup, NotMember,
            ],
            Form::DeleteSGroup => &[CallerOffRoster, GroupNameRange, NoSuchGroup, NotMember],
            Form::OwnNodes => &[CallerOffRoster],
            Form::OwnSGroups => &[CallerOffRoster, ShortRun],
        }
    }
}

/// A command with its arguments: `s` the s_group, `n` the process name, `p` the
/// pid, `at` the node that is asked, `set` a set of nodes.
#[derive(Clone, Debug, PartialEq, Eq)]
pub enum Command {
    RegisterName { s: u32, n: u32, p: u32 },
    ReRegisterName { s: u32, n: u32, p: u32 },
    UnregisterName { s: u32, n: u32 },
    RegisteredNames { s: u32 },
    WhereisName { s: u32, n: u32 },
    WhereisNameAt { at: u32, s: u32, n: u32 },
    SendPid { p: u32 },
    SendName { s: u32, n: u32 },
    SendNameAt { at: u32, s: u32, n: u32 },
    NewSGroup { s: u32, set: NodeSet },
    AddNodes { s: u32, set: NodeSet },
    RemoveNodes { s: u32, set: NodeSet },
    DeleteSGroup { s: u32 },
    OwnNodes,
    OwnSGroups,
}

impl Command {
    /// The command of a form with these arguments; none if their number or a
    /// width doesn't fit.
    pub fn from_arguments(form: Form, arguments: &[u64]) -> Option<Command> {
        if !form.takes(arguments) {
            return None;
        }
        let given = |i: usize| arguments.get(i).copied().unwrap_or(0);
        let [first, second, third] = [0, 1, 2].map(|i| given(i) as u32);
        let (s, n, p) = (first, second, third);
        let set = set_of(given(1));
        Some(match form {
            Form::RegisterName => Command::RegisterName { s, n, p },
            Form::ReRegisterName => Command::ReRegisterName { s, n, p },
            Form::UnregisterName => Command::UnregisterName { s, n },
            Form::RegisteredNames => Command::RegisteredNames { s },
            Form::WhereisName => Command::WhereisName { s, n },
            Form::WhereisNameAt => {
                let (at, s, n) = (first, second, third);
                Command::WhereisNameAt { at, s, n }
            }
            Form::SendPid => Command::SendPid { p: first },
            Form::SendName => Command::SendName { s, n },
            Form::SendNameAt => {
                let (at, s, n) = (first, second, third);
                Command::SendNameAt { at, s, n }
            }
            Form::NewSGroup => Command::NewSGroup { s, set },
            Form::AddNodes => Command::AddNodes { s, set },
            Form::RemoveNodes => Command::RemoveNodes { s, set },
            Form::DeleteSGroup => Command::DeleteSGroup { s },
            Form::OwnNodes => Command::OwnNodes,
            Form::OwnSGroups => Command::OwnSGroups,
        })
    }

    /// The form of this command.
    pub fn form(&self) -> Form {
        match self {
            Command::RegisterName { .. } => Form::RegisterName,
            Command::ReRegisterName { .. } => Form::ReRegisterName,
            Command::UnregisterName { .. } => Form::UnregisterName,
            Command::RegisteredNames { .. } => Form::RegisteredNames,
            Command::WhereisName { .. } => Form::WhereisName,
            Command::WhereisNameAt { .. } => Form::WhereisNameAt,
            Command::SendPid { .. } => Form::SendPid,
            Command::SendName { .. } => Form::SendName,
            Command::SendNameAt { .. } => Form::SendNameAt,
            Command::NewSGroup { .. } => Form::NewSGroup,
            Command::AddNodes { .. } => Form::AddNodes,
            Command::RemoveNodes { .. } => Form::RemoveNodes,
            Command::DeleteSGroup { .. } => Form::DeleteSGroup,
            Command::OwnNodes => Form::OwnNodes,
            Command::OwnSGroups => Form::OwnSGroups,
        }
    }

    /// The arguments in the order of the script line.
    pub fn arguments(&self) -> Vec<u64> {
        let wide = |numbers: &[u32]| numbers.iter().map(|n| u64::from(*n)).collect();
        match self {
            Command::RegisterName { s, n, p } | Command::ReRegisterName { s, n, p } => {
                wide(&[*s, *n, *p])
            }
            Command::UnregisterName { s, n }
            | Command::WhereisName { s, n }
            | Command::SendName { s, n } => wide(&[*s, *n]),
            Command::WhereisNameAt { at, s, n } | Command::SendNameAt { at, s, n } => {
                wide(&[*at, *s, *n])
            }
            Command::RegisteredNames { s } | Command::DeleteSGroup { s } => wide(&[*s]),
            Command::SendPid { p } => wide(&[*p]),
            Command::NewSGroup { s, set }
            | Command::AddNodes { s, set }
            | Command::RemoveNodes { s, set } => vec![u64::from(*s), word_of(set)],
            Command::OwnNodes | Command::OwnSGroups => Vec::new(),
        }
    }

    /// The s_group named, if the command names one.
    pub fn s_group(&self) -> Option<u32> {
        match self {
            Command::RegisterName { s, .. }
            | Command::ReRegisterName { s, .. }
            | Command::UnregisterName { s, .. }
            | Command::RegisteredNames { s }
            | Command::WhereisName { s, .. }
            | Command::WhereisNameAt { s, .. }
            | Command::SendName { s, .. }
            | Command::SendNameAt { s, .. }
            | Command::NewSGroup { s, .. }
            | Command::AddNodes { s, .. }
            | Command::RemoveNodes { s, .. }
            | Command::DeleteSGroup { s } => Some(*s),
            Command::SendPid { .. } | Command::OwnNodes | Command::OwnSGroups => None,
        }
    }

    /// The process name, if the command takes one.
    pub fn process_name(&self) -> Option<u32> {
        match self {
            Command::RegisterName { n, .. }
            | Command::ReRegisterName { n, .. }
            | Command::UnregisterName { n, .. }
            | Command::WhereisName { n, .. }
            | Command::WhereisNameAt { n, .. }
            | Command::SendName { n, .. }
            | Command::SendNameAt { n, .. } => Some(*n),
            _ => None,
        }
    }

    /// The pid given, if the command takes one.
    pub fn pid(&self) -> Option<u32> {
        match self {
            Command::RegisterName { p, .. }
            | Command::ReRegisterName { p, .. }
            | Command::SendPid { p } => Some(*p),
            _ => None,
        }
    }

    /// The node that is asked, in the remote forms.
    pub fn asked_node(&self) -> Option<u32> {
        match self {
            Command::WhereisNameAt { at, .. } | Command::SendNameAt { at, .. } => Some(*at),
            _ => None,
        }
    }

    /// The set of nodes given, if the command takes one.
    pub fn set(&self) -> Option<&NodeSet> {
        match self {
            Command::NewSGroup { set, .. }
            | Command::AddNodes { set, .. }
            | Command::RemoveNodes { set, .. } => Some(set),
            _ => None,
        }
    }
}

/// What a line of a script, or a call of the library, asks for.
#[derive(Clone, Debug, PartialEq, Eq)]
pub enum Request {
    Open { n: u32, hidden: NodeSet },
    Call { caller: u32, command: Command },
}

impl Request {
    /// The script line, without its newline.
    pub fn line(&self) -> String {
        match self {
            Request::Open { n, hidden } => format!("open {n} {}", word_of(hidden)),
            Request::Call { caller, command } => {
                let mut line = format!("{caller} {}", command.form().word());
                for argument in command.arguments() {
                    line.push_str(&format!(" {argument}"));
                }
                line
            }
        }
    }
}
