//! What a call answers: a value and one reason, with the numbers and the
//! printed words that document 01 gives them.

use crate::state::{word_of, NodeSet};
use std::fmt;

/// Why an answer is as it is; the numbers are those of 01 and 02.
#[derive(Clone, Copy, Debug, PartialEq, Eq, PartialOrd, Ord)]
pub enum Reason {
    MainCase = 0,
    RunLength = 1,
    RosterSize = 2,
    Unsound = 3,
    CallerOffRoster = 4,
    GroupNameRange = 5,
    ProcessNameZero = 6,
    NodeOffRoster = 7,
    NoSuchGroup = 8,
    NotMember = 9,
    NameHeld = 10,
    PidHeld = 11,
    NameAbsent = 12,
    NamespaceFull = 13,
    CallerNotInSet = 14,
    GroupNameInUse = 15,
    GroupsFull = 16,
    ShortRun = 17,
    NotLaunchFile = 18,
    Duplicates = 19,
    AtomNotInBook = 20,
    HostOutside = 21,
    IndexMismatch = 22,
}

impl Reason {
    /// The reasons that are no refusal: 21 stands beside a pid in the place of 0.
    pub const GRANTED: [Reason; 2] = [Reason::MainCase, Reason::HostOutside];

    /// The refusals in the order in which they are given when several apply: that
    /// of their numbers, save where 02 states a place.
    #[rustfmt::skip]
    pub const ORDER: [Reason; 21] = [
        Reason::RunLength, Reason::RosterSize, Reason::Unsound, Reason::IndexMismatch,
        Reason::CallerOffRoster, Reason::GroupNameRange, Reason::ProcessNameZero,
        Reason::NodeOffRoster, Reason::NotLaunchFile, Reason::Duplicates, Reason::AtomNotInBook,
        Reason::NoSuchGroup, Reason::NotMember, Reason::NameHeld, Reason::PidHeld,
        Reason::NameAbsent, Reason::NamespaceFull, Reason::CallerNotInSet, Reason::GroupNameInUse,
        Reason::GroupsFull, Reason::ShortRun,
    ];

    /// The number of this reason.
    pub fn number(self) -> u32 {
        self as u32
    }

    /// Whether a call with this reason is refused.
    pub fn refuses(self) -> bool {
        !Reason::GRANTED.contains(&self)
    }

    /// Whether a call refused for this reason writes nothing at all. Under the
    /// other refusals a remote lookup still makes its first connection.
    pub fn writes_nothing(self) -> bool {
        matches!(self.number(), 1..=7 | 17..=20 | 22)
    }
}

/// The value of an answer.
#[derive(Clone, Debug, PartialEq, Eq)]
pub enum Value {
    Ok,
    True,
    False,
    Error,
    Undefined,
    Pid(u32),
    Group(u32, NodeSet),
    Nodes(NodeSet),
    List(Vec<u64>),
}

impl Value {
    /// The kind's number, 1 to 9 in the order in which 01 lists the outputs.
    pub fn kind(&self) -> u32 {
        match self {
            Value::Ok => 1,
            Value::True => 2,
            Value::False => 3,
            Value::Error => 4,
            Value::Undefined => 5,
            Value::Pid(_) => 6,
            Value::Group(_, _) => 7,
            Value::Nodes(_) => 8,
            Value::List(_) => 9,
        }
    }

    /// The word that the script program prints for this kind.
    pub fn word(&self) -> &'static str {
        match self {
            Value::Ok => "ok",
            Value::True => "true",
            Value::False => "false",
            Value::Error => "error",
            Value::Undefined => "undefined",
            Value::Pid(_) => "pid",
            Value::Group(_, _) => "group",
            Value::Nodes(_) => "nodes",
            Value::List(_) => "list",
        }
    }

    /// The numbers printed between the word and the reason.
    pub fn fields(&self) -> Vec<u64> {
        match self {
            Value::Pid(pid) => vec![u64::from(*pid)],
            Value::Group(name, set) => vec![u64::from(*name), word_of(set)],
            Value::Nodes(set) => vec![word_of(set), set.len() as u64],
            Value::List(words) => {
                let mut fields = vec![words.len() as u64];
                fields.extend(words);
                fields
            }
            _ => Vec::new(),
        }
    }
}

/// A value and its reason.
#[derive(Clone, Debug, PartialEq, Eq)]
pub struct Answer {
    pub value: Value,
    pub reason: Reason,
}

impl Answer {
    /// The answer of a call whose main case holds.
    pub fn main_case(value: Value) -> Answer {
        Answer {
            value,
            reason: Reason::MainCase,
        }
    }

    /// Error with the given reason.
    pub fn error(reason: Reason) -> Answer {
        Answer {
            value: Value::Error,
            reason,
        }
    }
}

/// The printed line, without its newline.
impl fmt::Display for Answer {
    fn fmt(&self, out: &mut fmt::Formatter<'_>) -> fmt::Result {
        write!(out, "{}", self.value.word())?;
        for field in self.value.fields() {
            write!(out, " {field}")?;
        }
        write!(out, " {}", self.reason.number())
    }
}
