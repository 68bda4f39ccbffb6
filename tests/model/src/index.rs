//! The index beside the table, as document 02 has it, and every call with one,
//! answered in plain numbers. The model keeps no index: where one is wanted it
//! walks the table.

use crate::answer::{Answer, Reason, Value};
use crate::command::{Command, Request};
use crate::compare::{in_numbers, Outcome};
use crate::rules::{self, Law, Rules};
use crate::state::{host_of, NodeSet, State, MOST_GROUPS, MOST_NAMES};
use crate::table::{self, state_of};
use std::collections::BTreeSet;

/// Words of an entry.
pub const ENTRY: usize = 2;
/// Words of an index: an entry for each name that a table can hold.
pub const WORDS: usize = ENTRY * MOST_GROUPS * MOST_NAMES;

/// That the pid `p` goes by the name `n` in the s_group `s`.
#[derive(Clone, Copy, Debug, PartialEq, Eq, PartialOrd, Ord)]
pub struct Entry {
    pub p: u32,
    pub s: u32,
    pub n: u32,
}

impl Entry {
    /// The first of its words, by which entries ascend; the name is the second.
    pub fn first_word(&self) -> u64 {
        (u64::from(self.p) << 32) + u64::from(self.s)
    }

    pub fn words(&self) -> [u64; ENTRY] {
        [self.first_word(), u64::from(self.n)]
    }
}

/// Every registered name as it comes when the table is walked.
pub fn walk(state: &State) -> Vec<Entry> {
    let groups = state.s_groups.iter();
    let entry = |s: u32, n: u32, p: u32| Entry { p, s, n };
    groups
        .flat_map(|(s, group)| group.names.iter().map(move |(n, p)| entry(*s, *n, *p)))
        .collect()
}

/// These entries as an index: the unused words are zero.
pub fn words_of(entries: &[Entry]) -> Vec<u64> {
    let mut words: Vec<u64> = entries.iter().flat_map(Entry::words).collect();
    words.resize(WORDS, 0);
    words
}

/// The index of a state.
pub fn index_of(state: &State) -> Vec<u64> {
    words_of(&Law.entries(state))
}

/// What a call with an index asks for.
#[derive(Clone, Debug, PartialEq, Eq)]
pub enum IndexRequest {
    /// The opening or a command.
    Beside(Request),
    /// Every s_group and name of a pid.
    NamesOf { p: u32 },
    /// The index of a table that has none yet.
    Write,
}

/// What a call with an index gives, in numbers, and every word of the index after
/// it.
#[derive(Clone, Debug, PartialEq, Eq)]
pub struct IndexOutcome {
    pub outcome: Outcome,
    pub index: Vec<u64>,
}

/// What a request gives on a table run and an index run of any length, with an
/// answer run of `room` words.
pub fn outcome(table: &[u64], index: &[u64], request: &IndexRequest, room: usize) -> IndexOutcome {
    outcome_under(&Law, table, index, request, room)
}

/// The same under other rules.
pub fn outcome_under(
    rules: &dyn Rules,
    table: &[u64],
    index: &[u64],
    request: &IndexRequest,
    room: usize,
) -> IndexOutcome {
    let state = match table.len() {
        table::WORDS => state_of(table).ok(),
        _ => None,
    };
    let asked = Asked {
        rules,
        table,
        state,
        index,
        room,
    };
    match request {
        IndexRequest::Beside(Request::Open { n, hidden }) => asked.open(*n, hidden),
        IndexRequest::Beside(Request::Call { caller, command }) => asked.command(*caller, command),
        IndexRequest::NamesOf { p } => asked.names_of(*p),
        IndexRequest::Write => asked.write(),
    }
}

/// A call, looked at before anything is done.
struct Asked<'a> {
    rules: &'a dyn Rules,
    table: &'a [u64],
    /// None where the run isn't a sound table.
    state: Option<State>,
    index: &'a [u64],
    room: usize,
}

impl Asked<'_> {
    /// Reason 1.
    fn run_length(&self) -> BTreeSet<Reason> {
        let wrong = self.table.len() != table::WORDS;
        only(Reason::RunLength, wrong)
    }

    /// Reasons 1 and 3, and 22 for the length of the index alone.
    fn no_table(&self) -> BTreeSet<Reason> {
        let mut applying = self.run_length();
        applying.extend(only(Reason::Unsound, self.state.is_none()));
        let length = self.index.len() != WORDS;
        applying.extend(only(Reason::IndexMismatch, length));
        applying
    }

    /// Reasons 1 and 3, and 22 for the length of the index or a word of it.
    fn no_index(&self) -> BTreeSet<Reason> {
        let mut applying = self.no_table();
        if let Some(state) = &self.state {
            let wrong = !self.rules.matches(state, self.index);
            applying.extend(only(Reason::IndexMismatch, wrong));
        }
        applying
    }

    /// The opening, which has 1, 2, 22 and 7.
    fn open(&self, n: u32, hidden: &NodeSet) -> IndexOutcome {
        let mut applying = rules::opening_applying(n, hidden);
        let wrong = !self.rules.opening_takes(self.index);
        applying.extend(only(Reason::IndexMismatch, wrong));
        applying.extend(self.run_length());
        match self.rules.choose(&applying) {
            Some(reason) => self.refused(reason),
            None => self.left(Answer::main_case(Value::Ok), &State::opened(n, hidden)),
        }
    }

    /// A command: 1, 3 and 22 come before the reasons that it has without an index.
    fn command(&self, caller: u32, command: &Command) -> IndexOutcome {
        let mut applying = self.no_index();
        let Some(mut state) = self.state.clone() else {
            return self.refused(self.rules.choose(&applying).unwrap_or(Reason::Unsound));
        };
        applying.extend(rules::applying(&state, caller, command, self.room));
        match self.rules.choose(&applying) {
            Some(Reason::IndexMismatch) => self.refused(Reason::IndexMismatch),
            _ => {
                let answer = rules::call(self.rules, &mut state, caller, command, self.room);
                self.left(answer, &state)
            }
        }
    }

    /// Reading by pid.
    fn names_of(&self, p: u32) -> IndexOutcome {
        let mut applying = self.no_index();
        let mut list = Vec::new();
        if let Some(state) = &self.state {
            let mut entries = self.rules.entries(state);
            entries.retain(|entry| entry.p == p);
            list = self.rules.list(&entries);
            let off = !state.on_roster(host_of(p));
            applying.extend(only(Reason::NodeOffRoster, off));
            applying.extend(only(Reason::ShortRun, list.len() > self.room));
        }
        match self.rules.choose(&applying) {
            Some(reason) => self.refused(reason),
            None => self.unchanged(&self.rules.read(list)),
        }
    }

    /// The index of the table is written.
    fn write(&self) -> IndexOutcome {
        match (self.rules.choose(&self.no_table()), &self.state) {
            (None, Some(state)) => self.left(Answer::main_case(Value::Ok), state),
            (reason, _) => self.refused(reason.unwrap_or(Reason::Unsound)),
        }
    }

    /// Error, and no word is written.
    fn refused(&self, reason: Reason) -> IndexOutcome {
        self.unchanged(&Answer::error(reason))
    }

    /// This answer; table and index are as they were.
    fn unchanged(&self, answer: &Answer) -> IndexOutcome {
        IndexOutcome {
            outcome: in_numbers(answer, self.table.to_vec()),
            index: self.index.to_vec(),
        }
    }

    /// This answer; the table is that of the state, and the index its walk.
    fn left(&self, answer: Answer, after: &State) -> IndexOutcome {
        IndexOutcome {
            outcome: in_numbers(&answer, table::words_of(after)),
            index: self.rules.index_after(self.index, after),
        }
    }
}

/// The reason, where it applies.
fn only(reason: Reason, applies: bool) -> BTreeSet<Reason> {
    applies.then_some(reason).into_iter().collect()
}
