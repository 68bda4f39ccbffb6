//! Random calls with an index from a seed: a walk of requests on sound tables, each with the right index and with a faulty one, and on tables that are mutated,
//! random or of another length.

use crate::case::sound;
use crate::index_case::Case;
use crate::random::{answer_length, list_room, other_length, random_run, Kind};
use model::command::{Form, Request};
use model::crowd::{crowd, last_name};
use model::generate::Generator;
use model::index::{self, index_of, outcome, IndexRequest};
use model::index_fault::Fault;
use model::mutate::{mutated, random_words};
use model::prng::Prng;
use model::rules::{Law, Rules};
use model::state::{State, PIDS_PER_HOST};
use model::table::{state_of, words_of};
use std::collections::BTreeMap;

/// Steps of one walk.
pub const STEPS: usize = 120;
/// One walk in so many begins on a crowd.
const CROWDED: u64 = 3;
/// A stale index is of so many calls before, at most.
const STALE: usize = 12;

/// What a call with an index is a call of.
#[derive(Clone, Copy, Debug, PartialEq, Eq, PartialOrd, Ord)]
pub enum Called {
    Open,
    Command(Form),
    NamesOf,
    Write,
}

impl Called {
    /// Every call once.
    pub fn all() -> Vec<Called> {
        let commands = Form::ALL.into_iter().map(Called::Command);
        let others = [Called::Open, Called::NamesOf, Called::Write];
        others.into_iter().chain(commands).collect()
    }

    /// What this is a call of.
    pub fn of(request: &IndexRequest) -> Called {
        match request {
            IndexRequest::Beside(Request::Open { .. }) => Called::Open,
            IndexRequest::Beside(Request::Call { command, .. }) => Called::Command(command.form()),
            IndexRequest::NamesOf { .. } => Called::NamesOf,
            IndexRequest::Write => Called::Write,
        }
    }

    /// Whether it looks at the words of the index, not only at its length.
    pub fn reads_index(self) -> bool {
        !matches!(self, Called::Open | Called::Write)
    }

    /// The faults for which it can be refused.
    pub fn faults(self) -> Vec<Fault> {
        let all = Fault::ALL.into_iter();
        all.filter(|fault| self.reads_index() || fault.of_length())
            .collect()
    }
}

/// What the table and the index of a case are.
#[derive(Clone, Copy, Debug, PartialEq, Eq, PartialOrd, Ord)]
pub struct Kinds {
    pub table: Kind,
    /// None where the index is that of the table, or of the table before it was changed.
    pub fault: Option<Fault>,
}

/// How often each call met each fault, so that each meets all of them.
#[derive(Default)]
pub struct Faults {
    met: BTreeMap<(Called, Fault), usize>,
}

impl Faults {
    /// The index with the fault that this call met least, of those that leave it wrong.
    fn on(
        &mut self,
        called: Called,
        right: &[u64],
        stale: &[u64],
        prng: &mut Prng,
    ) -> (Fault, Vec<u64>) {
        let mut faults = called.faults();
        faults.sort_by_key(|fault| self.met.get(&(called, *fault)).copied().unwrap_or(0));
        let mut faulty = faults.into_iter();
        let wrong = faulty.find_map(|fault| {
            let index = fault.on(right, stale, prng);
            (index != right).then_some((fault, index))
        });
        let (fault, index) = wrong.expect("another length is always wrong");
        *self.met.entry((called, fault)).or_default() += 1;
        (fault, index)
    }
}

/// A walk: requests that follow each other on a table, with the indexes of the last of them.
pub struct Walk {
    generator: Generator,
    prng: Prng,
    /// The first request, where it is to be one that fills the index.
    first: Option<Request>,
    indexes: Vec<Vec<u64>>,
}

impl Walk {
    pub fn new(seed: u64) -> Walk {
        let mut prng = Prng::new(!seed);
        let mut generator = Generator::new(seed);
        let mut first = None;
        if seed % CROWDED == 0 {
            let state = crowd(&mut prng);
            first = last_name(&state);
            generator = Generator::on(seed, state);
        }
        Walk {
            generator,
            prng,
            first,
            indexes: Vec::new(),
        }
    }

    /// The state before the next step.
    pub fn state(&mut self) -> State {
        self.generator.opened_state()
    }

    /// The next request of the walk.
    pub fn request(&mut self) -> Request {
        match self.first.take() {
            None => self.generator.request(),
            Some(first) => {
                self.generator.take(&first);
                first
            }
        }
    }

    /// The cases of the next step: its request with the right index, with a faulty one, and on a table that is most often not sound; and calls that the walk's
    /// requests have seldom or not at all.
    pub fn step(&mut self, faults: &mut Faults) -> Vec<(Kinds, Case)> {
        let state = self.state();
        let (table, right) = (words_of(&state), index_of(&state));
        self.indexes.insert(0, right.clone());
        self.indexes.truncate(STALE);
        let request = IndexRequest::Beside(self.request());
        let mut cases = vec![
            self.right(request.clone(), &table, &right),
            self.faulty(request.clone(), &table, &right, faults),
            self.other_table(request, &table, &right, faults),
        ];
        let other = self.other_request(&state);
        cases.push(self.right(other.clone(), &table, &right));
        cases.push(self.faulty(other.clone(), &table, &right, faults));
        if self.prng.once_in(3) {
            cases.push(self.other_table(other, &table, &right, faults));
        }
        cases
    }

    fn right(&mut self, request: IndexRequest, table: &[u64], index: &[u64]) -> (Kinds, Case) {
        let kinds = Kinds {
            table: Kind::Sound,
            fault: None,
        };
        let index = match Called::of(&request) {
            called if called.reads_index() => index.to_vec(),
            _ => random_run(&mut self.prng, index::WORDS),
        };
        (kinds, self.case(request, table.to_vec(), index))
    }

    fn faulty(
        &mut self,
        request: IndexRequest,
        table: &[u64],
        right: &[u64],
        faults: &mut Faults,
    ) -> (Kinds, Case) {
        let stale = self.prng.pick(&self.indexes);
        let (fault, index) = faults.on(Called::of(&request), right, &stale, &mut self.prng);
        let kinds = Kinds {
            table: Kind::Sound,
            fault: Some(fault),
        };
        (kinds, self.case(request, table.to_vec(), index))
    }

    /// On a mutated table, a random one or one of another length; where the mutated one is sound, with its own index or with that of the table before it.
    fn other_table(
        &mut self,
        request: IndexRequest,
        table: &[u64],
        right: &[u64],
        faults: &mut Faults,
    ) -> (Kinds, Case) {
        let (kind, words) = match self.prng.below(8) {
            0 => (Kind::Random, random_words(&mut self.prng)),
            1 => (Kind::OtherLength, other_length(&mut self.prng, table)),
            _ => (Kind::Mutated, mutated(table, &mut self.prng)),
        };
        let own = match sound(&words) && !self.prng.once_in(3) {
            true => state_of(&words).map_or_else(|_| right.to_vec(), |state| index_of(&state)),
            false => right.to_vec(),
        };
        let (fault, index) = if self.prng.once_in(4) {
            let stale = self.prng.pick(&self.indexes);
            let (fault, index) = faults.on(Called::of(&request), &own, &stale, &mut self.prng);
            (Some(fault), index)
        } else {
            (None, own)
        };
        (
            Kinds { table: kind, fault },
            self.case(request, words, index),
        )
    }

    /// Reading by pid, mostly; writing; an opening.
    fn other_request(&mut self, state: &State) -> IndexRequest {
        match self.prng.below(10) {
            0 => IndexRequest::Write,
            1 => IndexRequest::Beside(self.opening()),
            _ => IndexRequest::NamesOf { p: self.pid(state) },
        }
    }

    /// An opening, often refused.
    fn opening(&mut self) -> Request {
        let n = self.prng.pick(&[0, 1, 4, 8, 63, 64, 65, u32::MAX]);
        let hidden = match self.prng.below(3) {
            0 => self.prng.word() >> self.prng.below(64),
            _ => self.prng.word() & 15,
        };
        model::compare::opening(n, hidden)
    }

    /// The pid of an entry or one beside it, the least and the largest of the roster and beyond, any.
    fn pid(&mut self, state: &State) -> u32 {
        let entries = Law.entries(state);
        let size = state.nodes.len() as u64;
        let beyond = (size * u64::from(PIDS_PER_HOST)).min(u64::from(u32::MAX)) as u32;
        let any = self.prng.word() as u32;
        let p = match entries.len() {
            0 => any,
            many => entries[self.prng.below(many as u64) as usize].p,
        };
        match self.prng.below(12) {
            0 => p.wrapping_add(1),
            1 => p.wrapping_sub(1),
            2 => p ^ 1 << self.prng.below(32),
            3 => self.prng.pick(&[0, beyond - 1, beyond, u32::MAX]),
            4 => any,
            _ => p,
        }
    }

    fn case(&mut self, request: IndexRequest, table: Vec<u64>, index: Vec<u64>) -> Case {
        let length = outcome(&table, &index, &request, usize::MAX)
            .outcome
            .list
            .len();
        let lists = match Called::of(&request) {
            Called::NamesOf => true,
            Called::Command(form) => matches!(form, Form::RegisteredNames | Form::OwnSGroups),
            _ => false,
        };
        let out = match lists {
            true => list_room(&mut self.prng, length),
            false => 0,
        };
        let room = answer_length(&mut self.prng);
        Case {
            request,
            table,
            index,
            out: random_run(&mut self.prng, out),
            answer: random_run(&mut self.prng, room),
        }
    }
}
