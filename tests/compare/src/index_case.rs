//! One call with an index and its lent runs, and how the library's outcome differs from the model's.

use crate::case::different_word;
use crate::indexed;
use crate::library::{self, ANSWER_WORDS, NO_ROOM};
use model::command::Request;
use model::index::{outcome, IndexRequest};

/// A request with the runs that are lent to it.
#[derive(Clone, Debug, PartialEq, Eq)]
pub struct Case {
    pub request: IndexRequest,
    pub table: Vec<u64>,
    pub index: Vec<u64>,
    pub out: Vec<u64>,
    pub answer: Vec<u64>,
}

/// What came of a case.
#[derive(PartialEq, Eq)]
pub struct Ran {
    pub returned: u32,
    pub table: Vec<u64>,
    pub index: Vec<u64>,
    pub out: Vec<u64>,
    pub answer: Vec<u64>,
}

/// The reasons under which every word of table, index and list stays.
const NOTHING_DONE: [u32; 3] = [1, 3, 22];

impl Ran {
    /// The runs as they are lent.
    fn before(case: &Case) -> Ran {
        Ran {
            returned: NO_ROOM,
            table: case.table.clone(),
            index: case.index.clone(),
            out: case.out.clone(),
            answer: case.answer.clone(),
        }
    }

    /// How this differs from what the model has.
    pub fn difference(&self, model: &Ran) -> Option<String> {
        if self.returned != model.returned {
            let (ours, theirs) = (self.returned, model.returned);
            return Some(format!("returned {ours}, the model {theirs}"));
        }
        different_word("answer", &self.answer, &model.answer)
            .or_else(|| different_word("list", &self.out, &model.out))
            .or_else(|| different_word("table", &self.table, &model.table))
            .or_else(|| different_word("index", &self.index, &model.index))
    }
}

/// Runs the case through the library.
pub fn ran(case: &Case) -> Ran {
    let mut after = Ran::before(case);
    let Ran {
        table,
        index,
        out,
        answer,
        ..
    } = &mut after;
    after.returned = indexed::call(&case.request, table, index, out, answer);
    after
}

/// What the model says the same runs are afterwards.
pub fn expected(case: &Case) -> Ran {
    let mut after = Ran::before(case);
    if case.answer.len() < ANSWER_WORDS {
        return after;
    }
    let told = outcome(&case.table, &case.index, &case.request, case.out.len());
    let numbers = &told.outcome;
    after.answer[..ANSWER_WORDS].copy_from_slice(&[
        u64::from(numbers.kind),
        numbers.first,
        numbers.second,
        u64::from(numbers.reason),
    ]);
    after.returned = numbers.reason;
    after.out = numbers.answer_run(&case.out);
    after.table = told.outcome.table;
    after.index = told.index;
    after
}

/// How the library differs from the model on this case, or from what 02 says of every call; none where it doesn't.
pub fn difference(case: &Case) -> Option<String> {
    let ours = ran(case);
    ours.difference(&expected(case))
        .or_else(|| wrote_nothing(case, &ours))
        .or_else(|| as_without(case, &ours))
        .or_else(|| as_written(case, &ours))
}

/// Under 1, 3 and 22 every word stays.
fn wrote_nothing(case: &Case, ours: &Ran) -> Option<String> {
    let stays = ours.table == case.table && ours.index == case.index && ours.out == case.out;
    let wrong = NOTHING_DONE.contains(&ours.returned) && !stays;
    wrong.then(|| format!("reason {} left other words", ours.returned))
}

/// Whether the call was done with its index: it left the index of the table that it left.
fn took_index(case: &Case, ours: &Ran) -> bool {
    match case.request {
        IndexRequest::Beside(Request::Open { .. }) => ours.returned == 0,
        _ => ours.returned != NO_ROOM && !NOTHING_DONE.contains(&ours.returned),
    }
}

/// Where an index is taken, all but the index is as without one.
fn as_without(case: &Case, ours: &Ran) -> Option<String> {
    let mut other = Ran::before(case);
    let request = match &case.request {
        IndexRequest::Beside(request) if took_index(case, ours) => request,
        _ => return None,
    };
    other.returned = library::call(request, &mut other.table, &mut other.out, &mut other.answer);
    other.index.clone_from(&ours.index);
    (other != *ours).then(|| "without an index it is another outcome".to_string())
}

/// Where an index is taken, the one that is left is the one that the library writes for the table that is left.
fn as_written(case: &Case, ours: &Ran) -> Option<String> {
    let (mut table, mut index) = (ours.table.clone(), vec![u64::MAX; ours.index.len()]);
    let answer = &mut [0; ANSWER_WORDS];
    let returned = indexed::call(
        &IndexRequest::Write,
        &mut table,
        &mut index,
        &mut [],
        answer,
    );
    let wrong = took_index(case, ours) && (returned != 0 || index != ours.index);
    wrong.then(|| "the index that is left is not the one that is written".to_string())
}
