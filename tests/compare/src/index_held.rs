//! A table and an index that stay in one place from call to call, with guards around every lent run.

use crate::index_case::{expected, Case, Ran};
use crate::indexed;
use crate::library::ANSWER_WORDS;
use model::index::{self, IndexRequest};
use model::state::{MOST_GROUPS, MOST_NAMES};
use model::table;

/// Words of a guard, and what they hold.
const GUARD: usize = 8;
const MARK: u64 = 0x6775_6172_645f_5f5f;
/// Words of the run for lists.
const LIST_ROOM: usize = 2 * MOST_GROUPS + MOST_NAMES;
/// The lent runs in their order: table, index, list, answer.
const LENGTHS: [usize; 4] = [table::WORDS, index::WORDS, LIST_ROOM, ANSWER_WORDS];

/// The runs in one stretch of words: a guard, a run, a guard and so on.
pub struct Held {
    words: Vec<u64>,
}

impl Held {
    /// This table and this index, in the hands of the library from now on.
    pub fn new(table: &[u64], index: &[u64]) -> Held {
        let mut held = Held {
            words: vec![MARK; GUARD],
        };
        for length in LENGTHS {
            held.words.extend(vec![0; length]);
            held.words.extend([MARK; GUARD]);
        }
        let [own_table, own_index, ..] = held.runs();
        own_table.copy_from_slice(table);
        own_index.copy_from_slice(index);
        held
    }

    fn runs(&mut self) -> [&mut [u64]; 4] {
        let mut rest = self.words.as_mut_slice();
        LENGTHS.map(|length| {
            let (_, behind) = std::mem::take(&mut rest).split_at_mut(GUARD);
            let (run, behind) = behind.split_at_mut(length);
            rest = behind;
            run
        })
    }

    /// The call as a case, as the runs are before it.
    pub fn case(&mut self, request: &IndexRequest) -> Case {
        let [table, index, out, answer] = self.runs().map(|run| run.to_vec());
        Case {
            request: request.clone(),
            table,
            index,
            out,
            answer,
        }
    }

    /// Calls the library where the runs stand; how that differs from what the model gives.
    pub fn difference(&mut self, request: &IndexRequest) -> Option<String> {
        let model = expected(&self.case(request));
        let [table, index, out, answer] = self.runs();
        let returned = indexed::call(request, table, index, out, answer);
        let Case {
            table,
            index,
            out,
            answer,
            ..
        } = self.case(request);
        let ours = Ran {
            returned,
            table,
            index,
            out,
            answer,
        };
        ours.difference(&model).or_else(|| self.guard_broken())
    }

    /// A word between the runs that is not what it was.
    fn guard_broken(&self) -> Option<String> {
        let mut start = 0;
        for length in LENGTHS.into_iter().chain([0]) {
            let guard = &self.words[start..start + GUARD];
            if guard.iter().any(|word| *word != MARK) {
                return Some("a word outside the lent runs is written".to_string());
            }
            start += GUARD + length;
        }
        None
    }
}
