//! Random cases from a seed: a walk of requests on sound tables, each also on tables that are mutated, random or of another length.

use crate::case::Case;
use crate::library::ANSWER_WORDS;
use model::command::{Command, Request};
use model::compare::outcome;
use model::generate::Generator;
use model::mutate::{mutated, random_words};
use model::prng::Prng;
use model::table::{words_of, WORDS};

/// What the table of a case is.
#[derive(Clone, Copy, Debug, PartialEq, Eq, PartialOrd, Ord)]
pub enum Kind {
    Sound,
    Mutated,
    Random,
    OtherLength,
}

/// Steps of one walk.
pub const STEPS: usize = 160;

/// A walk: requests that follow each other on a table.
pub struct Walk {
    generator: Generator,
    prng: Prng,
}

impl Walk {
    pub fn new(seed: u64) -> Walk {
        Walk {
            generator: Generator::new(seed),
            prng: Prng::new(!seed),
        }
    }

    /// The cases of the next step: on the walk's table, and on one that is most often not sound.
    pub fn step(&mut self) -> Vec<(Kind, Case)> {
        let table = words_of(&self.generator.opened_state());
        let request = self.generator.request();
        let mut cases = vec![(Kind::Sound, self.case(&request, table.clone()))];
        let (kind, words) = match self.prng.below(8) {
            0 => (Kind::Random, random_words(&mut self.prng)),
            1 => (Kind::OtherLength, other_length(&mut self.prng, &table)),
            _ => (Kind::Mutated, mutated(&table, &mut self.prng)),
        };
        cases.push((kind, self.case(&request, words)));
        cases
    }

    fn case(&mut self, request: &Request, table: Vec<u64>) -> Case {
        let out_len = self.out_length(request, &table);
        let answer_len = answer_length(&mut self.prng);
        Case {
            request: request.clone(),
            table,
            out: random_run(&mut self.prng, out_len),
            answer: random_run(&mut self.prng, answer_len),
        }
    }

    fn out_length(&mut self, request: &Request, table: &[u64]) -> usize {
        let lists = matches!(
            request,
            Request::Call {
                command: Command::RegisteredNames { .. } | Command::OwnSGroups,
                ..
            }
        );
        if !lists {
            return 0;
        }
        let length = outcome(table, request, usize::MAX).list.len();
        list_room(&mut self.prng, length)
    }
}

/// A length for the answer run: mostly as long as an answer, now and then longer or too short.
pub fn answer_length(prng: &mut Prng) -> usize {
    match prng.below(24) {
        0 => prng.below(ANSWER_WORDS as u64) as usize,
        1..=4 => ANSWER_WORDS + prng.below(5) as usize,
        _ => ANSWER_WORDS,
    }
}

/// A length for the run of a list: as long as the list, one shorter, longer, or empty.
pub fn list_room(prng: &mut Prng, length: usize) -> usize {
    match prng.below(6) {
        0 | 1 => length,
        2 => length.saturating_sub(1),
        3 => 0,
        4 => prng.below(length as u64 + 1) as usize,
        _ => length + 1 + prng.below(70) as usize,
    }
}

/// The table cut off or with zeros behind it.
pub fn other_length(prng: &mut Prng, table: &[u64]) -> Vec<u64> {
    let length = match prng.below(4) {
        0 => WORDS - 1,
        1 => WORDS + 1,
        2 => prng.below(8) as usize,
        _ => prng.below(2 * WORDS as u64) as usize,
    };
    let length = if length == WORDS { WORDS + 2 } else { length };
    let mut words = table.to_vec();
    words.resize(length, 0);
    words
}

/// So many random words.
pub fn random_run(prng: &mut Prng, length: usize) -> Vec<u64> {
    (0..length).map(|_| prng.word()).collect()
}
