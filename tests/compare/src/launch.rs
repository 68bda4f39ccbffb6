//! One launch with its lent runs, and how the library's outcome differs from the model's.

use crate::library::{is_sound, ANSWER_WORDS, NO_ROOM};
use model::launch::{launch, Book};
use model::launch_gen::{self, Launch};
use model::launch_list::Made;
use model::mutate::random_words;
use model::prng::Prng;
use model::table::WORDS;

extern "C" {
    fn sgroup_launch(
        table: *mut u64,
        table_len: usize,
        n: u32,
        hidden: u64,
        start: u32,
        book: *const u8,
        book_len: usize,
        file: *const u8,
        file_len: usize,
        answer: *mut u64,
        answer_len: usize,
    ) -> u32;
}

/// A launch with the runs that are lent to it.
#[derive(Clone, Debug, PartialEq, Eq)]
pub struct Case {
    pub given: Launch,
    pub table: Vec<u64>,
    pub answer: Vec<u64>,
}

/// What is there after a launch.
#[derive(Clone, Debug, PartialEq, Eq)]
pub struct Ran {
    pub returned: u32,
    pub table: Vec<u64>,
    pub answer: Vec<u64>,
}

/// Runs the case through the library.
pub fn ran(case: &Case) -> Ran {
    let (mut table, mut answer) = (case.table.clone(), case.answer.clone());
    let given = &case.given;
    // The runs are four slices that the borrow checker keeps apart, and each length is its slice's.
    let returned = unsafe {
        sgroup_launch(
            table.as_mut_ptr(),
            table.len(),
            given.n,
            given.hidden,
            given.start,
            given.book.as_ptr(),
            given.book.len(),
            given.file.as_ptr(),
            given.file.len(),
            answer.as_mut_ptr(),
            answer.len(),
        )
    };
    Ran {
        returned,
        table,
        answer,
    }
}

/// What the model says the same runs are afterwards.
pub fn expected(case: &Case) -> Ran {
    let mut answer = case.answer.clone();
    if answer.len() < ANSWER_WORDS {
        return Ran {
            returned: NO_ROOM,
            table: case.table.clone(),
            answer,
        };
    }
    let Launch {
        n,
        hidden,
        start,
        book,
        file,
    } = &case.given;
    let told = launch(&case.table, *n, *hidden, *start, book, file);
    let reason = told.answer.reason.number();
    let kind = u64::from(told.answer.value.kind());
    answer[..ANSWER_WORDS].copy_from_slice(&[kind, told.place as u64, 0, u64::from(reason)]);
    Ran {
        returned: reason,
        table: told.table,
        answer,
    }
}

/// What the library returns on this case, and how it differs there from the model, or from what 02 says of every launch; none where it doesn't.
pub fn judged(case: &Case) -> (u32, Option<String>) {
    let ours = ran(case);
    (ours.returned, different(case, &ours, &expected(case)))
}

fn different(case: &Case, ours: &Ran, theirs: &Ran) -> Option<String> {
    if ours.returned != theirs.returned {
        return Some(format!(
            "returned {}, the model {}",
            ours.returned, theirs.returned
        ));
    }
    let runs = [
        ("answer", &ours.answer, &theirs.answer),
        ("table", &ours.table, &theirs.table),
    ];
    for (run, ours, theirs) in runs {
        if let Some(place) = (0..ours.len()).find(|i| ours[*i] != theirs[*i]) {
            return Some(format!(
                "{run} word {place} is {}, the model's {}",
                ours[place], theirs[place]
            ));
        }
    }
    if ours.returned == 0 {
        return (!is_sound(&ours.table)).then(|| "the table is not sound".to_string());
    }
    (ours.table != case.table).then(|| "a refusal left other words".to_string())
}

/// The random case of a seed.
pub fn random(seed: u64) -> Case {
    let mut prng = Prng::new(seed);
    let given = launch_gen::launch(&mut prng);
    with_runs(given, &mut prng)
}

/// The launch with random runs: the table mostly of its length, the answer mostly of four words.
fn with_runs(given: Launch, prng: &mut Prng) -> Case {
    let mut table = random_words(prng);
    if prng.once_in(12) {
        let length = prng.pick(&[0, 1, WORDS - 1, WORDS + 1, 2 * WORDS]);
        table.resize(length, 7);
    }
    let length = match prng.below(24) {
        0 => prng.below(ANSWER_WORDS as u64),
        1..=4 => ANSWER_WORDS as u64 + prng.below(5),
        _ => ANSWER_WORDS as u64,
    };
    let answer = (0..length).map(|_| prng.word()).collect();
    Case {
        given,
        table,
        answer,
    }
}

/// Cases at the edges, each with a name: books as large as they may be and larger, and texts without a byte.
pub fn fixed() -> Vec<(&'static str, Case)> {
    let mut prng = Prng::new(1);
    let small = launch_gen::fitting_launch(&mut prng);
    let (mut no_book, mut no_file) = (small.clone(), small);
    no_book.book.clear();
    no_file.file.clear();
    let mut launches = launch_gen::fixed();
    launches.extend([("no-book", no_book), ("no-file", no_file)]);
    let cases = launches.into_iter().map(|(name, given)| {
        let case = Case {
            given,
            table: random_words(&mut prng),
            answer: vec![9; ANSWER_WORDS],
        };
        (name, case)
    });
    cases.collect()
}

/// Whether the model finds the book of a case bad.
pub fn bad_book(case: &Case) -> bool {
    Book::read(&case.given.book, case.given.n as usize).is_none()
}

/// The launch through the library on a table of its length, in numbers.
pub fn made(given: &Launch) -> Made {
    let after = ran(&Case {
        given: given.clone(),
        table: vec![0; WORDS],
        answer: vec![0; ANSWER_WORDS],
    });
    Made {
        reason: after.returned,
        place: after.answer[1],
        table: after.table,
    }
}
