//! A failing call with an index made smaller, as a file, and back. Lines: `request LINE`, `names_of P` or `index`, then `table`, `index`, `out` and `answer`, each
//! with its length and the words that aren't zero as PLACE=WORD.

use crate::case::sound;
use crate::index_case::Case;
use crate::kept::{run_of, run_text};
use crate::parts::{parts, take_out};
use crate::smaller::{lower_numbers, lower_requests, shorten};
use model::command::{Command, Request};
use model::index::{walk, Entry, IndexRequest, ENTRY};
use model::script::parse;
use model::state::State;
use model::table::{state_of, words_of};

/// The case as text.
pub fn text(case: &Case) -> String {
    let request = match &case.request {
        IndexRequest::Beside(request) => format!("request {}", request.line()),
        IndexRequest::NamesOf { p } => format!("names_of {p}"),
        IndexRequest::Write => "index".to_string(),
    };
    format!("{request}\n")
        + &run_text("table", &case.table)
        + &run_text("index", &case.index)
        + &run_text("out", &case.out)
        + &run_text("answer", &case.answer)
}

/// The case of a text; none where it isn't one.
pub fn read(text: &str) -> Option<Case> {
    let mut lines = text.lines();
    let request = match lines.next()?.split_once(' ') {
        None => IndexRequest::Write,
        Some(("names_of", p)) => IndexRequest::NamesOf { p: p.parse().ok()? },
        Some((_, line)) => IndexRequest::Beside(parse(format!("{line}\n").as_bytes())?),
    };
    Some(Case {
        request,
        table: run_of("table", lines.next()?)?,
        index: run_of("index", lines.next()?)?,
        out: run_of("out", lines.next()?)?,
        answer: run_of("answer", lines.next()?)?,
    })
}

/// Whether a case still fails.
type Fails<'a> = &'a dyn Fn(&Case) -> bool;

/// A smaller case that still fails. A sound table is made smaller in the model's state and laid out again, and the index loses what the table loses; of any other,
/// words become zero.
pub fn smaller(case: &Case, fails: Fails) -> Case {
    let mut best = case.clone();
    loop {
        let before = best.clone();
        if sound(&best.table) {
            smaller_state(&mut best, fails);
        } else {
            zeroed(&mut best, fails, |case| &mut case.table);
        }
        zeroed(&mut best, fails, |case| &mut case.index);
        smaller_request(&mut best, fails);
        attempt(&mut best, fails, |case| case.out.fill(0));
        attempt(&mut best, fails, |case| case.answer.fill(0));
        while attempt(&mut best, fails, |case| shorten(&mut case.out)) {}
        if best == before {
            return best;
        }
    }
}

/// Takes the change where the case still fails; says whether it did.
fn attempt(best: &mut Case, fails: Fails, change: impl Fn(&mut Case)) -> bool {
    let mut tried = best.clone();
    change(&mut tried);
    let taken = tried != *best && fails(&tried);
    if taken {
        *best = tried;
    }
    taken
}

/// Takes out each part of the state that isn't needed.
fn smaller_state(best: &mut Case, fails: Fails) {
    for part in state_of(&best.table).iter().flat_map(parts) {
        attempt(best, &|case| sound(&case.table) && fails(case), |case| {
            let Ok(before) = state_of(&case.table) else {
                return;
            };
            // A request that names no node stays as it is.
            let mut none = Request::Call {
                caller: 0,
                command: Command::OwnNodes,
            };
            let request = match &mut case.request {
                IndexRequest::Beside(request) => request,
                _ => &mut none,
            };
            let mut state = before.clone();
            take_out(&part, &mut state, request);
            case.table = words_of(&state);
            case.index = carried(&case.index, &before, &state);
        });
    }
}

/// The index with its right entries as they are after a change of the state: gone with their names, or with another pid. All other words stay.
fn carried(index: &[u64], before: &State, after: &State) -> Vec<u64> {
    let moved = |entry: &Entry| {
        let group = after.s_groups.get(&entry.s)?;
        let p = *group.names.get(&entry.n)?;
        Some(Entry { p, ..*entry }.words().to_vec())
    };
    let entries = walk(before);
    let rows = index.chunks(ENTRY).filter_map(|row| {
        let right = entries.iter().find(|entry| entry.words() == row);
        right.map_or_else(|| Some(row.to_vec()), moved)
    });
    let mut words: Vec<u64> = rows.flatten().collect();
    words.resize(index.len(), 0);
    words
}

/// Words of a run become zero.
fn zeroed(best: &mut Case, fails: Fails, run: impl Fn(&mut Case) -> &mut Vec<u64>) {
    let used: Vec<usize> = run(best)
        .iter()
        .enumerate()
        .filter(|(_, word)| **word != 0)
        .map(|(place, _)| place)
        .collect();
    for place in used {
        attempt(best, fails, |case| run(case)[place] = 0);
    }
}

/// Lowers the numbers of the request.
fn smaller_request(best: &mut Case, fails: Fails) {
    let others: Vec<IndexRequest> = match &best.request {
        IndexRequest::Beside(request) => {
            let lower = lower_requests(request).into_iter();
            lower.map(IndexRequest::Beside).collect()
        }
        IndexRequest::NamesOf { p } => {
            let lower = lower_numbers(u64::from(*p)).into_iter();
            lower
                .map(|p| IndexRequest::NamesOf { p: p as u32 })
                .collect()
        }
        IndexRequest::Write => Vec::new(),
    };
    for other in others {
        if attempt(best, fails, |case| case.request = other.clone()) {
            return;
        }
    }
}
