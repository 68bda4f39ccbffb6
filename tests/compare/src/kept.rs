//! A failing case as a file, and back. Lines: `request LINE`, then `table`, `out` and `answer`, each with its length and the words that aren't zero
//! as PLACE=WORD.

use crate::case::Case;
use model::script::parse;

/// The folder of the failing cases and scripts, which tests/compare.sh runs again before anything else.
pub const FOLDER: &str = concat!(env!("CARGO_MANIFEST_DIR"), "/kept");

/// A run as a line: its name, its length and the words that aren't zero.
pub fn run_text(name: &str, words: &[u64]) -> String {
    let held = words.iter().enumerate().filter(|(_, word)| **word != 0);
    let held: String = held
        .map(|(place, word)| format!(" {place}={word}"))
        .collect();
    format!("{name} {}{held}\n", words.len())
}

/// The run of a line; none where it isn't one of this name.
pub fn run_of(name: &str, line: &str) -> Option<Vec<u64>> {
    let mut fields = line.strip_prefix(name)?.split_whitespace();
    let mut words = vec![0; fields.next()?.parse().ok()?];
    for field in fields {
        let (place, word) = field.split_once('=')?;
        *words.get_mut(place.parse::<usize>().ok()?)? = word.parse().ok()?;
    }
    Some(words)
}

/// The case as text.
pub fn text(case: &Case) -> String {
    format!("request {}\n", case.request.line())
        + &run_text("table", &case.table)
        + &run_text("out", &case.out)
        + &run_text("answer", &case.answer)
}

/// The case of a text; none where it isn't one.
pub fn read(text: &str) -> Option<Case> {
    let mut lines = text.lines();
    let line = lines.next()?.strip_prefix("request ")?;
    let request = parse(format!("{line}\n").as_bytes())?;
    Some(Case {
        request,
        table: run_of("table", lines.next()?)?,
        out: run_of("out", lines.next()?)?,
        answer: run_of("answer", lines.next()?)?,
    })
}
