//! A failing launch made smaller, as a file, and back. Lines: `launch N HIDDEN START`, then `book` and `file` with their bytes in pairs of hexadecimal
//! digits, then `table` and `answer`, each with its length and the words that aren't zero as PLACE=WORD.

use crate::kept;
use crate::launch::Case;
use model::launch_gen::Launch;

/// The case as text.
pub fn text(case: &Case) -> String {
    let given = &case.given;
    let bytes = |name: &str, bytes: &[u8]| {
        let pairs: String = bytes.iter().map(|byte| format!("{byte:02x}")).collect();
        format!("{name} {pairs}\n")
    };
    format!("launch {} {} {}\n", given.n, given.hidden, given.start)
        + &bytes("book", &given.book)
        + &bytes("file", &given.file)
        + &kept::run_text("table", &case.table)
        + &kept::run_text("answer", &case.answer)
}

/// The case of a text; none where it isn't one.
pub fn read(text: &str) -> Option<Case> {
    let mut lines = text.lines();
    let numbers: Option<Vec<u64>> = lines
        .next()?
        .strip_prefix("launch ")?
        .split(' ')
        .map(|number| number.parse().ok())
        .collect();
    let [n, hidden, start] = numbers?[..] else {
        return None;
    };
    let (book, file) = (lines.next()?, lines.next()?);
    Some(Case {
        given: Launch {
            n: n.try_into().ok()?,
            hidden,
            start: start.try_into().ok()?,
            book: bytes_of(book.strip_prefix("book ")?)?,
            file: bytes_of(file.strip_prefix("file ")?)?,
        },
        table: kept::run_of("table", lines.next()?)?,
        answer: kept::run_of("answer", lines.next()?)?,
    })
}

fn bytes_of(pairs: &str) -> Option<Vec<u8>> {
    let starts = (0..pairs.len()).step_by(2);
    starts
        .map(|start| u8::from_str_radix(pairs.get(start..start + 2)?, 16).ok())
        .collect()
}

/// Lines of a book from which some are taken out; with more it would take too long.
const LONGEST_BOOK: usize = 1_000;

/// A smaller case that still fails: bytes of the file and lines of the book are taken out, words of the runs become zero.
pub fn smaller(case: &Case, fails: &dyn Fn(&Case) -> bool) -> Case {
    let mut best = case.clone();
    let zeros = Case {
        table: vec![0; best.table.len()],
        answer: vec![0; best.answer.len()],
        ..best.clone()
    };
    if fails(&zeros) {
        best = zeros;
    }
    let bytes: Vec<Vec<u8>> = best.given.file.iter().map(|byte| vec![*byte]).collect();
    best.given.file = fewer(bytes, &|file| {
        let mut tried = best.clone();
        tried.given.file = file;
        fails(&tried)
    });
    let lines = best.given.book.split_inclusive(|byte| *byte == b'\n');
    let lines: Vec<Vec<u8>> = lines.map(<[u8]>::to_vec).collect();
    if lines.len() <= LONGEST_BOOK {
        best.given.book = fewer(lines, &|book| {
            let mut tried = best.clone();
            tried.given.book = book;
            fails(&tried)
        });
    }
    best
}

/// What is left of these parts, joined, once every stretch of them that isn't needed is taken out, the long ones first.
fn fewer(mut parts: Vec<Vec<u8>>, fails: &dyn Fn(Vec<u8>) -> bool) -> Vec<u8> {
    let mut stretch = parts.len();
    while stretch > 0 {
        let mut start = 0;
        while start < parts.len() {
            let end = (start + stretch).min(parts.len());
            let rest = [&parts[..start], &parts[end..]].concat();
            if fails(rest.concat()) {
                parts = rest;
            } else {
                start = end;
            }
        }
        stretch /= 2;
    }
    parts.concat()
}
