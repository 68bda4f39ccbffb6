//! Comparison of the library with the model on launches: `launch SEED LAUNCHES`, or `launch again FILE..` for kept ones. Launch k has the seed SEED + k.
//! Prints what was covered; a launch that differs is made smaller and kept in tests/compare/kept/. The status is 0 where nothing differs and every reason
//! that a launch can have was seen.

use compare::launch::{bad_book, fixed, judged, random, Case};
use compare::library::NO_ROOM;
use compare::{kept, launch_kept};
use std::collections::BTreeMap;
use std::fs;
use std::process::ExitCode;

fn main() -> ExitCode {
    let arguments: Vec<String> = std::env::args().skip(1).collect();
    match arguments.as_slice() {
        [word, files @ ..] if word == "again" && !files.is_empty() => again(files),
        [seed, launches] => match (seed.parse(), launches.parse()) {
            (Ok(seed), Ok(launches)) => launched(seed, launches),
            _ => usage(),
        },
        _ => usage(),
    }
}

fn usage() -> ExitCode {
    eprintln!("usage: launch SEED LAUNCHES | launch again FILE..");
    ExitCode::from(2)
}

/// Makes kept launches once more.
fn again(files: &[String]) -> ExitCode {
    let mut failed = false;
    for file in files {
        let case = fs::read_to_string(file)
            .ok()
            .and_then(|text| launch_kept::read(&text));
        let verdict = match case {
            Some(case) => judged(&case).1,
            None => Some("no launch".to_string()),
        };
        failed |= verdict.is_some();
        println!(
            "{file}: {}",
            verdict.unwrap_or_else(|| "agrees".to_string())
        );
    }
    ExitCode::from(u8::from(failed))
}

/// Every number that a launch can return, of 18 with whether it is for the book.
const OUTCOMES: [(u32, bool); 10] = [
    (0, false),
    (1, false),
    (2, false),
    (7, false),
    (16, false),
    (18, false),
    (18, true),
    (19, false),
    (20, false),
    (NO_ROOM, false),
];

fn launched(seed: u64, launches: u64) -> ExitCode {
    println!("launch: seed {seed}, {launches} launches");
    let mut seen: BTreeMap<(u32, bool), usize> = BTreeMap::new();
    let fixed = fixed().into_iter();
    let named = fixed.map(|(name, case)| (name.to_string(), case));
    let random = (seed..seed + launches).map(|seed| (seed.to_string(), random(seed)));
    for (name, case) in named.chain(random) {
        let (returned, wrong) = judged(&case);
        let of_book = returned == 18 && bad_book(&case);
        *seen.entry((returned, of_book)).or_default() += 1;
        if let Some(wrong) = wrong {
            report(&name, &case, &wrong);
            return ExitCode::FAILURE;
        }
    }
    let cases: usize = seen.values().sum();
    println!("launch: {cases} launches, 0 differences");
    for ((returned, book), times) in &seen {
        let what = if *book { " for the book" } else { "" };
        println!("launch: returned {returned}{what}: {times}");
    }
    let missing = OUTCOMES.iter().filter(|pair| !seen.contains_key(pair));
    let missing: Vec<_> = missing.collect();
    for pair in &missing {
        println!("launch: never seen: {pair:?}");
    }
    ExitCode::from(u8::from(!missing.is_empty()))
}

fn report(name: &str, case: &Case, wrong: &str) {
    println!("launch: {name}: {wrong}");
    let small = launch_kept::smaller(case, &|case| judged(case).1.is_some());
    let path = format!("{}/launch-{name}.launch", kept::FOLDER);
    let text = launch_kept::text(&small);
    match fs::create_dir_all(kept::FOLDER).and_then(|()| fs::write(&path, &text)) {
        Ok(()) => println!("launch: made smaller and kept in {path}:"),
        Err(error) => println!("launch: {path} can't be written, {error}:"),
    }
    print!("{text}");
    println!("{}", String::from_utf8_lossy(&small.given.file));
    println!("{}", judged(&small).1.unwrap_or_default());
}
