//! What the tests share: running lines, the words of a run, seeds, and random
//! scripts whose failing cases are shrunk and kept.

use model::answer::Answer;
use model::command::Request;
use model::compare::Outcome;
use model::generate::{script, Generator};
use model::index::{self, outcome_under, IndexRequest, ENTRY};
use model::rules::{Law, Rules};
use model::script::{parse, run, Session, ROOM};
use model::shrink::{keep, shrunk};
use model::state::State;
use model::table::{words_of, WORDS};
use std::path::Path;

/// The number in this environment variable, or the usual one.
fn setting(name: &str, usual: u64) -> u64 {
    match std::env::var(name) {
        Ok(text) => text.parse().expect("a decimal number"),
        Err(_) => usual,
    }
}

/// The seed of a random test, printed so that the test can be run again with
/// MODEL_SEED.
pub fn seed() -> u64 {
    let seed = setting("MODEL_SEED", 1);
    println!("seed {seed}");
    seed
}

/// How many rounds a random test runs; MODEL_ROUNDS overrides the usual number.
pub fn rounds(usual: u64) -> u64 {
    setting("MODEL_ROUNDS", usual)
}

/// A random sound table: a random run of well formed requests from an opening.
pub fn sound_table(seed: u64) -> Vec<u64> {
    let mut generator = Generator::new(seed);
    let steps = 1 + generator.prng.below(160);
    for _ in 0..steps {
        generator.request();
    }
    words_of(&generator.opened_state())
}

/// The request of a line that must be well formed.
pub fn request(line: &str) -> Request {
    parse(format!("{line}\n").as_bytes()).unwrap_or_else(|| panic!("bad line: {line}"))
}

/// Runs lines, each beside what it must print.
pub fn expect(lines: &[(&str, &str)]) {
    expect_after(&[], lines);
}

/// The same after lines whose answers don't matter here.
pub fn expect_after(before: &[String], lines: &[(&str, &str)]) {
    let mut session = Session::new(&Law);
    for line in before {
        session.answer(&request(line));
    }
    for (line, printed) in lines {
        assert_eq!(
            session.print(format!("{line}\n").as_bytes()),
            *printed,
            "at {line:?}"
        );
    }
}

/// What a script of these lines prints under these rules, line by line.
fn printed_under(rules: &dyn Rules, lines: &[&str]) -> Vec<String> {
    let mut session = Session::new(rules);
    let print = |line: &&str| session.print(format!("{line}\n").as_bytes());
    lines.iter().map(print).collect()
}

/// What a script prints under the documents and under a wrong reading.
pub fn told_apart(wrong: &dyn Rules, script: &[(&str, &str, &str)]) {
    let lines: Vec<&str> = script.iter().map(|(line, _, _)| *line).collect();
    let by_law: Vec<&str> = script.iter().map(|(_, law, _)| *law).collect();
    let by_wrong: Vec<&str> = script.iter().map(|(_, _, wrong)| *wrong).collect();
    assert_eq!(printed_under(&Law, &lines), by_law);
    assert_eq!(printed_under(wrong, &lines), by_wrong);
    assert_ne!(by_law, by_wrong);
}

/// What a whole script prints, as text.
pub fn printed(script: &str) -> String {
    String::from_utf8(run(script.as_bytes())).expect("printed bytes are text")
}

/// The state after these lines.
pub fn state_after(lines: &[&str]) -> State {
    let mut session = Session::new(&Law);
    for line in lines {
        session.answer(&request(line));
    }
    session.state.expect("the lines open a table")
}

/// The words of a run that may not have opened a table yet.
pub fn words_of_run(state: &Option<State>) -> Vec<u64> {
    state.as_ref().map_or_else(|| vec![0; WORDS], words_of)
}

/// A table given by its words that aren't zero.
pub fn table(words: &[(usize, u64)]) -> Vec<u64> {
    let mut table = vec![0; WORDS];
    for (place, word) in words {
        table[*place] = *word;
    }
    table
}

/// What the program would print for an outcome.
pub fn printed_outcome(told: &Outcome) -> String {
    let kinds = "ok true false error undefined pid group nodes list";
    let kind = kinds.split(' ').nth(told.kind as usize - 1);
    let fields = match told.kind {
        6 => vec![told.first],
        7 | 8 => vec![told.first, told.second],
        9 => [&[told.first], told.list.as_slice()].concat(),
        _ => Vec::new(),
    };
    let fields: String = fields.iter().map(|field| format!(" {field}")).collect();
    format!("{}{fields} {}", kind.expect("nine kinds"), told.reason)
}

/// A table and an index beside it, held from call to call.
pub struct Beside<'a> {
    rules: &'a dyn Rules,
    pub table: Vec<u64>,
    pub index: Vec<u64>,
}

impl<'a> Beside<'a> {
    /// A table and an index of zero words.
    pub fn new(rules: &'a dyn Rules) -> Beside<'a> {
        Beside {
            rules,
            table: vec![0; WORDS],
            index: vec![0; index::WORDS],
        }
    }

    /// The same after these lines, of which none may be refused.
    pub fn after(rules: &'a dyn Rules, lines: &[&str]) -> Beside<'a> {
        let mut beside = Beside::new(rules);
        for line in lines {
            let printed = beside.print(line);
            assert!(printed.ends_with(" 0"), "{line}: {printed}");
        }
        beside
    }

    /// What a request prints, with an answer run of the program's length.
    pub fn ask(&mut self, request: &IndexRequest) -> String {
        let told = outcome_under(self.rules, &self.table, &self.index, request, ROOM);
        self.table = told.outcome.table.clone();
        self.index = told.index;
        printed_outcome(&told.outcome)
    }

    /// What a line of a script prints with the index, `names_of P` or `index`.
    pub fn print(&mut self, line: &str) -> String {
        self.ask(&index_request(line))
    }

    /// Runs lines, each beside what it must print.
    pub fn expect(&mut self, lines: &[(&str, &str)]) {
        for (line, printed) in lines {
            assert_eq!(self.print(line), *printed, "at {line:?}");
        }
    }

    /// The used entries of the index: pid, s_group and name; the rest must be zero.
    pub fn entries(&self) -> Vec<(u64, u64, u64)> {
        let pairs: Vec<&[u64]> = self.index.chunks(ENTRY).collect();
        let used = pairs.iter().filter(|pair| pair[0] != 0).count();
        let unused = &pairs[used..];
        assert!(unused.iter().all(|pair| pair.iter().all(|word| *word == 0)));
        let entry = |pair: &&[u64]| (pair[0] >> 32, pair[0] & 0xFFFF_FFFF, pair[1]);
        pairs[..used].iter().map(entry).collect()
    }
}

/// A line of a script as a call with an index; or `names_of P`, or `index`.
pub fn index_request(line: &str) -> IndexRequest {
    match line.split_once(' ') {
        None => IndexRequest::Write,
        Some(("names_of", p)) => IndexRequest::NamesOf {
            p: p.parse().expect("a pid"),
        },
        Some(_) => IndexRequest::Beside(request(line)),
    }
}

/// One well formed line of a script: the request, its answer, and the state on
/// both sides of it.
pub struct Seen {
    pub request: Request,
    pub answer: Answer,
    pub before: Option<State>,
    pub after: Option<State>,
}

/// Shows every well formed line of a script to a check. Bad lines must leave
/// the state as it was.
pub fn each_step(script: &[u8], check: &dyn Fn(&Seen) -> Result<(), String>) -> Result<(), String> {
    let mut session = Session::new(&Law);
    for line in script.split_inclusive(|byte| *byte == b'\n') {
        let before = session.state.clone();
        let Some(request) = parse(line) else {
            session.print(line);
            same(&session.state, &before, "a bad line changed the state")?;
            continue;
        };
        let answer = session.answer(&request);
        let seen = Seen {
            request,
            answer,
            before,
            after: session.state.clone(),
        };
        check(&seen).map_err(|wrong| format!("{wrong} at {:?}", seen.request.line()))?;
    }
    Ok(())
}

/// An error with this message unless both are the same.
pub fn same<T: PartialEq>(one: &T, other: &T, wrong: &str) -> Result<(), String> {
    holds(one == other, wrong)
}

/// An error with this message unless it holds.
pub fn holds(it: bool, wrong: &str) -> Result<(), String> {
    if it {
        Ok(())
    } else {
        Err(wrong.to_string())
    }
}

/// Runs a check on random scripts. A failing one is shrunk, kept as a file under
/// `kept`, and reported with its seed.
pub fn on_random_scripts(
    name: &str,
    usual_rounds: u64,
    lines: usize,
    check: &dyn Fn(&[u8]) -> Result<(), String>,
) {
    let first = seed();
    for seed in first..first + rounds(usual_rounds) {
        let whole = script(seed, lines);
        if check(&whole).is_ok() {
            continue;
        }
        let short = shrunk(&whole, &|script| check(script).is_err());
        let folder = Path::new(env!("CARGO_MANIFEST_DIR")).join("kept");
        let path = keep(&folder, &format!("{name}-{seed}"), &short).expect("the file is written");
        let wrong = check(&short).expect_err("the short script fails");
        panic!("{name}, seed {seed}: {wrong}; kept as {}", path.display());
    }
}

/// The scripts kept from earlier failures.
pub fn kept_scripts() -> Vec<Vec<u8>> {
    let folder = Path::new(env!("CARGO_MANIFEST_DIR")).join("kept");
    let Ok(entries) = std::fs::read_dir(folder) else {
        return Vec::new();
    };
    entries
        .map(|entry| std::fs::read(entry.expect("an entry").path()).expect("a kept script"))
        .collect()
}
