//! Launches: files and books of a chosen size. Both sides are held to the same answers, places and words on random launches, then timed.

use crate::api::{Api, NO_TEST, PLAIN, PROVED};
use crate::call::Lent;
use crate::commands::BAR;
use crate::plain::sizes::{GROUPS, WORDS};
use crate::race::{best, Plan};
use crate::rows::{heading, row, Times};
use model::launch_gen::{self, changed, Launch};
use model::mutate::random_words;
use model::prng::Prng;
use std::time::Instant;

/// Random launches on which both sides agree, and files with one byte changed.
const RANDOM: u64 = 20_000;
const CHANGED: u64 = 10_000;
/// The reasons that come up among them.
const REASONS: [u32; 8] = [0, 1, 2, 7, 16, 18, 19, 20];
/// Different files of a row, so many that no branch predictor learns them; one, where the book is so long that a launch takes a good part of a second.
const FILES: usize = 8;
const LONG_BOOK: usize = 10_000;
/// Rounds of a row: as many as take this time, within bounds.
const ROUND_NANOS: u64 = 300_000_000;
const FEWEST_ROUNDS: u64 = 2;
const MOST_ROUNDS: u64 = 2_000;

const NODES: usize = 64;
/// The most lines of a book of 64 nodes.
const MOST_LINES: usize = NODES + 65_535;
/// About how many bytes the value has that a file is made to skip.
const SKIPPED: usize = 100_000;
const DEEPEST: usize = 16;
const NODES_A_LINE: usize = 4;

/// How large a launch is: the groups of its file, the nodes of each, the lines of the book.
#[derive(Clone, Copy)]
struct Size {
    groups: usize,
    nodes: usize,
    lines: usize,
}

const MAIN: Size = Size {
    groups: GROUPS,
    nodes: 16,
    lines: 100,
};
const SMALL: Size = Size {
    groups: 3,
    nodes: 5,
    lines: 70,
};

/// One launch on one side: what is returned.
#[inline(always)]
pub fn called(api: &Api, lent: &mut Lent, given: &Launch) -> u32 {
    // The runs are four slices apart from each other, and each length is its slice's.
    unsafe {
        (api.launch)(
            lent.table.as_mut_ptr(),
            lent.table.len(),
            given.n,
            given.hidden,
            given.start,
            given.book.as_ptr(),
            given.book.len(),
            given.file.as_ptr(),
            given.file.len(),
            lent.answer.as_mut_ptr(),
            lent.answer.len(),
        )
    }
}

/// Holds both sides to the same on these runs; what is returned.
fn agreed(lent: &Lent, given: &Launch) -> u32 {
    let outcome = |api| {
        let mut lent = lent.clone();
        (called(api, &mut lent, given), lent)
    };
    let (ours, theirs) = (outcome(&PROVED), outcome(&PLAIN));
    let told = |(returned, lent): &(u32, Lent)| (*returned, lent.answer.clone());
    assert!(
        ours == theirs,
        "{:?}, {:?}: {given:?}",
        told(&ours),
        told(&theirs)
    );
    ours.0
}

/// Runs that no launch leaves so.
fn used() -> Lent {
    Lent::new(&[u64::MAX; WORDS])
}

/// Random words for the runs, now and then of another length.
fn random_runs(prng: &mut Prng) -> Lent {
    let mut lent = Lent::new(&random_words(prng));
    if prng.once_in(12) {
        let length = prng.pick(&[0, WORDS - 1, WORDS + 1]);
        lent.table.resize(length, 7);
    }
    if prng.once_in(12) {
        lent.answer.resize(prng.below(8) as usize, 7);
    }
    lent
}

/// Holds both sides to the same on random launches, among them every reason; how many there were.
pub fn agree(seed: u64) -> u64 {
    let mut prng = Prng::new(seed);
    let mut returned = Vec::new();
    for _ in 0..RANDOM {
        let given = launch_gen::launch(&mut prng);
        returned.push(agreed(&random_runs(&mut prng), &given));
    }
    for _ in 0..CHANGED {
        let mut given = launch(&mut prng, SMALL);
        given.file = changed(&given.file, &mut prng);
        returned.push(agreed(&used(), &given));
    }
    for reason in REASONS {
        assert!(returned.contains(&reason), "no launch for reason {reason}");
    }
    RANDOM + CHANGED
}

/// The atoms of 64 nodes; half of them need quotes, for the dots.
fn node_atoms(prng: &mut Prng) -> Vec<String> {
    let domains = ["", ".example"];
    (1..=NODES)
        .map(|node| format!("node{node}@store{}{}", prng.below(8), prng.pick(&domains)))
        .collect()
}

/// So many atoms of groups; a quarter of them need quotes, for the dashes.
fn group_atoms(prng: &mut Prng, count: usize) -> Vec<String> {
    let kinds = ["group", "group", "group", "till-"];
    (1..=count)
        .map(|group| format!("{}{group}", prng.pick(&kinds)))
        .collect()
}

/// The atom as it is written.
fn written(atom: &str) -> String {
    if atom.contains(['.', '-']) {
        format!("'{atom}'")
    } else {
        atom.to_string()
    }
}

/// The line of a group, broken as in 000.
fn group(name: &str, nodes: &[&String]) -> String {
    let lines = nodes.chunks(NODES_A_LINE).map(|line| {
        let line: Vec<String> = line.iter().map(|atom| written(atom)).collect();
        line.join(", ")
    });
    let nodes: Vec<String> = lines.collect();
    format!(
        "{{{}, normal, [{}]}}",
        written(name),
        nodes.join(",\n     ")
    )
}

/// A launch with a file of these groups, and these pairs before the entry.
fn with_groups(book: &[&[String]], pairs: &str, groups: &[String]) -> Launch {
    let file = format!(
        "[{pairs}{{kernel, [{{s_groups,\n  [{}]}}]}}].\n",
        groups.join(",\n   ")
    );
    let lines = book.iter().flat_map(|atoms| atoms.iter());
    let lines: String = lines.flat_map(|atom| [atom.as_str(), "\n"]).collect();
    Launch {
        n: NODES as u32,
        hidden: 1 << 9,
        start: 0,
        book: lines.into_bytes(),
        file: file.into_bytes(),
    }
}

/// So many of these, in a random order.
fn some<'a>(prng: &mut Prng, atoms: &'a [String], count: usize) -> Vec<&'a String> {
    let mut all: Vec<&String> = atoms.iter().collect();
    for place in 0..count {
        let other = place + prng.below((all.len() - place) as u64) as usize;
        all.swap(place, other);
    }
    all.truncate(count);
    all
}

/// The groups of a file over these atoms.
fn groups(prng: &mut Prng, nodes: &[String], names: &[String], size: Size) -> Vec<String> {
    some(prng, names, size.groups)
        .into_iter()
        .map(|name| group(name, &some(prng, nodes, size.nodes)))
        .collect()
}

/// A random launch of this size that is taken.
fn launch(prng: &mut Prng, size: Size) -> Launch {
    with_pairs(prng, size, "")
}

fn with_pairs(prng: &mut Prng, size: Size, pairs: &str) -> Launch {
    let nodes = node_atoms(prng);
    let names = group_atoms(prng, size.lines - NODES);
    let groups = groups(prng, &nodes, &names, size);
    with_groups(&[&nodes, &names], pairs, &groups)
}

/// The main file.
pub fn main_file(seed: u64) -> Vec<u8> {
    launch(&mut Prng::new(seed), MAIN).file
}

/// So many groups of one name and one list of nodes.
fn repeated(prng: &mut Prng, count: usize) -> Launch {
    let (nodes, names) = (node_atoms(prng), group_atoms(prng, MAIN.lines - NODES));
    let one = group(&names[0], &some(prng, &nodes, 4));
    with_groups(&[&nodes, &names], "", &vec![one; count])
}

/// The main file with a long value that is skipped.
fn long_value(prng: &mut Prng) -> Launch {
    let mut value = String::new();
    while value.len() < SKIPPED {
        let size = prng.below(1 << 20);
        value.push_str(&format!(
            "{{handler, 'printer {size}', [{{size, {size}}}, level, {{[], {{}}}}]}},\n  "
        ));
    }
    with_pairs(prng, MAIN, &format!("{{log, [{value}none]}},\n "))
}

/// A pair whose value has brackets as deep as they may be, and an atom in the innermost.
fn deep_pair() -> String {
    let open: String = "[{".repeat(DEEPEST / 2);
    let close: String = "}]".repeat(DEEPEST / 2);
    format!("{{deep, {open}bottom{close}}}")
}

/// The main file with such a pair before the entry.
fn deep_value(prng: &mut Prng) -> Launch {
    with_pairs(prng, MAIN, &format!("{},\n ", deep_pair()))
}

/// The main file with such a pair behind the entry.
fn deep_end(prng: &mut Prng) -> Launch {
    let mut given = launch(prng, MAIN);
    given.file.truncate(given.file.len() - "].\n".len());
    given
        .file
        .extend_from_slice(format!(",\n {}].\n", deep_pair()).as_bytes());
    given
}

/// As many groups and nodes as the main file has, over the largest book, of lines of 64 bytes that differ in the last.
fn long_prefixes(prng: &mut Prng) -> Launch {
    let atoms = |kind: char, count: usize| -> Vec<String> {
        (0..count)
            .map(|k| format!("{}{kind}{k:05}", "x".repeat(58)))
            .collect()
    };
    let (nodes, names) = (atoms('n', NODES), atoms('g', MOST_LINES - NODES));
    let groups = groups(prng, &nodes, &names, MAIN);
    with_groups(&[&nodes, &names], "", &groups)
}

/// The main file without its full stop, which is refused at its end.
fn unended(prng: &mut Prng) -> Launch {
    let mut given = launch(prng, MAIN);
    given.file.truncate(given.file.len() - ".\n".len());
    given
}

/// Nanoseconds a launch of two sides on these by turns, once both give the same. No launch tests a table.
fn timed(all: &[Launch]) -> Times {
    let sides = [&PROVED, &PLAIN];
    all.iter().for_each(|given| {
        agreed(&used(), given);
    });
    let mut lent = used();
    let start = Instant::now();
    called(&PROVED, &mut lent, &all[0]);
    let once = (start.elapsed().as_nanos() as u64).max(1);
    let rounds = (ROUND_NANOS / once / all.len() as u64).clamp(FEWEST_ROUNDS, MOST_ROUNDS);
    let plan = Plan {
        count: best,
        rounds: rounds as usize,
        turns: all.len(),
    };
    let times = plan.race(
        sides.len(),
        |_, _| {},
        |side, k| match sides.get(side) {
            Some(api) => u64::from(called(api, &mut lent, &all[k])),
            None => all[k].hidden,
        },
    );
    Times {
        ours: times[0] / all.len() as f64,
        theirs: times[1] / all.len() as f64,
        test: NO_TEST,
    }
}

/// The main file, how the time grows, and launches that are there to take long.
pub fn times(seed: u64) {
    let mut prng = Prng::new(seed);
    let mut sized = |size: Size| {
        let files = if size.lines < LONG_BOOK { FILES } else { 1 };
        let all: Vec<Launch> = (0..files).map(|_| launch(&mut prng, size)).collect();
        let Size {
            groups,
            nodes,
            lines,
        } = size;
        let what = format!("{groups} groups of {nodes} nodes, {lines} lines");
        row(&what, &timed(&all), BAR);
    };
    heading("a launch");
    sized(MAIN);
    heading("a launch as the groups grow");
    for groups in [1, 8, 32] {
        sized(Size { groups, ..MAIN });
    }
    heading("a launch as the nodes of a group grow");
    for nodes in [4, 16, 64] {
        sized(Size { nodes, ..MAIN });
    }
    heading("a launch as the book grows");
    for lines in [100, 1_000, LONG_BOOK, MOST_LINES] {
        sized(Size { lines, ..MAIN });
    }
    heading("launches there to take long");
    for (what, given) in hard(&mut prng) {
        row(what, &timed(&[given]), BAR);
    }
}

fn hard(prng: &mut Prng) -> [(&'static str, Launch); 7] {
    [
        ("500 groups of one name and list", repeated(prng, 500)),
        ("1,000 groups of one name and list", repeated(prng, 1_000)),
        ("a skipped value of 100,000 bytes", long_value(prng)),
        ("a value nested to depth 16", deep_value(prng)),
        ("another pair behind the groups", deep_end(prng)),
        ("65,599 lines that differ at their end", long_prefixes(prng)),
        ("refused: no full stop", unended(prng)),
    ]
}

/// The launches whose stack is measured.
pub fn stack_rows(prng: &mut Prng) -> [(&'static str, Launch); 5] {
    [
        ("Launch", launch(prng, MAIN)),
        ("Launch, deep in front", deep_value(prng)),
        ("Launch, deep behind", deep_end(prng)),
        ("Launch, one name", repeated(prng, 4)),
        ("Launch, refused", unended(prng)),
    ]
}
