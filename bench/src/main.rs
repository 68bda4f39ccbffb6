//! Times the proved library against plain Rust written for speed, in one run, and prints the ratios: `bench SEED [PROGRAM WORD..]`. First both are held to
//! the same answers and words on random calls, with an index and without, removals, lookups, namespaces and launches, and to the same lines on the scripts; `bench agree SEED [PROGRAM WORD..]` does that
//! alone, and holds the stack of each call to its bar. `bench main-rows SEED` times the test on the main tables alone, `bench stack SEED` prints what each call takes of the stack, and `bench launch-file SEED` prints the launch file that is timed first.
//! Needs target/native/libsgroup_c.a; `bench/run` builds it, and gives the words that run the script program.

mod agree;
mod api;
mod call;
mod commands;
mod index_api;
mod index_call;
mod indexes;
mod launches;
mod leaving;
mod namespaces;
mod plain;
mod race;
mod rows;
mod scripts;
mod soundness;
mod stack;
mod strangers;
mod tables;

/// Walks of random calls on which both sides agree.
const WALKS: u64 = 200;

/// The word by which both sides are only held to the same, and nothing is timed; the one by which only the main rows of the test are timed; the one by which only the stack
/// of each call is measured; and the one by which the main launch file is printed.
const AGREE: &str = "agree";
const MAIN_ROWS: &str = "main-rows";
const STACK: &str = "stack";
const LAUNCH_FILE: &str = "launch-file";

fn main() {
    let arguments: Vec<String> = std::env::args().skip(1).collect();
    match arguments.as_slice() {
        [word, test] if word == scripts::PLAIN => scripts::run_plain(test),
        [word, seed] if word == MAIN_ROWS => soundness::main_rows(number(seed)),
        [word, seed] if word == STACK => stack::depths(number(seed)),
        [word, seed] if word == LAUNCH_FILE => print_launch_file(number(seed)),
        [word, seed, program @ ..] if word == AGREE => agree_only(number(seed), program),
        [seed, program @ ..] => times(number(seed), program),
        [] => usage(),
    }
}

fn number(seed: &str) -> u64 {
    seed.parse().unwrap_or_else(|_| usage())
}

fn usage() -> ! {
    eprintln!("usage: bench [agree] SEED [PROGRAM WORD..] | bench main-rows SEED | bench stack SEED | bench launch-file SEED");
    std::process::exit(2)
}

/// The seed, and that both sides do the same on random calls.
fn agree_on_calls(seed: u64) {
    println!("seed {seed}");
    let cases = agree::agree(seed, WALKS);
    println!("{cases} random calls: the same answers and words");
}

fn agree_on_namespaces(seed: u64) {
    let spaces = namespaces::agree(seed);
    println!("{spaces} random namespaces: the same answers and words");
}

fn agree_on_removals(seed: u64) {
    let leaving::Agreed { none, some, all } = leaving::agree(seed);
    let removals = none + some + all;
    println!("{removals} random removals: the same answers and words");
    println!("of these {none} drop no name, {some} some, {all} all");
}

fn agree_on_lookups(seed: u64) {
    let strangers::Agreed { members, strangers } = strangers::agree(seed);
    let lookups = members + strangers;
    println!("{lookups} random lookups: the same answers and words");
    println!("of these {members} find a member, {strangers} a stranger");
}

fn agree_on_indexes(seed: u64) {
    let indexes::Agreed {
        calls,
        done,
        mismatches,
    } = indexes::agree(seed);
    println!("{calls} random calls with an index: the same answers and words");
    println!("of these {done} are done, {mismatches} have a wrong index");
}

fn agree_on_launches(seed: u64) {
    let launches = launches::agree(seed);
    println!("{launches} random launches: the same answers, places and words");
}

/// On x86-64, for which the kit compiles.
fn hold_stack(seed: u64) {
    if cfg!(target_arch = "x86_64") {
        let bytes = stack::held(seed);
        println!("no call takes more than {bytes} bytes of stack");
    }
}

fn print_launch_file(seed: u64) {
    let file = launches::main_file(seed);
    std::io::Write::write_all(&mut std::io::stdout(), &file).expect("room for the file");
}

/// Holds both sides to the same, and the stack to its bar; the scripts where the program is given.
fn agree_only(seed: u64, program: &[String]) {
    agree_on_calls(seed);
    agree_on_removals(seed);
    agree_on_lookups(seed);
    agree_on_indexes(seed);
    agree_on_namespaces(seed);
    agree_on_launches(seed);
    hold_stack(seed);
    if !program.is_empty() {
        let scripts = scripts::agree(seed, program);
        println!("{scripts} scripts: the same lines");
    }
}

/// Every table, each once both sides agree.
fn times(seed: u64, program: &[String]) {
    agree_on_calls(seed);
    soundness::times(seed);
    commands::times(seed);
    println!();
    agree_on_removals(seed);
    leaving::times(seed);
    println!();
    agree_on_lookups(seed);
    strangers::times(seed);
    println!();
    agree_on_indexes(seed);
    indexes::times(seed);
    soundness::growth(seed);
    stack::depths(seed);
    println!();
    agree_on_namespaces(seed);
    namespaces::times(seed);
    println!();
    agree_on_launches(seed);
    launches::times(seed);
    if !program.is_empty() {
        scripts::times(seed, program);
    }
}
