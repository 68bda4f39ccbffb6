//! Whole scripts through the compiled program and through plain Rust, each in a process of its own whose start is among the time.

use crate::plain::script::{printer, Printer};
use crate::plain::sizes::PIDS_PER_HOST;
use crate::plain::test::{peers, Peer};
use crate::rows::{fastest, Times};
use std::io::Write;
use std::process::{Command, Stdio};
use std::time::Instant;

const RUNS: usize = 60;

/// Plain Rust with each of the tests.
const PEERS: &[Peer<Printer>] = peers!(printer);

/// The word by which this program runs a script in plain Rust; the name of a test comes behind it.
pub const PLAIN: &str = "plain-script";

/// Runs the script of standard input in plain Rust, with the test of this name.
pub fn run_plain(test: &str) {
    let peer = PEERS.iter().find(|peer| peer.test == test);
    let run = peer.expect("the name of a test").functions;
    let mut script = Vec::new();
    std::io::Read::read_to_end(&mut std::io::stdin(), &mut script).expect("a script to read");
    std::io::stdout()
        .write_all(&run(&script))
        .expect("room for what it prints");
}

/// What the program prints for the script.
fn printed(program: &[String], script: &[u8]) -> Vec<u8> {
    let mut child = Command::new(&program[0])
        .args(&program[1..])
        .stdin(Stdio::piped())
        .stdout(Stdio::piped())
        .spawn()
        .expect("the program runs");
    let mut input = child.stdin.take().expect("its standard input");
    input.write_all(script).expect("it takes the script");
    drop(input);
    child.wait_with_output().expect("it ends").stdout
}

/// One run, in milliseconds, until the program has ended.
fn time(program: &[String], script: &[u8]) -> f64 {
    let start = Instant::now();
    std::hint::black_box(printed(program, script));
    start.elapsed().as_nanos() as f64 / 1e6
}

/// As many lookups as a script has room for, on a table that the script fills: 32 s_groups of 32 names.
fn lookups() -> Vec<u8> {
    let mut script = String::from("open 64 0\n");
    for group in 1..=32u64 {
        let set = 0xFFFFu64.rotate_left(group as u32);
        script.push_str(&format!("{group} new_s_group {group} {set}\n"));
    }
    for group in 1..=32u64 {
        for name in 1..=32u64 {
            let pid = name * PIDS_PER_HOST + group;
            script.push_str(&format!("{group} register_name {group} {name} {pid}\n"));
        }
    }
    for k in (1..=32u64).cycle() {
        let line = format!("{k} whereis_name {k} {k}\n");
        if script.len() + line.len() > 65_536 {
            return script.into_bytes();
        }
        script.push_str(&line);
    }
    Vec::new()
}

/// The scripts that are timed, by name.
fn scripts(seed: u64) -> [(&'static str, Vec<u8>); 3] {
    [
        ("no bytes", Vec::new()),
        ("random commands", model::generate::script(seed, 4_000)),
        ("a full table, then lookups", lookups()),
    ]
}

/// The words that run a script in plain Rust.
fn plain(test: &str) -> [String; 3] {
    let own = std::env::current_exe().expect("this program's own path");
    let own = own.to_string_lossy().into_owned();
    [own, PLAIN.to_string(), test.to_string()]
}

/// Holds the program and plain Rust to the same lines on the scripts that are timed; how many there were.
pub fn agree(seed: u64, program: &[String]) -> usize {
    let scripts = scripts(seed);
    for (what, script) in &scripts {
        let ours = printed(program, script);
        for Peer { test, .. } in PEERS {
            let same = ours == printed(&plain(test), script);
            assert!(same, "{what}, {test}: they print the same");
        }
    }
    scripts.len()
}

/// The best of many runs of each script by turns, once both print the same.
pub fn times(seed: u64, program: &[String]) {
    agree(seed, program);
    let sides: Vec<Vec<String>> = std::iter::once(program.to_vec())
        .chain(PEERS.iter().map(|peer| plain(peer.test).to_vec()))
        .collect();
    println!(
        "\n{:<30} {:>8} {:>8} {:>10} {:>9} {:>7}  plain test",
        "whole scripts", "bytes", "lines", "proved ms", "plain ms", "ratio"
    );
    for (what, script) in scripts(seed) {
        let lines = script.iter().filter(|byte| **byte == b'\n').count();
        let mut best = vec![f64::MAX; sides.len()];
        for _ in 0..RUNS {
            for (best, side) in best.iter_mut().zip(&sides) {
                *best = best.min(time(side, &script));
            }
        }
        let Times { ours, theirs, test } = fastest(&best, PEERS);
        println!(
            "{what:<30} {:>8} {lines:>8} {ours:>10.2} {theirs:>9.2} {:>7.2}  {test}",
            script.len(),
            ours / theirs
        );
    }
}
