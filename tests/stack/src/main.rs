//! Prints what each function of the library for C takes of the stack at most, a line each, the deepest first, and fails where one takes more than a bound:
//! `stack BOUND`, from the root of the repository, on x86-64. A line has the bytes below the frame of the C caller, the name, and the path: what the call
//! itself passes on the stack, then each function with what it has there.

use stack::taken;
use std::process::{Command, ExitCode};

const LIBRARY: &str = "target/native/libsgroup_c.a";
const HEADER: &str = "include/sgroup.h";
const VALUES: &str = "crates/values/src/lib.rt";

fn main() -> ExitCode {
    let arguments: Vec<String> = std::env::args().skip(1).collect();
    let bound = match arguments.as_slice() {
        [bound] => bound.parse().ok(),
        _ => None,
    };
    let Some(bound) = bound else {
        eprintln!("usage: stack BOUND");
        return ExitCode::from(2);
    };
    match held(bound) {
        Ok(()) => ExitCode::SUCCESS,
        Err(what) => {
            eprintln!("stack: {what}");
            ExitCode::FAILURE
        }
    }
}

/// Prints all functions and holds them to the bound.
fn held(bound: i64) -> stack::Result<()> {
    let code = listed(&["-dr", "--no-show-raw-insn"])?;
    let records = listed(&["-r"])?;
    let all = taken(&code, &records, &read(HEADER)?, nested(&read(VALUES)?)?)?;
    for one in &all {
        println!(
            "{:>5} {}: call {} > {}",
            one.bytes, one.name, one.passed, one.path
        );
    }
    let above = all.iter().filter(|one| one.bytes > bound).count();
    match above {
        0 => Ok(()),
        _ => Err(format!(
            "{above} of {} functions take more than {bound} bytes",
            all.len()
        )),
    }
}

/// What objdump says of the library.
fn listed(options: &[&str]) -> stack::Result<String> {
    let mut objdump = Command::new("objdump");
    objdump.env("LC_ALL", "C").args(options).arg(LIBRARY);
    let said = objdump
        .output()
        .map_err(|error| format!("objdump: {error}"))?;
    if !said.status.success() {
        return Err(String::from_utf8_lossy(&said.stderr).into_owned());
    }
    String::from_utf8(said.stdout).map_err(|error| format!("objdump: {error}"))
}

fn read(path: &str) -> stack::Result<String> {
    std::fs::read_to_string(path).map_err(|error| format!("{path}: {error}"))
}

/// How deep brackets nest, by the source of the functions that skip them.
fn nested(source: &str) -> stack::Result<i64> {
    let mut depths = source
        .lines()
        .filter_map(|line| line.strip_prefix("const DEPTH: usize = "));
    match (depths.next(), depths.next()) {
        (Some(depth), None) => depth
            .trim_end_matches(';')
            .parse()
            .map_err(|error| format!("{VALUES}: {error}")),
        _ => Err(format!("{VALUES} does not say how deep brackets nest")),
    }
}
