//! Comparison of the compiled program with the model on scripts: `scripts SEED COUNT PROGRAM [WORD..]`, or `scripts again FILE PROGRAM [WORD..]`.
//! Script k has the seed SEED + k; the fixed scripts come first. PROGRAM with its words is run with the script on standard input. A script that
//! differs is made shorter and kept in tests/compare/kept/. The status is 0 where every printed byte is the model's, nothing comes on standard
//! error, and each run ends in time.

use compare::kept;
use compare::scripts::{fixed, random};
use model::shrink::{keep, shrunk};
use std::fs;
use std::io::{Read, Write};
use std::path::Path;
use std::process::{Child, Command, ExitCode, ExitStatus, Stdio};
use std::thread::{self, JoinHandle};
use std::time::{Duration, Instant};

/// How long one run of the program may take.
const RUN_LIMIT: Duration = Duration::from_secs(60);
/// How long a failing script is made shorter.
const SHRINK_LIMIT: Duration = Duration::from_secs(300);

fn main() -> ExitCode {
    let arguments: Vec<String> = std::env::args().skip(1).collect();
    match arguments.as_slice() {
        [word, file, program @ ..] if word == "again" && !program.is_empty() => {
            again(file, program)
        }
        [seed, count, program @ ..] if !program.is_empty() => match (seed.parse(), count.parse()) {
            (Ok(seed), Ok(count)) => all(seed, count, program),
            _ => usage(),
        },
        _ => usage(),
    }
}

fn usage() -> ExitCode {
    eprintln!("usage: scripts SEED COUNT PROGRAM [WORD..] | scripts again FILE PROGRAM [WORD..]");
    ExitCode::from(2)
}

/// What the program printed; the reason where it could not be run or failed.
fn printed(program: &[String], script: &[u8]) -> Result<Vec<u8>, String> {
    let mut child = Command::new(&program[0])
        .args(&program[1..])
        .stdin(Stdio::piped())
        .stdout(Stdio::piped())
        .stderr(Stdio::piped())
        .spawn()
        .map_err(|error| format!("{}: {error}", program[0]))?;
    let mut input = child.stdin.take().ok_or("no standard input")?;
    let output = all_of(child.stdout.take().ok_or("no standard output")?);
    let errors = all_of(child.stderr.take().ok_or("no standard error")?);
    let bytes = script.to_vec();
    // A program that stops reading early closes the pipe; what it printed says the rest.
    let feeder = thread::spawn(move || drop(input.write_all(&bytes)));
    let status = ended(&mut child)?;
    feeder.join().map_err(|_| "the script could not be fed")?;
    let output = output.join().map_err(|_| "the output could not be read")?;
    let errors = errors.join().map_err(|_| "the errors could not be read")?;
    if !status.success() || !errors.is_empty() {
        let said = String::from_utf8_lossy(&errors);
        return Err(format!("the program ended with {status} and said {said:?}"));
    }
    Ok(output)
}

/// Reads a pipe to its end.
fn all_of(mut pipe: impl Read + Send + 'static) -> JoinHandle<Vec<u8>> {
    thread::spawn(move || {
        let mut bytes = Vec::new();
        // What was read before an error is compared like the rest.
        drop(pipe.read_to_end(&mut bytes));
        bytes
    })
}

/// The status of a program that ends in time; one that doesn't is ended.
fn ended(child: &mut Child) -> Result<ExitStatus, String> {
    let limit = Instant::now() + RUN_LIMIT;
    loop {
        let status = child.try_wait().map_err(|error| error.to_string())?;
        if let Some(status) = status {
            return Ok(status);
        }
        if Instant::now() > limit {
            let end = child.kill().and_then(|()| child.wait());
            end.map_err(|error| error.to_string())?;
            return Err(format!("the program ran longer than {RUN_LIMIT:?}"));
        }
        thread::sleep(Duration::from_millis(1));
    }
}

/// How the program differs from the model on a script; none where it doesn't.
fn difference(program: &[String], script: &[u8]) -> Option<String> {
    let theirs = model::script::run(script);
    let ours = match printed(program, script) {
        Ok(bytes) => bytes,
        Err(reason) => return Some(reason),
    };
    if ours == theirs {
        return None;
    }
    let lines = |bytes: &[u8]| -> Vec<String> {
        String::from_utf8_lossy(bytes)
            .lines()
            .map(str::to_string)
            .collect()
    };
    let (a, b) = (lines(&ours), lines(&theirs));
    let line = (0..a.len().max(b.len()))
        .find(|i| a.get(*i) != b.get(*i))
        .unwrap_or(a.len());
    Some(format!(
        "line {}: printed {:?}, the model {:?}",
        line + 1,
        a.get(line),
        b.get(line)
    ))
}

fn again(file: &str, program: &[String]) -> ExitCode {
    let verdict = match fs::read(file) {
        Ok(script) => difference(program, &script),
        Err(error) => Some(error.to_string()),
    };
    let failed = verdict.is_some();
    println!(
        "{file}: {}",
        verdict.unwrap_or_else(|| "agrees".to_string())
    );
    ExitCode::from(u8::from(failed))
}

fn all(seed: u64, count: u64, program: &[String]) -> ExitCode {
    println!("scripts: seed {seed}, {count} random scripts");
    let fixed = fixed()
        .into_iter()
        .map(|(name, script)| (name.to_string(), script));
    let random = (0..count).map(|k| ((seed + k).to_string(), random(seed + k)));
    let (mut scripts, mut lines) = (0, 0);
    for (name, script) in fixed.chain(random) {
        scripts += 1;
        lines += script.iter().filter(|byte| **byte == b'\n').count();
        if let Some(wrong) = difference(program, &script) {
            report(&name, &script, program, &wrong);
            return ExitCode::FAILURE;
        }
    }
    println!("scripts: {scripts} scripts of {lines} lines, 0 differences");
    ExitCode::SUCCESS
}

fn report(name: &str, script: &[u8], program: &[String], wrong: &str) {
    println!("scripts: {name}: {wrong}");
    let limit = Instant::now() + SHRINK_LIMIT;
    let small = shrunk(script, &|bytes| {
        Instant::now() < limit && difference(program, bytes).is_some()
    });
    match keep(Path::new(kept::FOLDER), &format!("script-{name}"), &small) {
        Ok(path) => println!("scripts: made shorter and kept in {}:", path.display()),
        Err(error) => println!("scripts: it can't be kept, {error}:"),
    }
    println!("{}", String::from_utf8_lossy(&small));
    println!("{}", difference(program, &small).unwrap_or_default());
}
