//! Prints a random script: `model-gen SEED LINES`. The script is cut at a line
//! that keeps it within 65,536 bytes.

use std::io::{self, Write};
use std::process::ExitCode;

fn main() -> ExitCode {
    let arguments: Vec<String> = std::env::args().skip(1).collect();
    let numbers: Option<Vec<u64>> = arguments.iter().map(|a| a.parse().ok()).collect();
    match numbers.as_deref() {
        Some([seed, lines]) => print_script(*seed, *lines as usize),
        _ => {
            eprintln!("usage: model-gen SEED LINES");
            ExitCode::from(2)
        }
    }
}

fn print_script(seed: u64, lines: usize) -> ExitCode {
    let script = model::generate::script(seed, lines);
    match io::stdout().write_all(&script) {
        Ok(()) => ExitCode::SUCCESS,
        Err(_) => ExitCode::FAILURE,
    }
}
