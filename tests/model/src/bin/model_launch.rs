//! Makes the launches of a list on the model and prints one line for each:
//! `model-launch LIST`.

use model::launch::launch;
use model::launch_gen::Launch;
use model::launch_list::{printed, Made};
use model::table::WORDS;
use std::io::{self, Write};
use std::path::Path;
use std::process::ExitCode;

fn main() -> ExitCode {
    let arguments: Vec<String> = std::env::args().skip(1).collect();
    let [list] = arguments.as_slice() else {
        eprintln!("usage: model-launch LIST");
        return ExitCode::from(2);
    };
    let lines = printed(Path::new(list), made);
    match lines.and_then(|lines| io::stdout().write_all(lines.as_bytes())) {
        Ok(()) => ExitCode::SUCCESS,
        Err(error) => {
            eprintln!("{list}: {error}");
            ExitCode::FAILURE
        }
    }
}

fn made(given: &Launch) -> Made {
    let (book, file) = (&given.book, &given.file);
    let launched = launch(&[0; WORDS], given.n, given.hidden, given.start, book, file);
    Made {
        reason: launched.answer.reason.number(),
        place: launched.place as u64,
        table: launched.table,
    }
}
