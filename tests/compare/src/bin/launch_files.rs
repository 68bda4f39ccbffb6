//! Makes the launches of a list through the library and prints one line for each: `launch-files LIST`.

use compare::launch::made;
use model::launch_list::printed;
use std::io::{self, Write};
use std::path::Path;
use std::process::ExitCode;

fn main() -> ExitCode {
    let arguments: Vec<String> = std::env::args().skip(1).collect();
    let [list] = arguments.as_slice() else {
        eprintln!("usage: launch-files LIST");
        return ExitCode::from(2);
    };
    let lines = printed(Path::new(list), made);
    match lines.and_then(|lines| io::stdout().write_all(lines.as_bytes())) {
        Ok(()) => ExitCode::SUCCESS,
        Err(error) => {
            eprintln!("{list}: {error}");
            ExitCode::FAILURE
        }
    }
}
