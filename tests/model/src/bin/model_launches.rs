//! Writes random launches into a folder, with a list of them:
//! `model-launches SEED FILES CHANGES FOLDER`. Each launch file stands there
//! with so many texts made of it by changing single bytes.

use model::launch_gen::{changed, fitting_launch, Launch};
use model::launch_list::write;
use model::prng::Prng;
use std::path::Path;
use std::process::ExitCode;

fn main() -> ExitCode {
    let arguments: Vec<String> = std::env::args().skip(1).collect();
    let [seed, files, changes, folder] = arguments.as_slice() else {
        return usage();
    };
    let (Ok(seed), Ok(files), Ok(changes)) = (seed.parse(), files.parse(), changes.parse()) else {
        return usage();
    };
    match write(Path::new(folder), &launches(seed, files, changes)) {
        Ok(()) => ExitCode::SUCCESS,
        Err(error) => {
            eprintln!("{folder}: {error}");
            ExitCode::FAILURE
        }
    }
}

fn usage() -> ExitCode {
    eprintln!("usage: model-launches SEED FILES CHANGES FOLDER");
    ExitCode::from(2)
}

fn launches(seed: u64, files: u64, changes: u64) -> Vec<Launch> {
    let mut launches = Vec::new();
    for k in 0..files {
        let mut prng = Prng::new(seed + k);
        let whole = fitting_launch(&mut prng);
        for _ in 0..changes {
            let mut other = whole.clone();
            other.file = changed(&whole.file, &mut prng);
            launches.push(other);
        }
        launches.push(whole);
    }
    launches
}
