//! A list of launches, so that a program can make many of them and print one
//! line for each.
//!
//! A line of the list is `N HIDDEN START BOOK FILE`, the last two names of files
//! beside it. Printed is `ok` with `NAME=MEMBERS` for each s_group of the table,
//! ascending by name, or `error REASON PLACE`.

use crate::launch_gen::Launch;
use crate::table::{CONTENTS, GROUP_COUNT, MEMBERS};
use std::fs;
use std::io;
use std::path::Path;

/// What a program made of a launch, in numbers.
pub struct Made {
    pub reason: u32,
    pub place: u64,
    pub table: Vec<u64>,
}

/// The line that is printed.
fn shown(made: &Made) -> String {
    if made.reason != 0 {
        return format!("error {} {}\n", made.reason, made.place);
    }
    let groups: String = (0..made.table[GROUP_COUNT] as usize)
        .map(|k| {
            let name = made.table[CONTENTS + k] & 0xFFFF;
            format!(" {name}={}", made.table[MEMBERS + k])
        })
        .collect();
    format!("ok{groups}\n")
}

/// What is printed for the list in a file.
pub fn printed(list: &Path, launch: impl Fn(&Launch) -> Made) -> io::Result<String> {
    let folder = list.parent().unwrap_or(Path::new("."));
    let mut printed = String::new();
    for line in fs::read_to_string(list)?.lines() {
        let given = given(line, folder).ok_or_else(|| {
            io::Error::new(io::ErrorKind::InvalidData, format!("no launch: {line}"))
        })?;
        printed.push_str(&shown(&launch(&given)));
    }
    Ok(printed)
}

/// The launch of a line; none where it is none, or a file can't be read.
fn given(line: &str, folder: &Path) -> Option<Launch> {
    let fields: Vec<&str> = line.split(' ').collect();
    let [n, hidden, start, book, file] = fields.as_slice() else {
        return None;
    };
    Some(Launch {
        n: n.parse().ok()?,
        hidden: hidden.parse().ok()?,
        start: start.parse().ok()?,
        book: fs::read(folder.join(book)).ok()?,
        file: fs::read(folder.join(file)).ok()?,
    })
}

/// Writes launches into a folder, `list` with a line for each among them.
pub fn write(folder: &Path, launches: &[Launch]) -> io::Result<()> {
    fs::create_dir_all(folder)?;
    let mut list = String::new();
    for (k, launch) in launches.iter().enumerate() {
        let (n, hidden, start) = (launch.n, launch.hidden, launch.start);
        fs::write(folder.join(format!("{k}.book")), &launch.book)?;
        fs::write(folder.join(format!("{k}.config")), &launch.file)?;
        list.push_str(&format!("{n} {hidden} {start} {k}.book {k}.config\n"));
    }
    fs::write(folder.join("list"), list)
}
