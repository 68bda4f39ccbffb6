//! Makes a failing script shorter and keeps it as a file.

use std::fs;
use std::io;
use std::path::{Path, PathBuf};

/// A shorter script that still fails: lines are taken out in ever smaller
/// stretches as long as the rest fails.
pub fn shrunk(script: &[u8], fails: &dyn Fn(&[u8]) -> bool) -> Vec<u8> {
    let mut lines: Vec<&[u8]> = script.split_inclusive(|byte| *byte == b'\n').collect();
    let mut stretch = lines.len().div_ceil(2).max(1);
    loop {
        let removed = without_stretches(&mut lines, stretch, fails);
        if stretch == 1 && !removed {
            return lines.concat();
        }
        stretch = stretch.div_ceil(2);
    }
}

/// Takes out every stretch of this length that isn't needed; says whether any
/// was.
fn without_stretches(
    lines: &mut Vec<&[u8]>,
    stretch: usize,
    fails: &dyn Fn(&[u8]) -> bool,
) -> bool {
    let mut removed = false;
    let mut start = 0;
    while start < lines.len() {
        let end = (start + stretch).min(lines.len());
        let rest = [&lines[..start], &lines[end..]].concat();
        if fails(&rest.concat()) {
            *lines = rest;
            removed = true;
        } else {
            start = end;
        }
    }
    removed
}

/// Writes a failing script into a folder under a name and tells where it is.
pub fn keep(folder: &Path, name: &str, script: &[u8]) -> io::Result<PathBuf> {
    fs::create_dir_all(folder)?;
    let path = folder.join(format!("{name}.script"));
    fs::write(&path, script)?;
    Ok(path)
}
