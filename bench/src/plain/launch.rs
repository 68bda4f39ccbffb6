//! A launch in plain Rust, written for speed: the book in a hash table, the file in one pass, an atom in one look at thirty-two bytes.

mod book;
mod file;
mod groups;
mod window;
mod words;

use super::sizes::Table;
use super::steps::{self, error, Answer};
use book::Book;
use groups::Groups;

/// Opens the table and creates the groups of the file. The second number is the place under reason 18.
pub fn launch(
    table: &mut Table,
    n: u32,
    hidden: u64,
    start: u32,
    book: &[u8],
    file: &[u8],
) -> Answer {
    if n.wrapping_sub(1) > 63 {
        return error(2);
    }
    if hidden & !(u64::MAX >> (64 - n)) != 0 || start >= n {
        return error(7);
    }
    let Some(book) = Book::read(book, n as usize) else {
        return error(18);
    };
    let mut groups = Groups::new(&book, n as usize, start);
    if let Err(place) = file::read(file, &mut groups) {
        let [kind, _, second, reason] = error(18);
        return [kind, place as u64, second, reason];
    }
    let kept = match groups.kept() {
        Ok(kept) => kept,
        Err(reason) => return error(reason),
    };
    let answer = steps::open(table, n, hidden);
    for (name, set) in kept {
        steps::new_s_group(table, set.trailing_zeros(), name, set);
    }
    answer
}
