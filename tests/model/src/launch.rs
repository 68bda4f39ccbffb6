//! The launch of a node: the name book, the groups that are kept, and the table
//! that the opening and the creation of each group leave.

use crate::answer::{Answer, Reason, Value};
use crate::command::Command;
use crate::launch_file::{groups_of, read, Atom, Group};
use crate::rules::{call, open, Law};
use crate::state::{set_of, NodeSet, State, LARGEST_GROUP_NAME};
use crate::table::{words_of, WORDS};
use std::collections::BTreeSet;

/// The longest atom in a book.
pub const LONGEST_ATOM: usize = 64;

/// What a launch gives.
#[derive(Clone, Debug, PartialEq, Eq)]
pub struct Launched {
    pub answer: Answer,
    /// The place in the file; 0 under every reason but 18.
    pub place: usize,
    /// Every word of the table run afterwards.
    pub table: Vec<u64>,
}

/// A reason with a place in the file.
type Refusal = (Reason, usize);

/// Launches node `start` of a roster of `n` with this hidden set from a file,
/// on a table run of any length.
pub fn launch(
    table: &[u64],
    n: u32,
    hidden: u64,
    start: u32,
    book: &[u8],
    file: &[u8],
) -> Launched {
    match launched(table.len(), n, &set_of(hidden), start, book, file) {
        Ok(state) => Launched {
            answer: Answer::main_case(Value::Ok),
            place: 0,
            table: words_of(&state),
        },
        Err((reason, place)) => Launched {
            answer: Answer::error(reason),
            place,
            table: table.to_vec(),
        },
    }
}

/// The state after a launch, or the first reason that speaks against it: 1, 2,
/// 7, 18, 19, 20, then what creating the groups can have.
fn launched(
    words: usize,
    n: u32,
    hidden: &NodeSet,
    start: u32,
    book: &[u8],
    file: &[u8],
) -> Result<State, Refusal> {
    let refused = |reason: Reason| (reason, 0);
    if words != WORDS {
        return Err(refused(Reason::RunLength));
    }
    let (opening, opened) = open(n, hidden);
    let state = opened.ok_or(refused(opening.reason))?;
    if !state.on_roster(start) {
        return Err(refused(Reason::NodeOffRoster));
    }
    let book = Book::read(book, n as usize).ok_or(refused(Reason::NotLaunchFile))?;
    let file = read(file).map_err(|place| (Reason::NotLaunchFile, place))?;
    let kept = kept(&groups_of(&file), &book.nodes[start as usize]).map_err(refused)?;
    let numbered: Option<Vec<(u32, NodeSet)>> =
        kept.iter().map(|group| book.numbered(group)).collect();
    let groups = numbered.ok_or(refused(Reason::AtomNotInBook))?;
    created(state, groups).map_err(refused)
}

/// The atoms of a name book: those of the nodes, then those of the s_groups.
pub struct Book {
    pub nodes: Vec<Atom>,
    pub groups: Vec<Atom>,
}

impl Book {
    /// The book of a text, for a roster of this size; none where a line is bad,
    /// an atom stands twice, or there are too few or too many.
    pub fn read(text: &[u8], n: usize) -> Option<Book> {
        let mut nodes: Vec<Atom> = Vec::new();
        for line in text.split_inclusive(|byte| *byte == b'\n') {
            let atom = line.strip_suffix(b"\n")?;
            if !(1..=LONGEST_ATOM).contains(&atom.len()) {
                return None;
            }
            nodes.push(atom.to_vec());
        }
        let distinct: BTreeSet<&Atom> = nodes.iter().collect();
        if distinct.len() != nodes.len() || nodes.len() < n {
            return None;
        }
        let groups = nodes.split_off(n);
        (groups.len() <= LARGEST_GROUP_NAME as usize).then_some(Book { nodes, groups })
    }

    /// The number and the members of a group; none where an atom of it isn't in
    /// its part of the book.
    pub fn numbered(&self, group: &Group) -> Option<(u32, NodeSet)> {
        let place = |atoms: &[Atom], atom: &Atom| atoms.iter().position(|held| held == atom);
        let name = place(&self.groups, &group.atom)? + 1;
        let members: Option<NodeSet> = group
            .nodes
            .iter()
            .map(|atom| place(&self.nodes, atom).map(|node| node as u32))
            .collect();
        Some((name as u32, members?))
    }
}

/// The groups of a file that are kept, in its order. Of groups of one atom with
/// equal node sets the first is kept; where the sets differ none is, and the
/// starting node may be in none of them.
pub fn kept(groups: &[Group], start: &Atom) -> Result<Vec<Group>, Reason> {
    let set = |group: &Group| -> BTreeSet<Atom> { group.nodes.iter().cloned().collect() };
    let mut kept: Vec<Group> = Vec::new();
    for group in groups {
        let named: Vec<&Group> = groups
            .iter()
            .filter(|other| other.atom == group.atom)
            .collect();
        if named.iter().all(|other| set(other) == set(group)) {
            if kept.iter().all(|before| before.atom != group.atom) {
                kept.push(group.clone());
            }
        } else if named.iter().any(|other| set(other).contains(start)) {
            return Err(Reason::Duplicates);
        }
    }
    Ok(kept)
}

/// The state once each group's lowest member has created it, in this order.
fn created(mut state: State, groups: Vec<(u32, NodeSet)>) -> Result<State, Reason> {
    for (s, set) in groups {
        let lowest = *set.first().expect("a group of a file has a node");
        let command = Command::NewSGroup { s, set };
        let answer = call(&Law, &mut state, lowest, &command, 0);
        if answer.reason != Reason::MainCase {
            return Err(answer.reason);
        }
    }
    Ok(state)
}
