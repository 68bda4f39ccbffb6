//! The groups of a launch file, one for each name, and what is wrong with them.

use super::super::sizes::GROUPS;
use super::book::{Atom, Book};
use std::collections::HashMap;

/// The first group of a name, with what the others of that name add.
struct Group {
    name: u32,
    /// Its members among the nodes of the book.
    set: u64,
    /// Where its other members stand, ascending.
    others: (usize, usize),
    /// Another group of the name has other members.
    unequal: bool,
    /// The starting node is in a group of the name.
    started: bool,
}

/// Atoms have numbers: those of the book its lines, others the numbers behind them.
pub struct Groups<'a> {
    book: &'a Book<'a>,
    nodes: usize,
    start: u32,
    all: Vec<Group>,
    /// The group of each atom, plus 1.
    group: Vec<u32>,
    strangers: HashMap<&'a [u8], u32>,
    /// The members that are no nodes of the book, group by group.
    others: Vec<u32>,
}

impl<'a> Groups<'a> {
    pub fn new(book: &'a Book<'a>, nodes: usize, start: u32) -> Groups<'a> {
        Groups {
            book,
            nodes,
            start,
            all: Vec::with_capacity(GROUPS),
            group: vec![0; book.lines()],
            strangers: HashMap::new(),
            others: Vec::new(),
        }
    }

    pub fn book(&self) -> &'a Book<'a> {
        self.book
    }

    /// The number of an atom.
    #[inline(always)]
    pub fn number(&mut self, atom: &Atom<'a>) -> u32 {
        match self.book.find(atom) {
            Ok(line) => line as u32,
            Err(_) => self.stranger(atom.bytes),
        }
    }

    #[cold]
    #[inline(never)]
    fn stranger(&mut self, atom: &'a [u8]) -> u32 {
        let next = self.group.len() as u32;
        let number = *self.strangers.entry(atom).or_insert(next);
        if number == next {
            self.group.push(0);
        }
        number
    }

    /// A member of the group that is being read: the set of it, or none where it is no node of the book.
    #[inline(always)]
    pub fn member(&mut self, atom: &Atom<'a>) -> u64 {
        let number = self.number(atom);
        if (number as usize) < self.nodes {
            return 1 << number;
        }
        self.others.push(number);
        0
    }

    /// How many members are no nodes of the book.
    pub fn others(&self) -> usize {
        self.others.len()
    }

    /// A group of this name, with these nodes of the book and the others from a place on.
    pub fn add(&mut self, name: u32, set: u64, from: usize) {
        if self.others.len() > from {
            self.order(from);
        }
        let started = set >> self.start & 1 == 1;
        let group = &mut self.group[name as usize];
        if *group == 0 {
            self.all.push(Group {
                name,
                set,
                others: (from, self.others.len()),
                unequal: false,
                started,
            });
            *group = self.all.len() as u32;
            return;
        }
        let first = &mut self.all[*group as usize - 1];
        let (held, own) = self.others.split_at(from);
        let held = &held[first.others.0..first.others.1];
        first.started |= started;
        first.unequal |= first.set != set || held.len() != own.len();
        if !own.is_empty() {
            first.unequal |= held != own;
        }
        self.others.truncate(from);
    }

    /// Makes the others from a place on ascend, each once.
    #[cold]
    fn order(&mut self, from: usize) {
        let mut own = self.others.split_off(from);
        own.sort_unstable();
        own.dedup();
        self.others.append(&mut own);
    }

    /// The names and sets of the groups that are kept, or the reason against them.
    pub fn kept(&self) -> Result<Vec<(u32, u64)>, u64> {
        if self.all.iter().any(|group| group.unequal && group.started) {
            return Err(19);
        }
        let mut kept = Vec::with_capacity(GROUPS);
        for group in self.all.iter().filter(|group| !group.unequal) {
            let line = group.name as usize;
            let known = (self.nodes..self.book.lines()).contains(&line);
            if !known || group.others.0 < group.others.1 {
                return Err(20);
            }
            kept.push(((line - self.nodes + 1) as u32, group.set));
        }
        if kept.len() > GROUPS {
            return Err(16);
        }
        Ok(kept)
    }
}
