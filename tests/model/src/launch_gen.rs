//! Random launches: trees of launch files, their texts with white space and
//! quotes of all kinds, single-byte changes of them, and books that fit or
//! don't.

use crate::launch::LONGEST_ATOM;
use crate::launch_file::{stands_plain, Atom, Entry, Group, KernelEntry, Term, DEEPEST, RESERVED};
use crate::prng::Prng;
use crate::state::LARGEST_GROUP_NAME;
use std::collections::BTreeSet;

/// What a launch is given beside the table run.
#[derive(Clone, Debug, PartialEq, Eq)]
pub struct Launch {
    pub n: u32,
    pub hidden: u64,
    pub start: u32,
    pub book: Vec<u8>,
    pub file: Vec<u8>,
}

/// A random launch with anything that can be wrong with it.
pub fn launch(prng: &mut Prng) -> Launch {
    let mut launch = fitting_launch(prng);
    if prng.once_in(3) {
        launch.file = spoiled(&launch.file, prng);
    }
    if prng.once_in(5) {
        launch.book = other_book(&launch.book, launch.n, prng);
    }
    if prng.once_in(12) {
        misplaced(&mut launch, prng);
    }
    launch
}

/// A random launch whose opening, book and file are well formed; its groups may
/// still be duplicates, too many, or of atoms that the book lacks.
pub fn fitting_launch(prng: &mut Prng) -> Launch {
    let n = match prng.below(8) {
        0 => 1 + prng.below(2),
        1 => 63 + prng.below(2),
        2 => 1 + prng.below(64),
        _ => 3 + prng.below(8),
    };
    let roster = u64::MAX >> (64 - n);
    let hidden = match prng.below(4) {
        0 => prng.word() & roster,
        1 => prng.word() & prng.word() & prng.word() & roster,
        _ => 0,
    };
    let start = prng.below(n) as u32;
    let names = Names::new(n as usize, prng);
    let file = text(&names.tree(prng), prng);
    Launch {
        n: n as u32,
        hidden,
        start,
        book: book(&names, prng),
        file,
    }
}

/// Puts the opening's numbers or the starting node off the roster.
fn misplaced(launch: &mut Launch, prng: &mut Prng) {
    match prng.below(4) {
        0 => launch.n = prng.pick(&[0, 65, 66, u32::MAX]),
        1 => launch.hidden = prng.word(),
        2 => launch.start = prng.pick(&[launch.n, launch.n + 1, 63, 64, u32::MAX]),
        _ => launch.n = 1 + prng.below(u64::from(launch.n)) as u32,
    }
}

/// Launches at the edges of what a book can hold: as many group atoms as there
/// are numbers, the last of them used, and one atom more.
pub fn fixed() -> Vec<(&'static str, Launch)> {
    let most = LARGEST_GROUP_NAME as usize;
    let with = |count: usize| {
        let atoms: Vec<Atom> = [b"node1".to_vec(), b"node2".to_vec()].into_iter().collect();
        let groups: Vec<Atom> = many(count).collect();
        let last = String::from_utf8_lossy(&groups[count - 1]).into_owned();
        Launch {
            n: 2,
            hidden: 0,
            start: 1,
            book: [lines(&atoms), lines(&groups)].concat(),
            file: format!("[{{kernel,[{{s_groups,[{{{last},normal,[node2]}}]}}]}}].").into_bytes(),
        }
    };
    vec![
        ("largest-book", with(most)),
        ("too-large-book", with(most + 1)),
    ]
}

/// The atoms that a launch is about.
pub struct Names {
    nodes: Vec<Atom>,
    groups: Vec<Atom>,
    /// Atoms that no book has, or that are in the wrong part of it.
    strangers: Vec<Atom>,
}

impl Names {
    /// Atoms for so many nodes, and for groups enough and too many.
    pub fn new(nodes: usize, prng: &mut Prng) -> Names {
        let mut seen = BTreeSet::new();
        let mut some = |count: usize, prefix: &str, prng: &mut Prng| -> Vec<Atom> {
            let mut atoms = Vec::new();
            while atoms.len() < count {
                let atom = book_atom(prefix, atoms.len() + 1, prng);
                if seen.insert(atom.clone()) {
                    atoms.push(atom);
                }
            }
            atoms
        };
        let count = if prng.once_in(4) { 40 } else { 8 };
        let nodes = some(nodes, "node", prng);
        let groups = some(count, "group", prng);
        let mut strangers = some(3, "other", prng);
        strangers.push(Vec::new());
        strangers.push(b"two\nlines".to_vec());
        strangers.push(vec![b'a'; LONGEST_ATOM + 1]);
        strangers.push(groups[0].clone());
        strangers.push(nodes[0].clone());
        Names {
            nodes,
            groups,
            strangers,
        }
    }

    /// A tree with a kernel entry among others.
    pub fn tree(&self, prng: &mut Prng) -> Vec<Entry> {
        let mut entries = self.pairs(b"kernel", Entry::Other, prng);
        let place = prng.below(entries.len() as u64 + 1) as usize;
        entries.insert(place, Entry::Kernel(self.kernel(prng)));
        entries
    }

    fn kernel(&self, prng: &mut Prng) -> Vec<KernelEntry> {
        let mut entries = self.pairs(b"s_groups", KernelEntry::Other, prng);
        let place = prng.below(entries.len() as u64 + 1) as usize;
        entries.insert(place, KernelEntry::SGroups(self.s_groups(prng)));
        entries
    }

    /// Pairs to be skipped, of other atoms than this one.
    fn pairs<T>(&self, not: &[u8], pair: fn(Atom, Term) -> T, prng: &mut Prng) -> Vec<T> {
        let count = match prng.below(4) {
            0 | 1 => 0,
            2 => 1,
            _ => prng.below(4),
        };
        let mut pairs = Vec::new();
        for _ in 0..count {
            let atom = any_atom(prng);
            if atom != not {
                pairs.push(pair(atom, value(prng)));
            }
        }
        pairs
    }

    /// Groups of distinct atoms, then some of them once more.
    fn s_groups(&self, prng: &mut Prng) -> Vec<Group> {
        let count = match prng.below(10) {
            0 => 0,
            1 => 30 + prng.below(11),
            _ => 1 + prng.below(6),
        };
        let strange = prng.once_in(12);
        let mut groups: Vec<Group> = self
            .groups
            .iter()
            .map(|atom| self.group(atom, prng))
            .collect();
        shuffle(&mut groups, prng);
        groups.truncate(count as usize);
        if !groups.is_empty() && prng.once_in(3) {
            for _ in 0..1 + prng.below(3) {
                self.repeat_one(&mut groups, prng);
            }
        }
        if !groups.is_empty() && strange {
            self.estrange_one(&mut groups, prng);
        }
        groups
    }

    fn group(&self, atom: &Atom, prng: &mut Prng) -> Group {
        let count = match prng.below(8) {
            0 => 1,
            1 => self.nodes.len() as u64,
            _ => 1 + prng.below(5),
        };
        Group {
            atom: atom.clone(),
            nodes: (0..count).map(|_| prng.pick(&self.nodes)).collect(),
        }
    }

    /// Puts a group in once more, with the same nodes in another order, or with
    /// others.
    fn repeat_one(&self, groups: &mut Vec<Group>, prng: &mut Prng) {
        let mut again = prng.pick(groups);
        match prng.below(4) {
            0 => again = self.group(&again.atom, prng),
            1 => again.nodes.push(prng.pick(&self.nodes)),
            2 => again.nodes.push(prng.pick(&again.nodes)),
            _ => {}
        }
        shuffle(&mut again.nodes, prng);
        let place = prng.below(groups.len() as u64 + 1) as usize;
        groups.insert(place, again);
    }

    /// Gives a group an atom that the book lacks, or a node of such an atom.
    fn estrange_one(&self, groups: &mut [Group], prng: &mut Prng) {
        let place = prng.below(groups.len() as u64) as usize;
        let stranger = prng.pick(&self.strangers);
        if prng.once_in(2) {
            groups[place].atom = stranger;
        } else {
            groups[place].nodes.push(stranger);
        }
    }
}

fn shuffle<T>(items: &mut [T], prng: &mut Prng) {
    for last in (1..items.len()).rev() {
        items.swap(last, prng.below(last as u64 + 1) as usize);
    }
}

/// An atom that a book can have: mostly a word with a number, or with a host.
fn book_atom(prefix: &str, number: usize, prng: &mut Prng) -> Atom {
    match prng.below(12) {
        0..=3 => format!("{prefix}{number}").into_bytes(),
        4..=6 => format!("{prefix}{number}@store.example.org").into_bytes(),
        7 | 8 => format!("{prefix}_{number}@Host_A").into_bytes(),
        9 => prng.pick(&WORDS_OF_FILES).as_bytes().to_vec(),
        10 => {
            let mut atom = odd_atom(LONGEST_ATOM as u64, prng);
            atom.retain(|byte| *byte != b'\n');
            atom.push(b'0' + (number % 10) as u8);
            atom.split_off(atom.len().saturating_sub(LONGEST_ATOM))
        }
        _ => {
            let mut atom = format!("{prefix}{number}").into_bytes();
            atom.resize(LONGEST_ATOM, b'x');
            atom
        }
    }
}

/// Words that mean something where they stand, and may be atoms elsewhere.
const WORDS_OF_FILES: [&str; 8] = [
    "kernel", "s_groups", "normal", "hidden", "kernelx", "norma", "s_group", "kerne",
];

/// The atom of a pair that is skipped, or inside its value.
fn any_atom(prng: &mut Prng) -> Atom {
    match prng.below(8) {
        0 => prng.pick(&WORDS_OF_FILES).as_bytes().to_vec(),
        1 => prng.pick(&RESERVED).as_bytes().to_vec(),
        2 => [prng.pick(&RESERVED).as_bytes(), b"x"].concat(),
        3 => odd_atom(20, prng),
        _ => format!(
            "{}{}",
            prng.pick(&["a", "inet_dist", "x@y", "zZ_9"]),
            prng.below(10)
        )
        .into_bytes(),
    }
}

/// At most so many bytes of any kind that a quoted atom can have; some are
/// characters of two bytes.
fn odd_atom(most: u64, prng: &mut Prng) -> Atom {
    let mut atom = Vec::new();
    for _ in 0..prng.below(most + 1) {
        match prng.below(8) {
            0 => atom.push(prng.word() as u8),
            1 => atom.extend("é".as_bytes()),
            2 => atom.push(prng.pick(b"[]{},.%\"$ \n\t0")),
            _ => atom.push(b'a' + prng.below(26) as u8),
        }
    }
    atom.retain(|byte| *byte != b'\'' && *byte != b'\\');
    atom
}

/// A value to be skipped: a leaf, a bush, or brackets as deep as they may be.
pub fn value(prng: &mut Prng) -> Term {
    match prng.below(8) {
        0 => deep(DEEPEST, prng),
        1 => deep(prng.below(DEEPEST as u64 + 1) as usize, prng),
        2..=4 => bush(3, prng),
        _ => leaf(prng),
    }
}

fn leaf(prng: &mut Prng) -> Term {
    if prng.once_in(2) {
        return Term::Atom(any_atom(prng));
    }
    let most = if prng.once_in(6) { 30 } else { 4 };
    let digits = 1 + prng.below(most);
    Term::Number((0..digits).map(|_| b'0' + prng.below(10) as u8).collect())
}

fn bracketed(terms: Vec<Term>, prng: &mut Prng) -> Term {
    if prng.once_in(2) {
        Term::List(terms)
    } else {
        Term::Tuple(terms)
    }
}

fn bush(depth: usize, prng: &mut Prng) -> Term {
    if depth == 0 || prng.once_in(3) {
        return leaf(prng);
    }
    let terms = (0..prng.below(4)).map(|_| bush(depth - 1, prng)).collect();
    bracketed(terms, prng)
}

/// Exactly so many brackets inside each other, leaves beside them.
pub fn deep(depth: usize, prng: &mut Prng) -> Term {
    if depth == 0 {
        return leaf(prng);
    }
    let mut terms = Vec::new();
    if depth > 1 || prng.once_in(2) {
        terms.push(deep(depth - 1, prng));
    }
    if prng.once_in(3) {
        terms.push(leaf(prng));
        shuffle(&mut terms, prng);
    }
    bracketed(terms, prng)
}

/// How much white space a text has.
#[derive(Clone, Copy)]
enum Spacing {
    None,
    Neat,
    Wild,
}

/// A text of this tree.
pub fn text(file: &[Entry], prng: &mut Prng) -> Vec<u8> {
    let spacing = prng.pick(&[Spacing::None, Spacing::Neat, Spacing::Neat, Spacing::Wild]);
    let mut writer = Writer {
        prng,
        spacing,
        text: Vec::new(),
    };
    writer.file(file);
    writer.text
}

/// Writes a tree, with random white space before every token.
struct Writer<'a> {
    prng: &'a mut Prng,
    spacing: Spacing,
    text: Vec<u8>,
}

impl Writer<'_> {
    fn space(&mut self) {
        let (often, count) = match self.spacing {
            Spacing::None => return,
            Spacing::Neat => (4, 1),
            Spacing::Wild => (2, 1 + self.prng.below(4)),
        };
        if self.prng.once_in(often) {
            for _ in 0..count {
                let byte = match self.spacing {
                    Spacing::Neat => self.prng.pick(b" \n"),
                    _ => self.prng.below(33) as u8,
                };
                self.text.push(byte);
            }
        }
    }

    fn mark(&mut self, byte: u8) {
        self.space();
        self.text.push(byte);
    }

    /// Items between brackets, with commas.
    fn items<T>(&mut self, brackets: &[u8; 2], items: &[T], write: fn(&mut Self, &T)) {
        self.mark(brackets[0]);
        for (place, item) in items.iter().enumerate() {
            if place > 0 {
                self.mark(b',');
            }
            write(self, item);
        }
        self.mark(brackets[1]);
    }

    /// An atom, in quotes where it must be and elsewhere now and then.
    fn atom(&mut self, atom: &Atom) {
        self.space();
        if stands_plain(atom) && !self.prng.once_in(4) {
            self.text.extend(atom);
        } else {
            self.text.push(b'\'');
            self.text.extend(atom);
            self.text.push(b'\'');
        }
    }

    /// The beginning of a pair or a group.
    fn key(&mut self, atom: &Atom) {
        self.mark(b'{');
        self.atom(atom);
        self.mark(b',');
    }

    fn term(&mut self, term: &Term) {
        match term {
            Term::Atom(atom) => self.atom(atom),
            Term::Number(digits) => {
                self.space();
                self.text.extend(digits);
            }
            Term::List(terms) => self.items(b"[]", terms, Self::term),
            Term::Tuple(terms) => self.items(b"{}", terms, Self::term),
        }
    }

    fn group(&mut self, group: &Group) {
        self.key(&group.atom);
        self.atom(&b"normal".to_vec());
        self.mark(b',');
        self.items(b"[]", &group.nodes, Self::atom);
        self.mark(b'}');
    }

    fn kernel_entry(&mut self, entry: &KernelEntry) {
        match entry {
            KernelEntry::SGroups(groups) => {
                self.key(&b"s_groups".to_vec());
                self.items(b"[]", groups, Self::group);
            }
            KernelEntry::Other(atom, term) => {
                self.key(atom);
                self.term(term);
            }
        }
        self.mark(b'}');
    }

    fn entry(&mut self, entry: &Entry) {
        match entry {
            Entry::Kernel(entries) => {
                self.key(&b"kernel".to_vec());
                self.items(b"[]", entries, Self::kernel_entry);
            }
            Entry::Other(atom, term) => {
                self.key(atom);
                self.term(term);
            }
        }
        self.mark(b'}');
    }

    fn file(&mut self, file: &[Entry]) {
        self.items(b"[]", file, Self::entry);
        self.mark(b'.');
        if !self.prng.once_in(3) {
            self.text.push(b'\n');
            self.space();
        }
    }
}

/// A text made of this one that is mostly no launch file.
pub fn spoiled(text: &[u8], prng: &mut Prng) -> Vec<u8> {
    match prng.below(10) {
        0 => text[..prng.below(text.len() as u64 + 1) as usize].to_vec(),
        1 => changed(&changed(text, prng), prng),
        2 => {
            let piece = piece_of(text, prng);
            with_piece(text, &piece, prng)
        }
        3 => {
            let piece = prng.pick(&PIECES).as_bytes().to_vec();
            with_piece(text, &piece, prng)
        }
        _ => changed(text, prng),
    }
}

/// The text with one byte replaced, put in or taken out.
pub fn changed(text: &[u8], prng: &mut Prng) -> Vec<u8> {
    let mut changed = text.to_vec();
    let place = some_place(text, prng);
    match prng.below(3) {
        0 if place < text.len() => changed[place] = other_byte(prng),
        1 if place < text.len() => {
            changed.remove(place);
        }
        _ => changed.insert(place, other_byte(prng)),
    }
    changed
}

fn other_byte(prng: &mut Prng) -> u8 {
    match prng.below(8) {
        0 => prng.word() as u8,
        1 => prng.below(33) as u8,
        2 => prng.pick(b"%\\\"$#|-_@:/?+();<>="),
        3 | 4 => prng.pick(b"abeklmnorsxzAZ0159"),
        _ => prng.pick(b"[]{},.''"),
    }
}

/// Pieces that a text can have at many places.
const PIECES: [&str; 14] = [
    "{kernel,[{s_groups,[]}]},",
    "{s_groups,[]},",
    "{'kernel',1},",
    "kernel",
    "'kernel'",
    "after",
    "a,1",
    "[]",
    "{}",
    ".\n",
    "normal",
    "hidden",
    ",{a,1}",
    ",",
];

fn piece_of(text: &[u8], prng: &mut Prng) -> Vec<u8> {
    let start = prng.below(text.len() as u64) as usize;
    let length = prng.below(40) as usize;
    text[start..(start + length).min(text.len())].to_vec()
}

/// The text with a piece put in somewhere.
fn with_piece(text: &[u8], piece: &[u8], prng: &mut Prng) -> Vec<u8> {
    let place = some_place(text, prng);
    [&text[..place], piece, &text[place..]].concat()
}

/// A place just before or behind a byte that is no letter of a name, or any.
fn some_place(text: &[u8], prng: &mut Prng) -> usize {
    let beside: Vec<usize> = (0..text.len())
        .filter(|place| b"[]{},.' ".contains(&text[*place]))
        .collect();
    if beside.is_empty() || prng.once_in(3) {
        prng.below(text.len() as u64 + 1) as usize
    } else {
        prng.pick(&beside) + prng.below(2) as usize
    }
}

/// The lines of these atoms.
pub fn lines(atoms: &[Atom]) -> Vec<u8> {
    let mut text = Vec::new();
    for atom in atoms {
        text.extend(atom);
        text.push(b'\n');
    }
    text
}

/// So many atoms, none of which stands elsewhere.
fn many(count: usize) -> impl Iterator<Item = Atom> {
    (0..count).map(|k| format!("more{k}@").into_bytes())
}

/// A well formed book that has these names; now and then it lacks some of the
/// group atoms, or has many more.
fn book(names: &Names, prng: &mut Prng) -> Vec<u8> {
    let mut groups = names.groups.clone();
    match prng.below(12) {
        0 => groups.truncate(prng.below(groups.len() as u64) as usize),
        1 => groups.extend(many(300)),
        _ => {}
    }
    if prng.once_in(4) {
        shuffle(&mut groups, prng);
    }
    [lines(&names.nodes), lines(&groups)].concat()
}

/// A book made of this one that is mostly not well formed, or whose atoms stand
/// elsewhere.
fn other_book(book: &[u8], n: u32, prng: &mut Prng) -> Vec<u8> {
    let mut atoms: Vec<Atom> = book
        .split_inclusive(|byte| *byte == b'\n')
        .map(|line| line.strip_suffix(b"\n").unwrap_or(line).to_vec())
        .collect();
    let place = prng.below(atoms.len() as u64) as usize;
    match prng.below(10) {
        0 => atoms[place] = prng.pick(&atoms),
        1 => atoms[place].clear(),
        2 => atoms[place].resize(LONGEST_ATOM + prng.below(2) as usize, b'y'),
        3 => atoms.truncate(place),
        4 => atoms.truncate(n as usize),
        5 => shuffle(&mut atoms, prng),
        6 | 7 => return changed(book, prng),
        8 => return book[..book.len() - 1].to_vec(),
        _ => {
            atoms.remove(place);
        }
    }
    lines(&atoms)
}
