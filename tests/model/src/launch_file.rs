//! The text of a launch file: its tree, and the place where a text stops being
//! the beginning of one.
//!
//! Every step of the reader either takes a byte that some launch file can have
//! there, or fails at it. Words that may not stand are told at their end, since
//! a longer word could.

/// The name of an atom, without quotes.
pub type Atom = Vec<u8>;

/// A value that is skipped.
#[derive(Clone, Debug, PartialEq, Eq)]
pub enum Term {
    Atom(Atom),
    /// The digits as they stand.
    Number(Vec<u8>),
    List(Vec<Term>),
    Tuple(Vec<Term>),
}

/// One s_group: its atom and its node atoms, in the order of the file.
#[derive(Clone, Debug, PartialEq, Eq)]
pub struct Group {
    pub atom: Atom,
    pub nodes: Vec<Atom>,
}

/// A pair of the kernel list.
#[derive(Clone, Debug, PartialEq, Eq)]
pub enum KernelEntry {
    SGroups(Vec<Group>),
    Other(Atom, Term),
}

/// A pair of the file's list.
#[derive(Clone, Debug, PartialEq, Eq)]
pub enum Entry {
    Kernel(Vec<KernelEntry>),
    Other(Atom, Term),
}

/// Brackets that may stand inside each other in a value.
pub const DEEPEST: usize = 16;

/// Words that are no plain atoms.
pub const RESERVED: [&str; 27] = [
    "after", "and", "andalso", "band", "begin", "bnot", "bor", "bsl", "bsr", "bxor", "case",
    "catch", "cond", "div", "end", "fun", "if", "let", "not", "of", "or", "orelse", "receive",
    "rem", "try", "when", "xor",
];

/// The s_groups of a file's tree, in the order of the file.
pub fn groups_of(file: &[Entry]) -> Vec<Group> {
    let kernel = file.iter().filter_map(|entry| match entry {
        Entry::Kernel(entries) => Some(entries),
        Entry::Other(_, _) => None,
    });
    let groups = kernel.flatten().filter_map(|entry| match entry {
        KernelEntry::SGroups(groups) => Some(groups),
        KernelEntry::Other(_, _) => None,
    });
    groups.flatten().cloned().collect()
}

/// The tree of a launch file; where the text is none, how many leading bytes it
/// shares with one.
pub fn read(text: &[u8]) -> Result<Vec<Entry>, usize> {
    let mut reader = Reader { text, place: 0 };
    let file = reader.file()?;
    reader.full_stop()?;
    Ok(file)
}

/// A byte of white space.
pub fn is_space(byte: u8) -> bool {
    byte <= 32
}

/// A byte that a plain atom can have after its first.
fn goes_on(byte: u8) -> bool {
    byte.is_ascii_alphanumeric() || byte == b'_' || byte == b'@'
}

/// Whether the atom can stand without quotes.
pub fn stands_plain(atom: &[u8]) -> bool {
    let shaped = match atom {
        [first, rest @ ..] => first.is_ascii_lowercase() && rest.iter().copied().all(goes_on),
        [] => false,
    };
    shaped && !is_reserved(atom)
}

fn is_reserved(word: &[u8]) -> bool {
    RESERVED.iter().any(|reserved| reserved.as_bytes() == word)
}

/// A text read up to a place. A step that fails gives the place of its failure.
struct Reader<'a> {
    text: &'a [u8],
    place: usize,
}

impl Reader<'_> {
    fn fail<T>(&self) -> Result<T, usize> {
        Err(self.place)
    }

    /// The byte that stands here, if the text doesn't end.
    fn here(&self) -> Option<u8> {
        self.text.get(self.place).copied()
    }

    /// The bytes from here on that are such bytes.
    fn stretch(&mut self, such: impl Fn(u8) -> bool) -> Vec<u8> {
        let start = self.place;
        while self.here().is_some_and(&such) {
            self.place += 1;
        }
        self.text[start..self.place].to_vec()
    }

    /// The byte behind the white space, which stays to be read.
    fn next(&mut self) -> Option<u8> {
        self.stretch(is_space);
        self.here()
    }

    /// This very byte, behind white space.
    fn mark(&mut self, wanted: u8) -> Result<(), usize> {
        if self.next() == Some(wanted) {
            self.place += 1;
            return Ok(());
        }
        self.fail()
    }

    /// The comma of a list that goes on, or the bracket that closes it; whether
    /// it goes on.
    fn more(&mut self, closing: u8) -> Result<bool, usize> {
        let comma = self.next() == Some(b',');
        self.mark(if comma { b',' } else { closing })?;
        Ok(comma)
    }

    /// The same for a list that can only be closed once it is whole.
    fn more_or_whole(&mut self, whole: bool) -> Result<bool, usize> {
        if !whole && self.next() == Some(b']') {
            return self.fail();
        }
        self.more(b']')
    }

    /// The list of pairs with `kernel` once.
    fn file(&mut self) -> Result<Vec<Entry>, usize> {
        self.mark(b'[')?;
        let mut entries = Vec::new();
        let mut seen = false;
        loop {
            let key = self.key(b"kernel", seen)?;
            if key == b"kernel" {
                seen = true;
                entries.push(Entry::Kernel(self.kernel()?));
            } else {
                entries.push(Entry::Other(key, self.term(DEEPEST)?));
            }
            self.mark(b'}')?;
            if !self.more_or_whole(seen)? {
                return Ok(entries);
            }
        }
    }

    /// The value of `kernel`: a list of pairs with `s_groups` once.
    fn kernel(&mut self) -> Result<Vec<KernelEntry>, usize> {
        self.mark(b'[')?;
        let mut entries = Vec::new();
        let mut seen = false;
        loop {
            let key = self.key(b"s_groups", seen)?;
            if key == b"s_groups" {
                seen = true;
                entries.push(KernelEntry::SGroups(self.s_groups()?));
            } else {
                entries.push(KernelEntry::Other(key, self.term(DEEPEST)?));
            }
            self.mark(b'}')?;
            if !self.more_or_whole(seen)? {
                return Ok(entries);
            }
        }
    }

    /// The beginning of a pair: its bracket, its atom and the comma. A word that
    /// stands once can't be the atom again.
    fn key(&mut self, once: &[u8], seen: bool) -> Result<Atom, usize> {
        self.mark(b'{')?;
        let key = self.atom(seen.then_some(once))?;
        self.mark(b',')?;
        Ok(key)
    }

    /// The value of `s_groups`.
    fn s_groups(&mut self) -> Result<Vec<Group>, usize> {
        self.mark(b'[')?;
        let mut groups = Vec::new();
        if self.next() == Some(b']') {
            self.place += 1;
            return Ok(groups);
        }
        loop {
            groups.push(self.group()?);
            if !self.more(b']')? {
                return Ok(groups);
            }
        }
    }

    fn group(&mut self) -> Result<Group, usize> {
        self.mark(b'{')?;
        let atom = self.atom(None)?;
        self.mark(b',')?;
        self.normal()?;
        self.mark(b',')?;
        let nodes = self.nodes()?;
        self.mark(b'}')?;
        Ok(Group { atom, nodes })
    }

    /// The word `normal`, plain or quoted, byte by byte.
    fn normal(&mut self) -> Result<(), usize> {
        let word: &[u8] = match self.next() {
            Some(b'\'') => b"'normal'",
            _ => b"normal",
        };
        for byte in word {
            if self.here() != Some(*byte) {
                return self.fail();
            }
            self.place += 1;
        }
        Ok(())
    }

    /// The node atoms of a group, at least one.
    fn nodes(&mut self) -> Result<Vec<Atom>, usize> {
        self.mark(b'[')?;
        let mut nodes = Vec::new();
        loop {
            nodes.push(self.atom(None)?);
            if !self.more(b']')? {
                return Ok(nodes);
            }
        }
    }

    /// A value with at most so many brackets inside each other.
    fn term(&mut self, depth: usize) -> Result<Term, usize> {
        match self.next() {
            Some(b'0'..=b'9') => Ok(Term::Number(self.stretch(|byte| byte.is_ascii_digit()))),
            Some(b'[') if depth > 0 => Ok(Term::List(self.terms(depth - 1, b']')?)),
            Some(b'{') if depth > 0 => Ok(Term::Tuple(self.terms(depth - 1, b'}')?)),
            _ => Ok(Term::Atom(self.atom(None)?)),
        }
    }

    /// The values behind an opening bracket, up to the closing one.
    fn terms(&mut self, depth: usize, closing: u8) -> Result<Vec<Term>, usize> {
        self.place += 1;
        let mut terms = Vec::new();
        if self.next() == Some(closing) {
            self.place += 1;
            return Ok(terms);
        }
        loop {
            terms.push(self.term(depth)?);
            if !self.more(closing)? {
                return Ok(terms);
            }
        }
    }

    /// An atom other than the taken one.
    fn atom(&mut self, taken: Option<&[u8]>) -> Result<Atom, usize> {
        match self.next() {
            Some(b'\'') => self.quoted(taken),
            Some(b'a'..=b'z') => self.plain(taken),
            _ => self.fail(),
        }
    }

    /// Fails at its closing quote where the atom is taken.
    fn quoted(&mut self, taken: Option<&[u8]>) -> Result<Atom, usize> {
        self.place += 1;
        let atom = self.stretch(|byte| byte != b'\'' && byte != b'\\');
        if self.here() != Some(b'\'') || taken == Some(&atom) {
            return self.fail();
        }
        self.place += 1;
        Ok(atom)
    }

    /// Fails behind the word where it is reserved or taken.
    fn plain(&mut self, taken: Option<&[u8]>) -> Result<Atom, usize> {
        let atom = self.stretch(goes_on);
        if is_reserved(&atom) || taken == Some(&atom) {
            return self.fail();
        }
        Ok(atom)
    }

    /// The full stop: behind it the text ends, or there is white space up to its
    /// end.
    fn full_stop(&mut self) -> Result<(), usize> {
        self.mark(b'.')?;
        match self.next() {
            None => Ok(()),
            Some(_) => self.fail(),
        }
    }
}
