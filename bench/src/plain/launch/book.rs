//! The name book: its lines in a hash table, and the line of an atom.

use super::window::{is, plain, Window, WIDTH};
use super::words::reserved;

/// The longest line, and the most lines of groups.
const LONGEST: usize = 64;
const MOST_GROUPS: usize = 65_535;

/// The low bits of a slot are the number of a line plus 1, the others are from its hash. Slots are at least twice the lines.
const LINE_BITS: u32 = 17;
const LINE: u32 = (1 << LINE_BITS) - 1;
const FEWEST_SLOTS: usize = 1024;

/// A line or an atom: its bytes, the window of them where they are fewer than one has, and a hash.
#[derive(Clone, Copy)]
pub struct Atom<'a> {
    pub bytes: &'a [u8],
    head: Window,
    hash: u64,
}

impl<'a> Atom<'a> {
    /// The atom of this length at a place of the text, where the window is.
    #[inline(always)]
    pub fn new(text: &'a [u8], at: usize, len: usize, window: Window) -> Atom<'a> {
        let bytes = &text[at..at + len];
        let (head, hash) = if len < WIDTH {
            let head = window.first(len);
            (head, head.hash())
        } else {
            (window, long_hash(text, at, len))
        };
        Atom { bytes, head, hash }
    }
}

/// The hash of as many bytes as a window has, or more.
fn long_hash(text: &[u8], at: usize, len: usize) -> u64 {
    let (mut place, mut hash) = (0, 0u64);
    while place < len {
        let part = Window::at(text, at + place).first((len - place).min(WIDTH));
        hash = part.hash() ^ hash.wrapping_mul(0x9e37_79b9_7f4a_7c15);
        place += WIDTH;
    }
    hash
}

pub struct Book<'a> {
    text: &'a [u8],
    /// Where each line begins, and its length.
    lines: Vec<(u32, u32)>,
    slots: Vec<u32>,
    /// What the hash is shifted by for the slot.
    shift: u32,
    nodes: Nodes,
}

/// The atoms of nodes that are looked at in one window.
#[derive(Clone, Copy)]
struct Nodes {
    /// Of nodes with fewer bytes than a window has, none of them zero; ones for the others.
    heads: [Window; 64],
    /// The nodes of which the atoms can stand without quotes.
    plain: u64,
}

impl<'a> Book<'a> {
    /// The book of a text for so many nodes; none where the text is none.
    pub fn read(text: &'a [u8], nodes: usize) -> Option<Book<'a>> {
        let count = newlines(text);
        if count < nodes || count > nodes + MOST_GROUPS {
            return None;
        }
        let size = (4 * count)
            .next_power_of_two()
            .clamp(FEWEST_SLOTS, 1 << LINE_BITS);
        let mut book = Book {
            text,
            lines: Vec::with_capacity(count),
            slots: vec![0; size],
            shift: 64 - size.trailing_zeros(),
            nodes: Nodes {
                heads: [Window::of(&[0xff; WIDTH]); 64],
                plain: 0,
            },
        };
        let mut at = 0;
        while at < text.len() {
            let window = Window::at(text, at);
            let len = match window.bits(is(b'\n')) {
                0 => long_line(text, at)?,
                ends => ends.trailing_zeros() as usize,
            };
            if len == 0 {
                return None;
            }
            let line = Atom::new(text, at, len, window);
            if book.lines.len() < nodes {
                book.nodes.add(book.lines.len(), &line, window);
            }
            book.add(&line, at)?;
            at += len + 1;
        }
        Some(book)
    }

    /// Adds a line at a place; none where it is there already.
    #[inline(always)]
    fn add(&mut self, line: &Atom, at: usize) -> Option<()> {
        let slot = self.find(line).err()?;
        self.lines.push((at as u32, line.bytes.len() as u32));
        self.slots[slot] = mark(line.hash) | self.lines.len() as u32;
        Some(())
    }

    pub fn lines(&self) -> usize {
        self.lines.len()
    }

    /// The line that is the atom, or the slot for it.
    #[inline(always)]
    pub fn find(&self, atom: &Atom) -> Result<usize, usize> {
        let last = self.slots.len() - 1;
        let mut slot = (atom.hash >> self.shift) as usize & last;
        loop {
            let held = self.slots[slot];
            if held == 0 {
                return Err(slot);
            }
            let line = (held & LINE) as usize - 1;
            if held & !LINE == mark(atom.hash) && self.is(line, atom) {
                return Ok(line);
            }
            slot = (slot + 1) & last;
        }
    }

    #[inline(always)]
    fn is(&self, line: usize, atom: &Atom) -> bool {
        let (at, len) = self.lines[line];
        let (at, len) = (at as usize, len as usize);
        if len != atom.bytes.len() {
            false
        } else if len < WIDTH {
            Window::at(self.text, at).first(len).same(atom.head)
        } else {
            self.text[at..at + len] == *atom.bytes
        }
    }

    /// The node whose atom has this length at the window, which ends there; it has no zero byte. Without quotes, only one that can stand so.
    #[inline(always)]
    pub fn node(&self, window: Window, len: usize, quoted: usize) -> Option<usize> {
        let head = window.first(len);
        let last = self.slots.len() - 1;
        let mut slot = (head.hash() >> self.shift) as usize & last;
        loop {
            let held = self.slots[slot];
            let line = ((held & LINE) as usize).wrapping_sub(1);
            if line < 64 && self.nodes.heads[line].same(head) {
                return ((self.nodes.plain >> line | quoted as u64) & 1 == 1).then_some(line);
            }
            if held == 0 {
                return None;
            }
            slot = (slot + 1) & last;
        }
    }
}

impl Nodes {
    #[inline(always)]
    fn add(&mut self, node: usize, line: &Atom, window: Window) {
        let len = line.bytes.len() as u32;
        if line.bytes.len() >= WIDTH || window.bits(is(0)).trailing_zeros() < len {
            return;
        }
        let letters = window.bits(plain).trailing_ones() >= len;
        let plain = letters & line.bytes[0].is_ascii_lowercase() & !reserved(line.head.start());
        self.heads[node % 64] = line.head;
        self.plain |= u64::from(plain) << (node % 64);
    }
}

/// The part of a hash that stands in a slot.
#[inline(always)]
fn mark(hash: u64) -> u32 {
    hash as u32 & !LINE
}

fn newlines(text: &[u8]) -> usize {
    let of = |part: &[u8]| part.iter().map(|byte| u8::from(*byte == b'\n')).sum::<u8>();
    text.chunks(128).map(|part| usize::from(of(part))).sum()
}

/// The length of a line that has no end in the window at its place; none where it is too long or has no end.
fn long_line(text: &[u8], at: usize) -> Option<usize> {
    match Window::at(text, at + WIDTH).bits(is(b'\n')) {
        0 => (text.get(at + LONGEST) == Some(&b'\n')).then_some(LONGEST),
        ends => Some(WIDTH + ends.trailing_zeros() as usize),
    }
}
