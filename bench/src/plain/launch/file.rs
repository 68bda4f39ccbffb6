//! The text of a launch file, read in one pass. Where it is none, the place is the first byte that no launch file has there.

use super::book::Atom;
use super::groups::Groups;
use super::window::{ends, plain, unquotable, Window, WIDTH};
use super::words::reserved;

/// How many brackets may stand inside each other in a value that is skipped.
const DEEPEST: usize = 16;

/// How much of the text is looked at for a node of the book.
const NEAR: usize = WIDTH + 8;

/// What may stand behind a node of the book and the quote that may end it.
const COMMA_BLANK: u32 = u32::from_le_bytes(*b"\0, \0");
const COMMA: u32 = u32::from_le_bytes(*b"\0,\0\0");
const BRACKET: u32 = u32::from_le_bytes(*b"\0]\0\0");

/// What is read, or the place that is wrong.
type Read<T> = Result<T, usize>;

/// Gathers the groups of a launch file.
pub fn read<'a>(text: &'a [u8], groups: &mut Groups<'a>) -> Read<()> {
    let mut reader = Reader { text, at: 0 };
    reader.pairs(b"kernel", |reader| {
        reader.pairs(b"s_groups", |reader| reader.groups(groups))
    })?;
    reader.stop()
}

/// The place behind the white space at a place.
#[inline(always)]
fn white(text: &[u8], mut at: usize) -> usize {
    while text.get(at).is_some_and(|byte| *byte <= b' ') {
        at += 1;
    }
    at
}

/// The text and the place in it.
struct Reader<'a> {
    text: &'a [u8],
    at: usize,
}

impl<'a> Reader<'a> {
    /// The next byte that is no white space, not passed; zero at the end.
    #[inline(always)]
    fn next(&mut self) -> u8 {
        self.at = white(self.text, self.at);
        self.text.get(self.at).copied().unwrap_or(0)
    }

    /// Passes this byte.
    #[inline(always)]
    fn mark(&mut self, byte: u8) -> Read<()> {
        if self.next() != byte {
            return Err(self.at);
        }
        self.at += 1;
        Ok(())
    }

    /// Passes a comma or this bracket; whether it is the bracket.
    #[inline(always)]
    fn closes(&mut self, bracket: u8) -> Read<bool> {
        let byte = self.next();
        if byte != b',' && byte != bracket {
            return Err(self.at);
        }
        self.at += 1;
        Ok(byte == bracket)
    }

    /// Passes an atom: where its bytes begin, how many they are, and the window there.
    #[inline(always)]
    fn word(&mut self) -> Read<(usize, usize, Window)> {
        match self.next() {
            b'\'' => self.quoted_word(),
            b'a'..=b'z' => self.plain_word(),
            _ => Err(self.at),
        }
    }

    #[inline(always)]
    fn quoted_word(&mut self) -> Read<(usize, usize, Window)> {
        let start = self.at + 1;
        let window = Window::at(self.text, start);
        let end = match window.bits(unquotable) {
            0 => self.far_quote(start),
            ends => start + ends.trailing_zeros() as usize,
        };
        if self.text.get(end) != Some(&b'\'') {
            return Err(end);
        }
        self.at = end + 1;
        Ok((start, end - start, window))
    }

    #[inline(always)]
    fn plain_word(&mut self) -> Read<(usize, usize, Window)> {
        let start = self.at;
        let window = Window::at(self.text, start);
        let end = match window.bits(plain) {
            u32::MAX => self.far_end(start),
            letters => start + letters.trailing_ones() as usize,
        };
        if reserved(window.first((end - start).min(WIDTH)).start()) {
            return Err(end);
        }
        self.at = end;
        Ok((start, end - start, window))
    }

    /// The place of the next quote or backslash behind the window at a place; else the end of the text.
    #[cold]
    fn far_quote(&self, at: usize) -> usize {
        let rest = self.text.get(at + WIDTH..).unwrap_or(&[]);
        let found = rest.iter().position(|byte| matches!(byte, b'\'' | b'\\'));
        found.map_or(self.text.len(), |found| at + WIDTH + found)
    }

    /// The place of the next byte behind the window at a place that no plain atom has, or the end of the text.
    #[cold]
    fn far_end(&self, mut at: usize) -> usize {
        loop {
            at += WIDTH;
            match Window::at(self.text, at).bits(plain) {
                u32::MAX => {}
                letters => return at + letters.trailing_ones() as usize,
            }
        }
    }

    #[inline(always)]
    fn atom(&mut self) -> Read<Atom<'a>> {
        let (start, len, window) = self.word()?;
        Ok(Atom::new(self.text, start, len, window))
    }

    /// A list of pairs with this key once; the others are skipped.
    fn pairs(&mut self, key: &[u8], mut value: impl FnMut(&mut Self) -> Read<()>) -> Read<()> {
        let mut seen = false;
        self.mark(b'[')?;
        loop {
            self.mark(b'{')?;
            let (start, len, _) = self.word()?;
            let found = self.text[start..start + len] == *key;
            if found && seen {
                return Err(start + len);
            }
            seen |= found;
            self.mark(b',')?;
            if found {
                value(self)?;
            } else {
                self.skip()?;
            }
            self.mark(b'}')?;
            if self.next() == b']' && !seen {
                return Err(self.at);
            }
            if self.closes(b']')? {
                return Ok(());
            }
        }
    }

    /// The list of groups.
    fn groups(&mut self, groups: &mut Groups<'a>) -> Read<()> {
        self.mark(b'[')?;
        if self.next() == b']' {
            self.at += 1;
            return Ok(());
        }
        loop {
            self.mark(b'{')?;
            let name = groups.number(&self.atom()?);
            self.mark(b',')?;
            self.normal()?;
            self.mark(b',')?;
            self.mark(b'[')?;
            let others = groups.others();
            let set = self.members(groups)?;
            groups.add(name, set, others);
            self.mark(b'}')?;
            if self.closes(b']')? {
                return Ok(());
            }
        }
    }

    /// The nodes of a group, to the closing bracket: the set of those in the book.
    #[inline(always)]
    fn members(&mut self, groups: &mut Groups<'a>) -> Read<u64> {
        let mut set = 0;
        loop {
            self.next();
            let (known, closed) = self.known_members(groups);
            set |= known;
            if closed {
                return Ok(set);
            }
            set |= groups.member(&self.atom()?);
            if self.closes(b']')? {
                return Ok(set);
            }
        }
    }

    /// Passes nodes of the book as long as each is short, made of usual bytes and has a comma or the bracket right behind it: their set, and whether the
    /// bracket was the last. No branch here depends on which of these nodes stand in quotes.
    #[inline(always)]
    fn known_members(&mut self, groups: &Groups<'a>) -> (u64, bool) {
        let (text, book) = (self.text, groups.book());
        let mut set = 0;
        while let Some(near) = text.get(self.at..).and_then(|rest| rest.first_chunk()) {
            let near: &[u8; NEAR] = near;
            let quoted = usize::from(near[0] == b'\'');
            let found = Window::of(near.first_chunk().unwrap()).bits(ends);
            let end = (found & !1 | 1 << (WIDTH - 1)).trailing_zeros() as usize;
            let window = Window::of(near[quoted..].first_chunk().unwrap());
            let Some(node) = book.node(window, end - quoted, quoted) else {
                break;
            };
            // The quote that ends the atom or a zero, then two bytes behind it.
            let behind = u32::from_le_bytes(*near[end..].first_chunk().unwrap());
            let behind = behind << (8 - 8 * quoted);
            let quote = quoted as u32 * u32::from(b'\'');
            if behind << 8 == (quote | COMMA_BLANK) << 8 {
                self.at += end + quoted + 2;
            } else if behind << 16 == (quote | COMMA) << 16 {
                self.at += end + quoted + 1;
            } else if behind << 16 == (quote | BRACKET) << 16 {
                self.at += end + quoted + 1;
                return (set | 1 << node, true);
            } else {
                break;
            }
            set |= 1 << node;
            self.at = white(text, self.at);
        }
        (set, false)
    }

    /// Passes the atom normal.
    #[inline(always)]
    fn normal(&mut self) -> Read<()> {
        self.next();
        let rest = &self.text[self.at..];
        if rest.starts_with(b"normal") {
            self.at += b"normal".len();
            return Ok(());
        }
        let word: &[u8] = match rest.first() {
            Some(b'\'') => b"'normal'",
            _ => b"normal",
        };
        let same = rest.iter().zip(word).take_while(|(a, b)| a == b).count();
        self.at += same;
        if same < word.len() {
            return Err(self.at);
        }
        Ok(())
    }

    /// Passes a value.
    fn skip(&mut self) -> Read<()> {
        // The closing brackets that are due, the next one last.
        let mut due = [0; DEEPEST];
        let mut depth = 0;
        loop {
            let first = self.next();
            match first {
                b'[' | b'{' => {
                    if depth == DEEPEST {
                        return Err(self.at);
                    }
                    due[depth] = first + 2;
                    depth += 1;
                    self.at += 1;
                    if self.next() != first + 2 {
                        continue;
                    }
                }
                b'0'..=b'9' => {
                    while self.text.get(self.at).is_some_and(u8::is_ascii_digit) {
                        self.at += 1;
                    }
                }
                _ => {
                    self.word()?;
                }
            }
            while depth > 0 && self.closes(due[depth - 1])? {
                depth -= 1;
            }
            if depth == 0 {
                return Ok(());
            }
        }
    }

    /// The full stop, with nothing but white space behind it.
    fn stop(&mut self) -> Read<()> {
        self.mark(b'.')?;
        self.next();
        if self.at < self.text.len() {
            return Err(self.at);
        }
        Ok(())
    }
}
