//! Indexes that are mostly wrong, in kinds: a right one with a fault, or random
//! words.

use crate::index::{ENTRY, WORDS};
use crate::prng::Prng;

/// What is done to a right index. Where it has too few entries for that, it stays
/// right.
#[derive(Clone, Copy, Debug, PartialEq, Eq, PartialOrd, Ord)]
pub enum Fault {
    /// A word of an entry is another, near or far.
    OneWord,
    /// The pid, the s_group or the name of an entry is another that is there too.
    OthersPid,
    OthersGroup,
    OthersName,
    /// The name has a digit that no name has.
    WideName,
    /// Two entries stand in each other's place, neighbours or not.
    EntriesSwapped,
    /// Two entries have each other's name.
    NamesSwapped,
    /// The words of an entry stand in each other's place.
    WordsSwapped,
    /// An entry is missing, and those behind it have moved up.
    EntryMissing,
    /// An entry is missing, and zeros stand in its place.
    EntryZeroed,
    /// An entry stands twice, and those behind it have moved down.
    EntryTwice,
    /// There is an entry more, of a pid near to another.
    EntryMore,
    /// The last entry is missing.
    LastMissing,
    /// An unused word is not zero: the first ones, the last one, any.
    UnusedWord,
    /// Every entry is there, ascending by s_group and then by pid.
    ByGroup,
    /// Every entry is there, descending.
    Descending,
    /// Every word stands one further on.
    Shifted,
    /// The index of a table some calls before.
    Stale,
    /// An entry of a table some calls before stands in place of one.
    StaleEntry,
    /// Every word is zero.
    Cleared,
    /// Random words, mostly zero.
    Random,
    /// A word or an entry less, half of them, none at all.
    Shorter,
    Empty,
    /// A word or an entry more, as much again.
    Longer,
}

impl Fault {
    /// Every fault once.
    pub const ALL: [Fault; 24] = [
        Fault::OneWord,
        Fault::OthersPid,
        Fault::OthersGroup,
        Fault::OthersName,
        Fault::WideName,
        Fault::EntriesSwapped,
        Fault::NamesSwapped,
        Fault::WordsSwapped,
        Fault::EntryMissing,
        Fault::EntryZeroed,
        Fault::EntryTwice,
        Fault::EntryMore,
        Fault::LastMissing,
        Fault::UnusedWord,
        Fault::ByGroup,
        Fault::Descending,
        Fault::Shifted,
        Fault::Stale,
        Fault::StaleEntry,
        Fault::Cleared,
        Fault::Random,
        Fault::Shorter,
        Fault::Empty,
        Fault::Longer,
    ];

    /// Whether it changes the length.
    pub fn of_length(self) -> bool {
        matches!(self, Fault::Shorter | Fault::Empty | Fault::Longer)
    }

    /// The index with this fault; `stale` is one of some calls before.
    pub fn on(self, index: &[u64], stale: &[u64], prng: &mut Prng) -> Vec<u64> {
        let mut faulty = Faulty::of(index, prng);
        faulty.take(self, stale);
        faulty.words()
    }
}

/// An index that gets a fault.
struct Faulty<'a> {
    entries: Vec<[u64; ENTRY]>,
    /// What stands behind the entries.
    rest: Vec<u64>,
    length: usize,
    prng: &'a mut Prng,
}

/// The entries of a right index.
fn entries(index: &[u64]) -> Vec<[u64; ENTRY]> {
    let pairs = index.chunks_exact(ENTRY);
    let used = pairs.take_while(|entry| entry[0] != 0);
    used.map(|entry| [entry[0], entry[1]]).collect()
}

impl Faulty<'_> {
    fn of<'a>(index: &[u64], prng: &'a mut Prng) -> Faulty<'a> {
        Faulty {
            entries: entries(index),
            rest: Vec::new(),
            length: WORDS,
            prng,
        }
    }

    fn words(self) -> Vec<u64> {
        let mut words = self.entries.concat();
        words.extend(self.rest);
        words.resize(self.length, 0);
        words
    }

    /// The place of an entry; none where there are fewer than this many.
    fn place(&mut self, least: usize) -> Option<usize> {
        let many = self.entries.len();
        (many >= least).then(|| self.prng.below(many as u64) as usize)
    }

    /// Another place, often that of a neighbour.
    fn other_place(&mut self, place: usize) -> usize {
        let many = self.entries.len();
        let step = if self.prng.once_in(2) {
            1
        } else {
            1 + self.prng.below(many as u64 - 1) as usize
        };
        (place + step) % many
    }

    fn take(&mut self, fault: Fault, stale: &[u64]) {
        match fault {
            Fault::OthersPid | Fault::OthersGroup | Fault::OthersName => self.mix(fault),
            Fault::EntriesSwapped | Fault::NamesSwapped => self.swap(fault),
            Fault::OneWord | Fault::WideName | Fault::WordsSwapped => self.spoil(fault),
            Fault::EntryMissing | Fault::EntryZeroed | Fault::EntryTwice | Fault::EntryMore => {
                self.count(fault);
            }
            Fault::LastMissing => drop(self.entries.pop()),
            Fault::UnusedWord => self.use_word(),
            Fault::ByGroup => self.entries.sort_by_key(|entry| entry[0].rotate_right(32)),
            Fault::Descending => self.entries.reverse(),
            Fault::Shifted => self.shift(),
            Fault::Stale => self.entries = entries(stale),
            Fault::StaleEntry => self.replace(stale),
            Fault::Cleared => self.entries.clear(),
            Fault::Random => self.draw(),
            Fault::Shorter | Fault::Empty | Fault::Longer => self.lengthen(fault),
        }
    }

    /// Half a word of one entry in place of another's.
    fn mix(&mut self, fault: Fault) {
        let Some(place) = self.place(2) else { return };
        let from = self.other_place(place);
        let [first, second] = self.entries[from];
        let low_half = 0xFFFF_FFFF;
        let entry = &mut self.entries[place];
        match fault {
            Fault::OthersPid => entry[0] = first & !low_half | entry[0] & low_half,
            Fault::OthersGroup => entry[0] = entry[0] & !low_half | first & low_half,
            _ => entry[1] = second,
        }
    }

    fn swap(&mut self, fault: Fault) {
        let Some(place) = self.place(2) else { return };
        let other = self.other_place(place);
        let (one, two) = (self.entries[place], self.entries[other]);
        if fault == Fault::EntriesSwapped {
            self.entries.swap(place, other);
        } else {
            self.entries[place][1] = two[1];
            self.entries[other][1] = one[1];
        }
    }

    /// One entry has other words.
    fn spoil(&mut self, fault: Fault) {
        let Some(place) = self.place(1) else { return };
        let bit = 1 << self.prng.below(64);
        let entry = &mut self.entries[place];
        match fault {
            Fault::WideName => entry[1] |= bit.max(1 << 32),
            Fault::WordsSwapped => entry.swap(0, 1),
            _ => {
                let word = &mut entry[self.prng.below(ENTRY as u64) as usize];
                *word = match self.prng.below(5) {
                    0 => word.wrapping_add(1),
                    1 => word.wrapping_sub(1),
                    2 => 0,
                    3 => self.prng.word(),
                    _ => *word ^ bit,
                };
            }
        }
    }

    /// An entry less or more.
    fn count(&mut self, fault: Fault) {
        let Some(place) = self.place(1) else { return };
        let mut entry = self.entries[place];
        match fault {
            Fault::EntryMissing => drop(self.entries.remove(place)),
            Fault::EntryZeroed => self.entries[place] = [0; ENTRY],
            Fault::EntryTwice => self.entries.insert(place, entry),
            _ => {
                entry[0] += 1 << if self.prng.once_in(2) { 32 } else { 0 };
                self.entries.push(entry);
                self.entries.sort();
            }
        }
        self.entries.truncate(WORDS / ENTRY);
    }

    fn use_word(&mut self) {
        let unused = WORDS - ENTRY * self.entries.len();
        if unused == 0 {
            return;
        }
        let place = match self.prng.below(4) {
            0 => 0,
            1 => 1,
            2 => unused - 1,
            _ => self.prng.below(unused as u64) as usize,
        };
        self.rest = vec![0; unused];
        self.rest[place] = self.prng.word() >> self.prng.below(64) | 1;
    }

    fn shift(&mut self) {
        let mut words = self.entries.concat();
        words.insert(0, 0);
        words.truncate(WORDS);
        self.entries.clear();
        self.rest = words;
    }

    fn replace(&mut self, stale: &[u64]) {
        let Some(place) = self.place(1) else { return };
        let others = entries(stale);
        if !others.is_empty() {
            self.entries[place] = self.prng.pick(&others);
            self.entries.sort();
        }
    }

    fn draw(&mut self) {
        let rarity = 1 + self.prng.below(40);
        let shift = self.prng.below(64);
        self.entries.clear();
        self.rest = (0..WORDS)
            .map(|_| {
                if self.prng.once_in(rarity) {
                    self.prng.word() >> shift
                } else {
                    0
                }
            })
            .collect();
    }

    fn lengthen(&mut self, fault: Fault) {
        let choice = self.prng.below(3) as usize;
        self.length = match fault {
            Fault::Empty => 0,
            Fault::Shorter => [WORDS - 1, WORDS - ENTRY, WORDS / 2][choice],
            _ => [WORDS + 1, WORDS + ENTRY, 2 * WORDS][choice],
        };
    }
}
