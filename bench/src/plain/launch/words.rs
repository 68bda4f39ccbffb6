//! The words that are no plain atoms, each at a place of its own in a small table.

const WORDS: [&[u8]; 27] = [
    b"after", b"and", b"andalso", b"band", b"begin", b"bnot", b"bor", b"bsl", b"bsr", b"bxor",
    b"case", b"catch", b"cond", b"div", b"end", b"fun", b"if", b"let", b"not", b"of", b"or",
    b"orelse", b"receive", b"rem", b"try", b"when", b"xor",
];

/// A factor that gives each of them another place.
const FACTOR: u64 = 0x5378_6df5_30b6_6559;
const PLACES: usize = 64;

/// The words as numbers, the first byte lowest.
static RESERVED: [u64; PLACES] = {
    let mut places = [0; PLACES];
    let mut k = 0;
    while k < WORDS.len() {
        let word = number(WORDS[k]);
        assert!(places[place(word)] == 0);
        places[place(word)] = word;
        k += 1;
    }
    places
};

const fn number(word: &[u8]) -> u64 {
    let mut number = 0;
    let mut i = word.len();
    while i > 0 {
        i -= 1;
        number = number << 8 | word[i] as u64;
    }
    number
}

const fn place(word: u64) -> usize {
    (word.wrapping_mul(FACTOR) >> 58) as usize
}

/// Whether a word of letters is reserved, given its first eight bytes, or all of them and zeros.
#[inline(always)]
pub fn reserved(word: u64) -> bool {
    RESERVED[place(word)] == word
}
