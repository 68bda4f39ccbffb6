//! Bytes of a text, thirty-two at once. A test gives the highest bit of each byte for which it holds.

pub use lane::Lane;

/// How many bytes a window has: two lanes.
pub const WIDTH: usize = 32;
const LANE: usize = 16;

/// Ones, then zeros: the masks of all lengths, one after another.
static MASKS: [u8; 2 * WIDTH] = {
    let mut masks = [0; 2 * WIDTH];
    let mut i = 0;
    while i < WIDTH {
        masks[i] = 0xff;
        i += 1;
    }
    masks
};

#[derive(Clone, Copy)]
pub struct Window(Lane, Lane);

impl Window {
    #[inline(always)]
    pub fn of(bytes: &[u8; WIDTH]) -> Window {
        let (low, high) = bytes.split_at(LANE);
        Window(
            Lane::of(low.try_into().unwrap()),
            Lane::of(high.try_into().unwrap()),
        )
    }

    /// The bytes of the text from a place on, with zeros behind its end.
    #[inline(always)]
    pub fn at(text: &[u8], place: usize) -> Window {
        match text.get(place..place + WIDTH) {
            Some(bytes) => Window::of(bytes.try_into().unwrap()),
            None => Window::tail(text.get(place..).unwrap_or(&[])),
        }
    }

    #[cold]
    #[inline(never)]
    fn tail(bytes: &[u8]) -> Window {
        let mut all = [0; WIDTH];
        all[..bytes.len()].copy_from_slice(bytes);
        Window::of(&all)
    }

    /// The bytes for which the test gives the highest bit.
    #[inline(always)]
    pub fn bits(self, test: impl Fn(Lane) -> Lane) -> u32 {
        test(self.0).bits() | test(self.1).bits() << LANE
    }

    /// The first bytes, so many, with zeros behind them.
    #[inline(always)]
    pub fn first(self, len: usize) -> Window {
        let mask = Window::of(MASKS[WIDTH - len..][..WIDTH].try_into().unwrap());
        Window(self.0.and(mask.0), self.1.and(mask.1))
    }

    /// The first eight bytes as a number.
    #[inline(always)]
    pub fn start(self) -> u64 {
        self.0.words()[0]
    }

    #[inline(always)]
    pub fn same(self, other: Window) -> bool {
        self.0.equal(other.0).and(self.1.equal(other.1)).bits() == 0xffff
    }

    /// A number that differs between most windows.
    #[inline(always)]
    pub fn hash(self) -> u64 {
        let [x, y] = self.0.xor(self.1.turned()).words();
        let product = u128::from(x) * u128::from(y ^ 0x9e37_79b9_7f4a_7c15);
        product as u64 ^ (product >> 64) as u64
    }
}

/// The bytes that are this one.
#[inline(always)]
pub fn is(byte: u8) -> impl Fn(Lane) -> Lane {
    move |lane| lane.equal(Lane::all(byte))
}

#[inline(always)]
fn among(lane: Lane, first: u8, last: u8) -> Lane {
    lane.minus(Lane::all(first)).up_to(Lane::all(last - first))
}

/// The bytes that a plain atom can have.
#[inline(always)]
pub fn plain(lane: Lane) -> Lane {
    let letter = among(lane.or(Lane::all(b'a' ^ b'A')), b'a', b'z');
    let other = is(b'_')(lane).or(is(b'@')(lane));
    letter.or(among(lane, b'0', b'9')).or(other)
}

/// The bytes that a quoted atom can't have.
#[inline(always)]
pub fn unquotable(lane: Lane) -> Lane {
    is(b'\'')(lane).or(is(b'\\')(lane))
}

/// The bytes that end most atoms of a list: all up to the comma, the quote among them, and `\` and `]`, which differ in one bit.
#[inline(always)]
pub fn ends(lane: Lane) -> Lane {
    let bracket = lane.and(Lane::all(!1)).equal(Lane::all(b'\\'));
    lane.up_to(Lane::all(b',')).or(bracket)
}

#[cfg(target_arch = "x86_64")]
mod lane {
    use super::LANE;
    use std::arch::x86_64::*;

    /// Sixteen bytes in the vectors that every x86-64 processor has.
    #[derive(Clone, Copy)]
    pub struct Lane(__m128i);

    impl Lane {
        #[inline(always)]
        pub fn of(bytes: &[u8; LANE]) -> Lane {
            Lane(unsafe { _mm_loadu_si128(bytes.as_ptr().cast()) })
        }

        #[inline(always)]
        pub fn all(byte: u8) -> Lane {
            Lane(unsafe { _mm_set1_epi8(byte as i8) })
        }

        #[inline(always)]
        pub fn equal(self, other: Lane) -> Lane {
            Lane(unsafe { _mm_cmpeq_epi8(self.0, other.0) })
        }

        #[inline(always)]
        pub fn up_to(self, most: Lane) -> Lane {
            Lane(unsafe { _mm_cmpeq_epi8(_mm_min_epu8(self.0, most.0), self.0) })
        }

        #[inline(always)]
        pub fn minus(self, other: Lane) -> Lane {
            Lane(unsafe { _mm_sub_epi8(self.0, other.0) })
        }

        #[inline(always)]
        pub fn or(self, other: Lane) -> Lane {
            Lane(unsafe { _mm_or_si128(self.0, other.0) })
        }

        #[inline(always)]
        pub fn and(self, other: Lane) -> Lane {
            Lane(unsafe { _mm_and_si128(self.0, other.0) })
        }

        #[inline(always)]
        pub fn xor(self, other: Lane) -> Lane {
            Lane(unsafe { _mm_xor_si128(self.0, other.0) })
        }

        /// Each four bytes moved to the next place.
        #[inline(always)]
        pub fn turned(self) -> Lane {
            Lane(unsafe { _mm_shuffle_epi32::<0b10_01_00_11>(self.0) })
        }

        /// The highest bit of each byte.
        #[inline(always)]
        pub fn bits(self) -> u32 {
            unsafe { _mm_movemask_epi8(self.0) as u32 }
        }

        #[inline(always)]
        pub fn words(self) -> [u64; 2] {
            unsafe { std::mem::transmute(self) }
        }
    }
}

#[cfg(not(target_arch = "x86_64"))]
mod lane {
    use super::LANE;

    /// Sixteen bytes in two words.
    #[derive(Clone, Copy)]
    pub struct Lane(u64, u64);

    /// The highest bit of each byte.
    const HIGH: u64 = 0x8080_8080_8080_8080;

    impl Lane {
        #[inline(always)]
        pub fn of(bytes: &[u8; LANE]) -> Lane {
            let (low, high) = bytes.split_at(LANE / 2);
            let word = |half: &[u8]| u64::from_le_bytes(half.try_into().unwrap());
            Lane(word(low), word(high))
        }

        #[inline(always)]
        pub fn all(byte: u8) -> Lane {
            let word = u64::from_ne_bytes([byte; 8]);
            Lane(word, word)
        }

        #[inline(always)]
        fn with(self, other: Lane, both: impl Fn(u64, u64) -> u64) -> Lane {
            Lane(both(self.0, other.0), both(self.1, other.1))
        }

        #[inline(always)]
        pub fn equal(self, other: Lane) -> Lane {
            self.with(other, |a, b| {
                let off = a ^ b;
                !((off & !HIGH) + !HIGH | off) & HIGH
            })
        }

        #[inline(always)]
        pub fn up_to(self, most: Lane) -> Lane {
            self.with(most, |a, b| {
                let low = (b | HIGH) - (a & !HIGH);
                (!a & b | !(a ^ b) & low) & HIGH
            })
        }

        #[inline(always)]
        pub fn minus(self, other: Lane) -> Lane {
            self.with(other, |a, b| ((a | HIGH) - (b & !HIGH)) ^ (!(a ^ b) & HIGH))
        }

        #[inline(always)]
        pub fn or(self, other: Lane) -> Lane {
            self.with(other, |a, b| a | b)
        }

        #[inline(always)]
        pub fn and(self, other: Lane) -> Lane {
            self.with(other, |a, b| a & b)
        }

        #[inline(always)]
        pub fn xor(self, other: Lane) -> Lane {
            self.with(other, |a, b| a ^ b)
        }

        /// Each four bytes moved to the next place.
        #[inline(always)]
        pub fn turned(self) -> Lane {
            Lane(self.0 << 32 | self.1 >> 32, self.1 << 32 | self.0 >> 32)
        }

        /// The highest bit of each byte.
        #[inline(always)]
        pub fn bits(self) -> u32 {
            let gathered = |word: u64| {
                let bits = (word & HIGH) >> 7;
                (bits.wrapping_mul(0x0102_0408_1020_4080) >> 56) as u32
            };
            gathered(self.0) | gathered(self.1) << 8
        }

        #[inline(always)]
        pub fn words(self) -> [u64; 2] {
            [self.0, self.1]
        }
    }
}
