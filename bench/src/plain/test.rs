//! The soundness tests that the plain functions can call.

use super::sizes::Table;
use super::{sound, stamps};

pub trait Test {
    fn passes(table: &Table) -> bool;
}

/// A digit for each mark, all zeroed for each s_group.
pub struct Marks;

/// A byte for each slot, all zeroed once.
pub struct Stamps<const SLOTS: usize>;

/// None.
pub struct Untested;

impl Test for Marks {
    fn passes(table: &Table) -> bool {
        sound::is_sound(table)
    }
}

impl<const SLOTS: usize> Test for Stamps<SLOTS> {
    fn passes(table: &Table) -> bool {
        stamps::is_sound::<SLOTS>(table)
    }
}

impl Test for Untested {
    /// A call that says true at once, as on the proved side.
    #[inline(never)]
    fn passes(_: &Table) -> bool {
        std::hint::black_box(true)
    }
}

/// Functions that call one test, by its name.
pub struct Peer<F> {
    pub test: &'static str,
    pub functions: F,
}

/// A peer with each of the tests, whose functions `$functions` gives.
macro_rules! peers {
    ($functions:ident) => {
        &[
            $crate::plain::test::Peer {
                test: "marks",
                functions: $functions::<$crate::plain::test::Marks>(),
            },
            $crate::plain::test::Peer {
                test: "512 slots",
                functions: $functions::<$crate::plain::test::Stamps<512>>(),
            },
            $crate::plain::test::Peer {
                test: "1,024 slots",
                functions: $functions::<$crate::plain::test::Stamps<1024>>(),
            },
        ]
    };
}
pub(crate) use peers;
