//! How much stack a proved call takes: the stack of a thread of its own is painted below the caller, and what is overwritten is measured.

use crate::api::{self, Api};
use crate::call::{calls, Asked, Lent, Which};
use crate::commands::{free_rows, main_cases, roomy};
use crate::index_api::{self, IndexApi};
use crate::index_call::{self, call, Called};
use crate::indexes::{self, StackRow};
use crate::launches::{called, stack_rows};
use crate::strangers::STRANGER;
use crate::tables::{dense, one_slot_and_mark, table, two_free_groups, FULL};
use model::prng::Prng;

const PAINT: u64 = 0xa5a5_5a5a_c3c3_3c3c;
const DEPTH: usize = 64 * 1024;
/// The most that a call may take.
const BAR: usize = 1536;
/// The address to which a call returns.
const RETURN: usize = 8;
/// Calls of each command on each table.
const CALLS: usize = 64;

/// The proved functions, or functions of the same arguments that do nothing.
struct Side {
    api: &'static Api,
    index: &'static IndexApi,
}

const PROVED: Side = Side {
    api: &api::PROVED,
    index: &index_api::PROVED,
};
const NOTHING: Side = Side {
    api: &api::NOTHING,
    index: &index_api::NOTHING,
};

/// Paints the stack below the caller; where the paint begins.
#[inline(never)]
fn paint() -> *const u64 {
    let mut words = [0u64; DEPTH / 8];
    for word in words.iter_mut() {
        unsafe { std::ptr::write_volatile(word, PAINT) };
    }
    std::hint::black_box(&mut words).as_ptr()
}

/// How far below this frame a call writes: the paint is looked at from its far end to the first word that was painted over.
#[inline(never)]
fn depth(call: &mut dyn FnMut(&Side) -> u64, side: &Side) -> usize {
    let here = 0u64;
    let mut at = paint();
    std::hint::black_box(call(side));
    while unsafe { std::ptr::read_volatile(at) } == PAINT {
        at = at.wrapping_add(1);
    }
    std::hint::black_box(&here) as *const u64 as usize - at as usize
}

/// The bytes that a call takes below its arguments. The same code calls the function that does nothing, which leaves no more than the address to return to.
fn taken(call: &mut dyn FnMut(&Side) -> u64) -> usize {
    let nothing = depth(call, &NOTHING);
    depth(call, &PROVED) - nothing + RETURN
}

/// What each call takes, in a thread of its own: the test, opening, each command, those with an index and launches.
fn measured(seed: u64) -> Vec<(String, usize)> {
    std::thread::Builder::new()
        .stack_size(1 << 20)
        .spawn(move || measure(seed))
        .expect("a thread")
        .join()
        .expect("its result")
}

pub fn depths(seed: u64) {
    println!("\n{:<26} {:>12}", "function", "stack bytes");
    for (what, bytes) in measured(seed) {
        let over = if bytes > BAR { "  over the bar" } else { "" };
        println!("{what:<26} {bytes:>12}{over}");
    }
}

/// Holds each call to the bar; the most that one takes.
pub fn held(seed: u64) -> usize {
    let all = measured(seed);
    for (what, bytes) in &all {
        assert!(*bytes <= BAR, "{what} takes {bytes} bytes of stack");
    }
    all.iter().map(|(_, bytes)| *bytes).max().unwrap_or(0)
}

fn measure(seed: u64) -> Vec<(String, usize)> {
    let mut prng = Prng::new(seed);
    let tables = worst_tables(&mut prng);
    let tested = tables.iter().map(|words| {
        taken(&mut |side| u64::from(unsafe { (side.api.is_sound)(words.as_ptr(), words.len()) }))
    });
    let mut all = vec![("IsSound".to_string(), tested.max().unwrap_or(0))];
    let opening = Asked {
        n: 64,
        ..Asked::default()
    };
    all.push((
        "Open".to_string(),
        worst(Which::Open, &tables[0], &[opening]),
    ));
    for which in Which::COMMANDS {
        all.push((format!("{which:?}"), command(&mut prng, which)));
    }
    for StackRow {
        what,
        called,
        calls,
    } in indexes::stack_rows(&mut prng)
    {
        let deepest = calls.map(|(lent, asked)| with_index(&what, called, lent, &asked));
        all.push((what, deepest.into_iter().max().unwrap_or(0)));
    }
    for (what, given) in stack_rows(&mut prng) {
        let mut lent = Lent::new(&tables[0]);
        let bytes = taken(&mut |side| u64::from(called(side.api, &mut lent, &given)));
        all.push((what.to_string(), bytes));
    }
    all
}

/// Tables of 64 nodes on which the test has most to do: full ones, with every connection, with pids that no slot and no mark tells apart, and free groups.
fn worst_tables(prng: &mut Prng) -> [Vec<u64>; 4] {
    let full = table(prng, FULL);
    let tables = [
        full.clone(),
        dense(full),
        one_slot_and_mark(prng),
        two_free_groups(prng),
    ];
    tables.map(sound)
}

/// The table, which is sound: the test goes to its end, and a command to its step.
fn sound(words: Vec<u64>) -> Vec<u64> {
    let found = unsafe { (PROVED.api.is_sound)(words.as_ptr(), words.len()) };
    assert!(found, "a table whose stack is measured is not sound");
    words
}

/// What one call with an index takes, which is done.
fn with_index(what: &str, which: Called, mut lent: index_call::Lent, asked: &Asked) -> usize {
    lent.table = sound(lent.table);
    let bytes = taken(&mut |side| u64::from(call(side.index, which, &mut lent, asked)));
    let reason = lent.answer[3];
    assert!(matches!(reason, 0 | STRANGER), "{what} has reason {reason}");
    bytes
}

/// The deepest of many calls of a command on nearly full tables, with every connection and without, and of its calls that move most free nodes.
fn command(prng: &mut Prng, which: Which) -> usize {
    let nearly = table(prng, roomy(FULL));
    let mut bytes = 0;
    for words in [dense(nearly.clone()), nearly].map(sound) {
        let asked = main_cases(prng, which, &words, CALLS);
        bytes = bytes.max(worst(which, &words, &asked));
    }
    for (_, other, words, one) in free_rows() {
        if other == which {
            bytes = bytes.max(worst(which, &words, &[one]));
        }
    }
    bytes
}

/// The deepest of these calls, each on the table as it was.
fn worst(which: Which, words: &[u64], asked: &[Asked]) -> usize {
    let deepest = asked.iter().map(|one| {
        let mut lent = [Lent::new(words)];
        taken(&mut |side| calls(side.api, which, &mut lent, std::slice::from_ref(one)))
    });
    deepest.max().unwrap_or(0)
}
