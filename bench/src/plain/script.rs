//! A whole script in plain Rust, written for speed: what the script program prints.

use super::sizes::{Table, WORDS};
use super::steps::{self, error, Answer};
use super::test::Test;

const LONGEST_SCRIPT: usize = 65_536;
const LONGEST_LINE: usize = 120;
const LIST_ROOM: usize = 64;

/// The most fields that a line has.
const FIELDS: usize = 5;

/// The output words by kind.
const WORDS_OUT: [&[u8]; 10] = [
    b"",
    b"ok",
    b"true",
    b"false",
    b"error",
    b"undefined",
    b"pid",
    b"group",
    b"nodes",
    b"list",
];

/// Gives what a script prints.
pub type Printer = fn(&[u8]) -> Vec<u8>;

/// The one with this test in each call.
pub const fn printer<T: Test>() -> Printer {
    run::<T>
}

/// What the script prints, from a table of zero words.
fn run<T: Test>(script: &[u8]) -> Vec<u8> {
    if script.len() > LONGEST_SCRIPT {
        return b"too-long\n".to_vec();
    }
    let mut table: Table = [0; WORDS];
    let mut list = [0; LIST_ROOM];
    let mut out = Vec::with_capacity(2 * script.len());
    let mut rest = script;
    while !rest.is_empty() {
        let end = rest.iter().position(|byte| *byte == b'\n');
        let line = end
            .filter(|end| *end <= LONGEST_LINE)
            .map(|end| &rest[..end]);
        match line.and_then(|line| called::<T>(&mut table, line, &mut list)) {
            Some(answer) => put(&mut out, answer, &list),
            None => out.extend_from_slice(b"bad-line\n"),
        }
        rest = end.map_or(&[], |end| &rest[end + 1..]);
    }
    out
}

/// A number of 64 bits in decimal, without a leading zero.
fn wide(field: &[u8]) -> Option<u64> {
    if field.is_empty() || field[0] == b'0' && field.len() > 1 {
        return None;
    }
    field.iter().try_fold(0u64, |value, byte| {
        let digit = byte.wrapping_sub(b'0');
        if digit > 9 {
            return None;
        }
        value.checked_mul(10)?.checked_add(u64::from(digit))
    })
}

/// A number of 32 bits.
fn half(field: &[u8]) -> Option<u32> {
    wide(field).and_then(|value| value.try_into().ok())
}

/// The fields of a line and their number; none where there are more than a line has.
fn fields(line: &[u8]) -> Option<([&[u8]; FIELDS], usize)> {
    let mut fields = [&line[..0]; FIELDS];
    let mut count = 0;
    for field in line.split(|byte| *byte == b' ') {
        *fields.get_mut(count)? = field;
        count += 1;
    }
    Some((fields, count))
}

/// The line's answer; none for a line that is not of the form.
fn called<T: Test>(table: &mut Table, line: &[u8], list: &mut [u64]) -> Option<Answer> {
    let ([first, word, a, b, c], count) = fields(line)?;
    if first == b"open" {
        let (n, hidden) = (half(word)?, wide(a)?);
        return (count == 3).then(|| steps::open(table, n, hidden));
    }
    let i = half(first)?;
    // A step with its fields, each read at its width, and with the list where it writes one.
    macro_rules! step {
        ($name:ident ( $($field:ident : $width:ident),* ) $($list:ident)?) => {{
            $(let $field = $width($field)?;)*
            tested::<T>(table, |t| steps::$name(t, i, $($field,)* $($list)?))
        }};
    }
    Some(match (word, count) {
        (b"register_name", 5) => step!(register_name(a: half, b: half, c: half)),
        (b"re_register_name", 5) => step!(re_register_name(a: half, b: half, c: half)),
        (b"unregister_name", 4) => step!(unregister_name(a: half, b: half)),
        (b"registered_names", 3) => step!(registered_names(a: half) list),
        (b"whereis_name", 4) => step!(whereis_name(a: half, b: half)),
        (b"whereis_name", 5) => step!(whereis_name_at(a: half, b: half, c: half)),
        (b"send", 3) => step!(send(a: half)),
        (b"send", 4) => step!(send_name(a: half, b: half)),
        (b"send", 5) => step!(send_at(a: half, b: half, c: half)),
        (b"new_s_group", 4) => step!(new_s_group(a: half, b: wide)),
        (b"add_nodes", 4) => step!(add_nodes(a: half, b: wide)),
        (b"remove_nodes", 4) => step!(remove_nodes(a: half, b: wide)),
        (b"delete_s_group", 3) => step!(delete_s_group(a: half)),
        (b"own_nodes", 2) => step!(own_nodes()),
        (b"own_s_groups", 2) => step!(own_s_groups() list),
        _ => return None,
    })
}

/// The step on a table that is sound.
fn tested<T: Test>(table: &mut Table, step: impl FnOnce(&mut Table) -> Answer) -> Answer {
    if T::passes(table) {
        step(table)
    } else {
        error(3)
    }
}

/// The answer as a line.
fn put(out: &mut Vec<u8>, [kind, first, second, reason]: Answer, list: &[u64]) {
    out.extend_from_slice(WORDS_OUT[kind as usize]);
    if kind >= 6 {
        put_number(out, first);
    }
    if kind == 7 || kind == 8 {
        put_number(out, second);
    }
    if kind == 9 {
        for word in &list[..first as usize] {
            put_number(out, *word);
        }
    }
    put_number(out, reason);
    out.push(b'\n');
}

/// A space and the number.
fn put_number(out: &mut Vec<u8>, mut number: u64) {
    let mut digits = [0; 21];
    let mut at = digits.len();
    loop {
        at -= 1;
        digits[at] = b'0' + (number % 10) as u8;
        number /= 10;
        if number == 0 {
            break;
        }
    }
    at -= 1;
    digits[at] = b' ';
    out.extend_from_slice(&digits[at..]);
}
