//! What C passes on the stack, by the declarations of a header.

use crate::Result;
use std::collections::BTreeMap;

/// So many words of arguments go in registers.
const IN_REGISTERS: i64 = 6;

/// The types of a word; a pointer is one too.
const WORDS: [&str; 3] = ["size_t", "uint32_t", "uint64_t"];

/// The bytes of the arguments behind those in registers: eight a word, and the stack stays aligned to 16.
pub fn on_stack(words: i64) -> i64 {
    let bytes = 8 * (words - IN_REGISTERS).max(0);
    bytes + bytes % 16
}

/// The functions that a header declares, with the words of their arguments.
pub fn declared(header: &str) -> Result<BTreeMap<String, i64>> {
    let mut all = BTreeMap::new();
    for statement in bare(header).split(';') {
        let Some((head, rest)) = statement.split_once('(') else {
            continue;
        };
        let name = head.split([' ', '*']).next_back().unwrap_or_default();
        let arguments = rest.trim_end().strip_suffix(')');
        let words = arguments
            .and_then(words)
            .ok_or_else(|| format!("the declaration of {name} is not understood"))?;
        all.insert(name.to_string(), words);
    }
    if all.is_empty() {
        return Err("the header declares no function".to_string());
    }
    Ok(all)
}

/// How many words arguments have, if each is one.
fn words(arguments: &str) -> Option<i64> {
    let mut count = 0;
    for argument in arguments.split(',') {
        let first = argument.split_whitespace().next()?;
        if !argument.contains('*') && !WORDS.contains(&first) {
            return None;
        }
        count += 1;
    }
    Some(count)
}

/// A header without comments and lines of the preprocessor, on one line.
fn bare(header: &str) -> String {
    let mut text = String::new();
    for (place, part) in header.split("/*").enumerate() {
        let behind = part.split_once("*/").map_or("", |(_, behind)| behind);
        text += if place == 0 { part } else { behind };
    }
    let lines = text.lines().filter(|line| !line.starts_with('#'));
    lines.collect::<Vec<&str>>().join(" ")
}
