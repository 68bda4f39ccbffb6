//! The code of a library as `objdump -dr --no-show-raw-insn` lists it, and its relocation records as `objdump -r` does.

use crate::Result;
use std::collections::BTreeMap;

/// The only file format that is read.
const FORMAT: &str = "elf64-x86-64";

/// Words before the name of an instruction that change neither where it goes nor the stack.
const PREFIXES: [&str; 13] = [
    "bnd", "cs", "data16", "ds", "es", "fs", "gs", "lock", "notrack", "rep", "repnz", "repz", "ss",
];

/// Instructions behind whose names older versions of objdump write the size of a word.
const SIZED: [&str; 5] = ["callq", "jmpq", "popq", "pushq", "retq"];

/// A place that the linker fills in: bytes behind the start of a section or a symbol.
#[derive(Clone, Debug, PartialEq, Eq, PartialOrd, Ord)]
pub struct Place {
    pub base: String,
    pub offset: i64,
}

/// An instruction; `place` is what the linker fills into it.
#[derive(Debug)]
pub struct Instruction {
    pub at: i64,
    pub name: String,
    pub operands: Vec<String>,
    pub place: Option<Place>,
}

#[derive(Debug)]
pub struct Function {
    pub name: String,
    pub section: String,
    pub code: Vec<Instruction>,
}

impl Function {
    pub fn start(&self) -> i64 {
        self.code.first().map_or(0, |first| first.at)
    }

    /// Whether an instruction of the function begins at an address of its section.
    pub fn has(&self, at: i64) -> bool {
        self.code.binary_search_by_key(&at, |one| one.at).is_ok()
    }
}

/// The records of each section, by their offset.
pub type Records = BTreeMap<String, BTreeMap<i64, Place>>;

/// A number as objdump writes it, in sixteens, with a sign or as 64 bits.
pub fn number(text: &str) -> Option<i64> {
    let (sign, digits) = match text.strip_prefix('-') {
        Some(digits) => (-1, digits),
        None => (1, text),
    };
    let digits = digits.strip_prefix("0x").unwrap_or(digits);
    let bits = u64::from_str_radix(digits, 16).ok()?;
    Some(sign * bits as i64)
}

/// The functions of a listing, in its order.
pub fn functions(text: &str) -> Result<Vec<Function>> {
    let mut all: Vec<Function> = Vec::new();
    let mut section = String::new();
    for line in text.lines() {
        if let Some(named) = line.strip_prefix("Disassembly of section ") {
            section = named.trim_end_matches(':').to_string();
        } else if let Some(name) = heading(line) {
            all.push(Function {
                name: name.to_string(),
                section: section.clone(),
                code: Vec::new(),
            });
        } else if line.starts_with([' ', '\t']) {
            let function = all.last_mut().ok_or_else(|| unread(line))?;
            body(function, line)?;
        } else {
            between(line)?;
        }
    }
    match all.iter().find(|function| function.code.is_empty()) {
        Some(empty) => Err(format!("{} has no code", empty.name)),
        None if all.is_empty() => Err("the listing has no function".to_string()),
        None => Ok(all),
    }
}

fn unread(line: &str) -> String {
    format!("the listing has a line that is not understood: {line}")
}

/// The name in a line such as `0000000000000000 <step::step>:`.
fn heading(line: &str) -> Option<&str> {
    let (address, name) = line.split_once(" <")?;
    number(address)?;
    name.strip_suffix(">:")
}

/// A line that belongs to no function: nothing, the name of the archive, or a file with its format.
fn between(line: &str) -> Result<()> {
    match line.split_once("file format ") {
        Some((_, FORMAT)) => Ok(()),
        None if line.is_empty() || line.starts_with("In archive ") => Ok(()),
        _ => Err(unread(line)),
    }
}

/// A line of a function: an instruction, or what the linker fills into the last one.
fn body(function: &mut Function, line: &str) -> Result<()> {
    let (address, rest) = line.trim().split_once(':').ok_or_else(|| unread(line))?;
    let at = number(address).ok_or_else(|| unread(line))?;
    if let Some(record) = rest.strip_prefix(' ') {
        let last = function.code.last_mut().ok_or_else(|| unread(line))?;
        let (kind, place) = record.split_once('\t').ok_or_else(|| unread(line))?;
        last.place = Some(filled(kind, place)?);
    } else {
        function.code.push(instruction(at, rest)?);
    }
    Ok(())
}

/// The place of a record. Both kinds are distances from where they stand; `PLT32` is for calls and jumps.
fn filled(kind: &str, place: &str) -> Result<Place> {
    if !matches!(kind, "R_X86_64_PC32" | "R_X86_64_PLT32") {
        return Err(format!("{kind} {place} is not understood"));
    }
    let split = place.rfind("+0x").or_else(|| place.rfind("-0x"));
    let (base, offset) = place.split_at(split.unwrap_or(place.len()));
    let offset = number(offset.trim_start_matches('+')).unwrap_or(0);
    Ok(Place {
        base: base.to_string(),
        offset,
    })
}

/// An instruction of a text such as `movslq (%r9,%r10,4),%r10`, behind which may stand a comment, or the name of a place.
fn instruction(at: i64, text: &str) -> Result<Instruction> {
    let mut rest = text.split('#').next().unwrap_or_default().trim();
    let (name, operands) = loop {
        let (word, after) = rest.split_once(' ').unwrap_or((rest, ""));
        if !PREFIXES.contains(&word) {
            break (word, after.trim());
        }
        rest = after.trim();
    };
    let operands = operands.split(" <").next().unwrap_or_default();
    if name.is_empty() || operands.contains(' ') {
        return Err(unread(text));
    }
    let name = if SIZED.contains(&name) {
        name.trim_end_matches('q')
    } else {
        name
    };
    Ok(Instruction {
        at,
        name: name.to_string(),
        operands: split(operands),
        place: None,
    })
}

/// The operands between commas; those in parentheses divide the parts of one operand.
fn split(operands: &str) -> Vec<String> {
    let mut all = vec![String::new()];
    let mut inside = false;
    for sign in operands.chars() {
        inside = sign == '(' || inside && sign != ')';
        match (sign, all.last_mut()) {
            (',', _) if !inside => all.push(String::new()),
            (_, Some(last)) => last.push(sign),
            _ => {}
        }
    }
    all.retain(|operand| !operand.is_empty());
    all
}

/// The relocation records of the sections of constants, in which jump tables lie.
pub fn records(text: &str) -> Result<Records> {
    let mut all = Records::new();
    let mut section = None;
    for line in text.lines() {
        if let Some(named) = line.strip_prefix("RELOCATION RECORDS FOR [") {
            section = Some(named.trim_end_matches("]:").to_string());
            continue;
        }
        let words: Vec<&str> = line.split_whitespace().collect();
        let (Some(section), [offset, kind, place]) = (&section, words.as_slice()) else {
            continue;
        };
        let (Some(offset), false) = (number(offset), !section.starts_with(".rodata")) else {
            continue;
        };
        let records = all.entry(section.clone()).or_default();
        records.insert(offset, filled(kind, place)?);
    }
    Ok(all)
}
