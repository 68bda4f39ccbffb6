//! What one instruction does to the stack, and where it goes on.

use crate::listing::{number, Instruction};
use crate::Result;

const POINTER: &str = "%rsp";

/// A function that calls nothing may use so many bytes below its stack pointer.
const RED_ZONE: i64 = 128;

/// The jumps that are taken or not.
const BRANCHES: [&str; 18] = [
    "ja", "jae", "jb", "jbe", "je", "jecxz", "jg", "jge", "jl", "jle", "jne", "jno", "jnp", "jns",
    "jo", "jp", "jrcxz", "js",
];

/// How the names of all instructions begin that go somewhere else or use the stack unsaid, and of what is no instruction.
const STRANGE: [&str; 15] = [
    "(", ".", "call", "enter", "int", "iret", "j", "lcall", "leave", "ljmp", "loop", "lret", "rex",
    "sys", "xbegin",
];

/// The instructions that only read their first operand.
const READERS: [&str; 5] = ["add", "cmp", "mov", "sub", "test"];

/// What an instruction does.
#[derive(Debug, PartialEq)]
pub enum Effect {
    /// Goes on to the next one, with so many bytes more on the stack.
    On(i64),
    Call,
    /// Jumps, or goes on.
    Branch,
    Jump,
    /// Jumps to where a register says.
    JumpBy(String),
    Return,
    /// Ends the program.
    Stop,
}

/// The effect of an instruction that is understood.
pub fn effect(one: &Instruction) -> Result<Effect> {
    let operands: Vec<&str> = one.operands.iter().map(String::as_str).collect();
    let known = match (one.name.as_str(), operands.as_slice()) {
        ("push", [what]) if is_word(what) => Some(Effect::On(8)),
        ("pop", [what]) if is_word(what) && *what != POINTER => Some(Effect::On(-8)),
        ("sub", [bytes, POINTER]) => immediate(bytes).map(Effect::On),
        ("add", [bytes, POINTER]) => immediate(bytes).map(|bytes| Effect::On(-bytes)),
        ("lea", [place, POINTER]) => match from_pointer(place) {
            Some((bytes, false)) => Some(Effect::On(-bytes)),
            _ => None,
        },
        ("call", [to]) if !to.starts_with('*') => Some(Effect::Call),
        ("jmp", [to]) if to.starts_with("*%") => Some(Effect::JumpBy(to[1..].to_string())),
        ("jmp", [to]) if !to.starts_with('*') => Some(Effect::Jump),
        ("ret", []) => Some(Effect::Return),
        ("ud2", []) => Some(Effect::Stop),
        (name, [_]) if BRANCHES.contains(&name) => Some(Effect::Branch),
        _ if keeps_stack(one) => Some(Effect::On(0)),
        _ => None,
    };
    known.ok_or_else(|| format!("{} {} is not understood", one.name, operands.join(",")))
}

/// Whether an operand of `push` and `pop` has eight bytes: a number, or a register or a place in memory of that size.
fn is_word(operand: &str) -> bool {
    operand.starts_with("%r") && !operand.ends_with(['b', 'd', 'w'])
        || operand.starts_with('$')
        || operand.ends_with(')') && !operand.starts_with('%')
}

/// The number of an operand such as `$0x4b8`.
fn immediate(operand: &str) -> Option<i64> {
    operand.strip_prefix('$').and_then(number)
}

/// Whether an instruction leaves the stack pointer as it is: it is no strange one, and at most reads it.
fn keeps_stack(one: &Instruction) -> bool {
    let name = one.name.as_str();
    let strange = STRANGE.iter().any(|begins| name.starts_with(begins))
        || name.starts_with("push")
        || name.starts_with("ret")
        || name.starts_with("pop") && name != "popcnt";
    let named = one.operands.iter().any(|operand| is_pointer(operand));
    let reads = READERS.contains(&name) && one.operands.len() == 2 && !is_pointer(&one.operands[1]);
    !strange && (!named || reads)
}

/// Whether an operand is the stack pointer or a part of it.
fn is_pointer(operand: &str) -> bool {
    [POINTER, "%esp", "%sp", "%spl"].contains(&operand)
}

/// A place reckoned from the stack pointer, such as `-0x40(%rsp,%rax,1)`: its bytes from there, and whether an index is added.
fn from_pointer(operand: &str) -> Option<(i64, bool)> {
    let (bytes, rest) = operand.split_once("(%rsp")?;
    let bytes = if bytes.is_empty() { 0 } else { number(bytes)? };
    Some((bytes, rest.starts_with(',')))
}

/// How far below the stack pointer an instruction of a function without calls reaches. An index or a copy of the pointer may reach all of the red zone;
/// a place that `lea` reckons is taken for the lowest that is used by it.
pub fn below(one: &Instruction) -> i64 {
    if one.operands.last().is_some_and(|last| is_pointer(last)) {
        return 0;
    }
    let reach = |operand: &String| match from_pointer(operand) {
        Some((bytes, false)) => -bytes,
        Some((_, true)) => RED_ZONE,
        None if is_pointer(operand) => RED_ZONE,
        None => 0,
    };
    one.operands.iter().map(reach).max().unwrap_or(0).max(0)
}

/// Whether an instruction reads or writes below the stack pointer whatever its registers hold. `lea` only reckons a place.
pub fn surely_below(one: &Instruction) -> bool {
    let reaches =
        |operand: &String| matches!(from_pointer(operand), Some((bytes, false)) if bytes < 0);
    one.name != "lea" && one.operands.iter().any(reaches)
}
