//! The depth of the stack at every instruction of a function, on every path through it.

use crate::effect::{below, effect, surely_below, Effect};
use crate::listing::{number, Function, Instruction, Place};
use crate::tables::{from_table, named};
use crate::{Result, RETURN};
use std::collections::BTreeMap;

/// A call or a jump to a function, and the bytes on the stack of the caller when the function begins, with the address to return to.
#[derive(Debug)]
pub struct Call {
    pub to: Place,
    pub depth: i64,
}

/// What a function takes itself, and all its calls.
#[derive(Debug)]
pub struct Walked {
    pub own: i64,
    pub calls: Vec<Call>,
}

/// A walk: the depths that are known before instructions, and the places from which it has to go on.
struct Walk<'a> {
    function: &'a Function,
    targets: &'a [i64],
    depths: BTreeMap<i64, i64>,
    ahead: Vec<(i64, i64)>,
    calls: Vec<Call>,
}

/// Walks a function whose jump tables lead to the targets.
pub fn walk(function: &Function, targets: &[i64]) -> Result<Walked> {
    let mut walk = Walk {
        function,
        targets,
        depths: BTreeMap::new(),
        ahead: vec![(function.start(), 0)],
        calls: Vec::new(),
    };
    while let Some((at, depth)) = walk.ahead.pop() {
        walk.reach(at, depth)
            .map_err(|what| place(function, at, &what))?;
    }
    for one in function.code.iter().filter(|one| !is_padding(one)) {
        if !walk.depths.contains_key(&one.at) {
            return Err(place(function, one.at, "no path leads there"));
        }
    }
    Ok(Walked {
        own: walk.own()?,
        calls: walk.calls,
    })
}

/// Words about a place in a function.
fn place(function: &Function, at: i64, what: &str) -> String {
    format!("{}+{:#x}: {what}", function.name, at - function.start())
}

/// Whether an instruction only fills the room to the next place that is aligned.
fn is_padding(one: &Instruction) -> bool {
    let same = one.operands.iter().all(|operand| operand == "%ax");
    one.name.starts_with("nop") || one.name == "int3" || one.name == "xchg" && same
}

impl Walk<'_> {
    /// Comes to an instruction with a depth.
    fn reach(&mut self, at: i64, depth: i64) -> Result<()> {
        if depth < 0 {
            return Err("more is taken off the stack than was put there".to_string());
        }
        match self.depths.insert(at, depth) {
            Some(known) if known == depth => Ok(()),
            Some(known) => Err(format!("the stack is {known} and {depth} bytes deep there")),
            None => self.step(at, depth),
        }
    }

    /// Goes on from an instruction that was not come to before.
    fn step(&mut self, at: i64, depth: i64) -> Result<()> {
        let code = &self.function.code;
        let Ok(index) = code.binary_search_by_key(&at, |one| one.at) else {
            return Err("no instruction begins there".to_string());
        };
        let one = &code[index];
        match effect(one)? {
            Effect::On(bytes) => self.go_on(index, depth + bytes),
            Effect::Call => {
                let to = self.destination(one)?;
                self.calls.push(Call {
                    to,
                    depth: depth + RETURN,
                });
                self.go_on(index, depth)
            }
            Effect::Branch => {
                self.jump(one, depth)?;
                self.go_on(index, depth)
            }
            Effect::Jump => self.jump(one, depth),
            Effect::JumpBy(register) => self.jump_by(index, &register, depth),
            Effect::Return if depth != 0 => {
                Err(format!("it returns with {depth} bytes on the stack"))
            }
            Effect::Return | Effect::Stop => Ok(()),
        }
    }

    fn go_on(&mut self, index: usize, depth: i64) -> Result<()> {
        let next = self.function.code.get(index + 1);
        let next = next.ok_or("the code goes on behind its end")?;
        self.ahead.push((next.at, depth));
        Ok(())
    }

    /// Where a call or a jump goes: what the linker fills in, or an address of the section.
    fn destination(&self, one: &Instruction) -> Result<Place> {
        let address = one.operands.first().and_then(|to| number(to));
        let here = address.map(|offset| Place {
            base: self.function.section.clone(),
            offset,
        });
        let to = named(one).or(here);
        to.ok_or_else(|| "it goes to an unknown place".to_string())
    }

    /// A jump within the function, or to another one, which then returns in place of this one.
    fn jump(&mut self, one: &Instruction, depth: i64) -> Result<()> {
        let to = self.destination(one)?;
        if to.base == self.function.section && self.function.has(to.offset) {
            self.ahead.push((to.offset, depth));
        } else if depth == 0 {
            self.calls.push(Call { to, depth });
        } else {
            return Err(format!(
                "it goes to {} with {depth} bytes on the stack",
                to.base
            ));
        }
        Ok(())
    }

    /// A jump by a table. It is not told by which: it may lead wherever a table of the function leads.
    fn jump_by(&mut self, index: usize, register: &str, depth: i64) -> Result<()> {
        let by_table = from_table(&self.function.code[..index], register);
        if !by_table || self.targets.is_empty() {
            return Err("it jumps by no table".to_string());
        }
        let targets = self.targets.iter().map(|target| (*target, depth));
        self.ahead.extend(targets);
        Ok(())
    }

    /// The deepest place of the function, with what it uses below its stack pointer where it calls nothing.
    fn own(&self) -> Result<i64> {
        let calls = self.function.code.iter().any(|one| one.name == "call");
        let mut deepest = 0;
        for one in &self.function.code {
            let Some(depth) = self.depths.get(&one.at) else {
                continue;
            };
            if calls && surely_below(one) {
                return Err(place(
                    self.function,
                    one.at,
                    "it calls, and reaches below its stack",
                ));
            }
            let reached = if calls { 0 } else { below(one) };
            deepest = deepest.max(depth + reached);
        }
        Ok(deepest)
    }
}
