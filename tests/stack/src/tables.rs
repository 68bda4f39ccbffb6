//! Jump tables. Each lies among the constants, a record for each four bytes: the distance of a place of the code from the start of the table.

use crate::listing::{Function, Instruction, Place, Records};
use crate::Result;
use std::collections::BTreeSet;

/// An entry has four bytes, as has the distance that ends an instruction.
const ENTRY: i64 = 4;

/// The place that an instruction names by a distance in its last four bytes.
pub fn named(one: &Instruction) -> Option<Place> {
    one.place.as_ref().map(|place| Place {
        base: place.base.clone(),
        offset: place.offset + ENTRY,
    })
}

/// The places that the code of all functions names: no table reaches beyond the next of them.
pub fn starts(functions: &[Function]) -> BTreeSet<Place> {
    let code = functions.iter().flat_map(|function| &function.code);
    code.filter_map(named).collect()
}

/// Where the tables that a function names lead: addresses of its section.
pub fn targets(
    function: &Function,
    records: &Records,
    starts: &BTreeSet<Place>,
) -> Result<Vec<i64>> {
    let mut all = Vec::new();
    for start in function.code.iter().filter_map(named) {
        let Some(entries) = records.get(&start.base) else {
            continue;
        };
        let mut at = start.clone();
        while let Some(entry) = entries.get(&at.offset) {
            if entry.base != function.section {
                return Err(format!(
                    "{}: a table leads to {}",
                    function.name, entry.base
                ));
            }
            all.push(entry.offset - (at.offset - start.offset));
            at.offset += ENTRY;
            if starts.contains(&at) {
                break;
            }
        }
    }
    Ok(all)
}

/// Whether a register holds a place of a table before an instruction: last the start of the table was added to it, and before that it was an entry.
pub fn from_table(before: &[Instruction], register: &str) -> bool {
    let names = |one: &&Instruction| {
        one.operands
            .iter()
            .any(|operand| operand.contains(register))
    };
    let mut naming = before.iter().rev().filter(names);
    let (Some(sum), Some(entry)) = (naming.next(), naming.next()) else {
        return false;
    };
    let [start, result] = sum.operands.as_slice() else {
        return false;
    };
    let [place, loaded] = entry.operands.as_slice() else {
        return false;
    };
    let added = sum.name == "add" && start.starts_with('%') && result == register;
    let of_table = place.starts_with(&format!("({start},")) && place.ends_with(",4)");
    added && entry.name == "movslq" && of_table && loaded == register
}
