//! How much stack the functions of the library for C take at most, read from its object code for x86-64.
//!
//! - `listing`: the code as objdump lists it, and the records by which the linker fills in places.
//! - `effect`: what one instruction does to the stack, and where it goes on.
//! - `tables`: where the jump tables of a function lead.
//! - `walk`: the depth of the stack at every instruction of a function, on every path.
//! - `graph`: the deepest path from a function through all that it calls.
//! - `header`: what C passes on the stack.
//!
//! Whatever is not understood is an error.

pub mod effect;
pub mod graph;
pub mod header;
pub mod listing;
pub mod tables;
pub mod walk;

use graph::{Graph, Path};
use listing::Function;
use std::collections::BTreeMap;

/// What comes out, or words that say what is not understood.
pub type Result<T> = std::result::Result<T, String>;

/// A call puts the address to return to on the stack.
pub const RETURN: i64 = 8;

/// What a call of a declared function takes below the frame of its C caller, and on which path.
pub struct Taken {
    pub name: String,
    pub bytes: i64,
    pub passed: i64,
    pub path: Path,
}

/// Every declared function, the deepest first. The listing has all code, the records are all relocations, and brackets nest so deep.
pub fn taken(listed: &str, records: &str, declared: &str, nested: i64) -> Result<Vec<Taken>> {
    let functions = listing::functions(listed)?;
    let records = listing::records(records)?;
    let words = header::declared(declared)?;
    every_one_declared(&functions, &words)?;
    let mut graph = Graph::new(&functions, &records, nested)?;
    let mut all = Vec::new();
    for (name, words) in &words {
        let path = graph.deepest(name)?;
        let passed = RETURN + header::on_stack(*words);
        all.push(Taken {
            name: name.clone(),
            bytes: passed + path.bytes,
            passed,
            path,
        });
    }
    all.sort_by_key(|one| (-one.bytes, one.name.clone()));
    Ok(all)
}

/// The names of the functions for C begin with `sgroup_` and have no path; each of them is declared.
fn every_one_declared(functions: &[Function], declared: &BTreeMap<String, i64>) -> Result<()> {
    for function in functions {
        let name = &function.name;
        let for_c = name.starts_with("sgroup_") && !name.contains("::");
        if for_c && !declared.contains_key(name) {
            return Err(format!("{name} is not declared in the header"));
        }
    }
    Ok(())
}
