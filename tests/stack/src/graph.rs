//! The deepest path from a function through all that it calls.

use crate::listing::{Function, Place, Records};
use crate::walk::{walk, Walked};
use crate::{tables, Result};
use std::collections::BTreeMap;
use std::fmt;

/// Functions of the C library that the compiler puts in, and what each may take. Those of glibc 2.36 and 2.39 for x86-64 take nothing, in every variant; this
/// is room for all six registers that a function has to keep.
const OUTSIDE: [(&str, i64); 3] = [("memcpy", 48), ("memmove", 48), ("memset", 48)];

/// The functions that call each other, at most as deep as brackets nest: the depth that is left falls with each call.
const NESTING: [&str; 2] = ["values::skip_list", "values::skip_tuple"];

/// A function on a path, and what it has on the stack there, so many times.
#[derive(Clone)]
pub struct Step {
    pub name: String,
    pub bytes: i64,
    pub times: i64,
}

/// A path of calls, and all that it has on the stack.
#[derive(Clone, Default)]
pub struct Path {
    pub bytes: i64,
    pub steps: Vec<Step>,
}

impl Path {
    /// The path behind so many frames of a function.
    fn behind(&self, name: &str, bytes: i64, times: i64) -> Path {
        let first = Step {
            name: name.to_string(),
            bytes,
            times,
        };
        let mut steps = vec![first];
        steps.extend(self.steps.iter().cloned());
        Path {
            bytes: self.bytes + bytes * times,
            steps,
        }
    }
}

impl fmt::Display for Path {
    fn fmt(&self, out: &mut fmt::Formatter) -> fmt::Result {
        for (place, step) in self.steps.iter().enumerate() {
            let sign = if place == 0 { "" } else { " > " };
            write!(out, "{sign}{} ", step.name)?;
            match step.times {
                1 => write!(out, "{}", step.bytes)?,
                times => write!(out, "{times} x {}", step.bytes)?,
            }
        }
        Ok(())
    }
}

/// The functions of a library by name, with the names that they call, and the paths that are known.
pub struct Graph {
    walked: BTreeMap<String, Walked>,
    starts: BTreeMap<Place, String>,
    nested: i64,
    known: BTreeMap<String, Path>,
    open: Vec<String>,
}

impl Graph {
    pub fn new(functions: &[Function], records: &Records, nested: i64) -> Result<Graph> {
        let mut graph = Graph {
            walked: BTreeMap::new(),
            starts: BTreeMap::new(),
            nested,
            known: BTreeMap::new(),
            open: Vec::new(),
        };
        let starts = tables::starts(functions);
        for function in functions {
            let targets = tables::targets(function, records, &starts)?;
            let walked = walk(function, &targets)?;
            let start = Place {
                base: function.section.clone(),
                offset: function.start(),
            };
            let name = &function.name;
            let place_known = graph.starts.insert(start, name.clone()).is_some();
            let name_known = graph.walked.insert(name.clone(), walked).is_some();
            if place_known || name_known {
                return Err(format!("{name} is there twice"));
            }
        }
        Ok(graph)
    }

    /// The name of the function at a place.
    fn called(&self, to: &Place) -> Result<String> {
        if let Some(name) = self.starts.get(to) {
            return Ok(name.clone());
        }
        let known = self.walked.contains_key(&to.base) || outside(&to.base).is_some();
        if known && to.offset == 0 {
            return Ok(to.base.clone());
        }
        Err(format!(
            "{}+{:#x} is called, which is unknown",
            to.base, to.offset
        ))
    }

    /// The deepest path from a function.
    pub fn deepest(&mut self, name: &str) -> Result<Path> {
        if let Some(path) = self.known.get(name) {
            return Ok(path.clone());
        }
        if self.open.iter().any(|open| open == name) {
            return Err(format!(
                "{} > {name} is a cycle of calls",
                self.open.join(" > ")
            ));
        }
        let path = match outside(name) {
            Some(bytes) => Path::default().behind(name, bytes, 1),
            None if NESTING.contains(&name) => self.nesting(name)?,
            None => self.plain(name)?,
        };
        self.known.insert(name.to_string(), path.clone());
        Ok(path)
    }

    /// The names that a function calls, with the depth of each call; and what the function takes itself.
    fn calls(&self, name: &str) -> Result<(Vec<(String, i64)>, i64)> {
        let walked = self.walked.get(name);
        let walked = walked.ok_or_else(|| format!("the library has no {name}"))?;
        let mut all = Vec::new();
        for call in &walked.calls {
            let to = self
                .called(&call.to)
                .map_err(|what| format!("{name}: {what}"))?;
            all.push((to, call.depth));
        }
        Ok((all, walked.own))
    }

    /// The deepest path from a function that is in no cycle.
    fn plain(&mut self, name: &str) -> Result<Path> {
        let (calls, own) = self.calls(name)?;
        let mut deepest = Path::default().behind(name, own, 1);
        self.open.push(name.to_string());
        for (to, depth) in calls {
            let path = self.deepest(&to)?.behind(name, depth, 1);
            if path.bytes > deepest.bytes {
                deepest = path;
            }
        }
        self.open.pop();
        Ok(deepest)
    }

    /// The deepest path from the functions that nest: as many times the largest frame of theirs as they nest, then the deepest path that leaves them.
    fn nesting(&mut self, name: &str) -> Result<Path> {
        let mut there = NESTING.to_vec();
        there.retain(|one| self.walked.contains_key(*one));
        let open = self.open.len();
        self.open.extend(there.iter().map(|one| one.to_string()));
        let mut frame = 0;
        let mut leaving = Path::default();
        for one in there {
            let (calls, own) = self.calls(one)?;
            frame = frame.max(own);
            for (to, depth) in calls {
                frame = frame.max(depth);
                if NESTING.contains(&to.as_str()) {
                    continue;
                }
                let path = self.deepest(&to)?;
                if path.bytes > leaving.bytes {
                    leaving = path;
                }
            }
        }
        self.open.truncate(open);
        Ok(leaving.behind(name, frame, self.nested))
    }
}

/// What a function of the C library may take.
fn outside(name: &str) -> Option<i64> {
    OUTSIDE
        .iter()
        .find(|(known, _)| *known == name)
        .map(|(_, bytes)| *bytes)
}
