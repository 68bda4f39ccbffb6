//! The same as the proved library in plain Rust, written for speed over the same words: what they are held against.

pub mod commands;
pub mod index;
pub mod indexed;
pub mod launch;
pub mod namespace;
pub mod script;
pub mod sizes;
pub mod sound;
pub mod stamps;
pub mod steps;
pub mod test;
