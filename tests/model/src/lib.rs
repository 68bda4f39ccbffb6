//! An independent model of the s_group table and its script program.
//!
//! The model is written from documents 01 and 02 and our readings of them alone.
//! It keeps the state as sets and maps and knows the table's layout only in
//! `table` and `sound`, so that it can be held against the proved library
//! without sharing its structure.
//!
//! - `answer`: values and reasons, with their numbers and printed words.
//! - `command`: the fifteen commands, their arguments and possible reasons.
//! - `state`: nodes, s_groups and free groups, and when they are well formed.
//! - `rules`: the opening and the commands, as steps on the state.
//! - `removal`: what a removal does to names, in kinds.
//! - `stranger`: what a lookup finds of the host of a pid, in kinds.
//! - `index`: the index beside the table, and every call with one.
//! - `index_change`: what a call does to the entries of an index, in kinds.
//! - `index_fault`: indexes that are mostly wrong, in kinds.
//! - `table`: the 1,220 words of a state, and the state of such words.
//! - `sound`: soundness, clause by clause, over the words.
//! - `script`: a script's bytes in, the printed bytes out.
//! - `compare`: one call on words, answered in plain numbers.
//! - `launch_file`: the text of a launch file, its tree, and where a text stops
//!   being one.
//! - `launch`: a launch: the name book, the groups kept, the table.
//! - `launch_gen`, `launch_list`: random launches, and a list of them in files.
//! - `prng`, `generate`, `malformed`, `mutate`, `crowd`: random scripts and tables.
//! - `shrink`: makes a failing script shorter and keeps it as a file.

pub mod answer;
pub mod command;
pub mod compare;
pub mod crowd;
pub mod generate;
pub mod index;
pub mod index_change;
pub mod index_fault;
pub mod launch;
pub mod launch_file;
pub mod launch_gen;
pub mod launch_list;
pub mod malformed;
pub mod mutate;
pub mod prng;
pub mod removal;
pub mod rules;
pub mod script;
pub mod shrink;
pub mod sound;
pub mod state;
pub mod stranger;
pub mod table;
