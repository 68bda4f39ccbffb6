//! Holds the proved library and the compiled program against the independent model.
//!
//! - `library`: the proved functions, called through their C interface.
//! - `case`: one call with its lent runs, and how the library's outcome differs from the model's.
//! - `random`: random cases from a seed.
//! - `kept`: a failing case as a file, and back.
//! - `smaller`, `parts`: make a failing case smaller.
//! - `launch`: one launch with its lent runs, and how the library's outcome differs from the model's; `launch_kept` makes it smaller and keeps it.
//! - `indexed`: the proved functions with an index. `index_case`: one call with an index and its lent runs, and how the library's outcome differs from the
//!   model's; `index_random` draws such cases, `index_held` calls on runs that stay in one place, `index_kept` makes a failing case smaller and keeps it.
//! - `scripts`: random and fixed scripts for the program.

pub mod case;
pub mod index_case;
pub mod index_held;
pub mod index_kept;
pub mod index_random;
pub mod indexed;
pub mod kept;
pub mod launch;
pub mod launch_kept;
pub mod library;
pub mod parts;
pub mod random;
pub mod scripts;
pub mod smaller;
