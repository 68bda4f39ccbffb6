//! How large everything is, and where each part of a table begins. No other file of this crate spells these numbers.

/// Nodes of the largest roster, s_groups of a table, names of an s_group.
pub const ROSTER: usize = 64;
pub const GROUPS: usize = 32;
pub const BODY: usize = 32;

/// Pids that a node can give.
pub const PIDS_PER_HOST: u64 = 1 << 26;

/// Where the contents begin, the members, the connections, the free groups, the names; and the words of a table.
pub const CONTENTS: usize = 4;
pub const MEMBERS: usize = CONTENTS + GROUPS;
pub const LINKS: usize = MEMBERS + GROUPS;
pub const FREE: usize = LINKS + ROSTER;
pub const BODIES: usize = FREE + ROSTER;
pub const WORDS: usize = BODIES + GROUPS * BODY;

/// Words of a row of an index, its rows, its words.
pub const ROW: usize = 2;
pub const ROWS: usize = GROUPS * BODY;
pub const INDEX_WORDS: usize = ROW * ROWS;

pub type Table = [u64; WORDS];
pub type Index = [u64; INDEX_WORDS];
