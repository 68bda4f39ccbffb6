//! The proved functions with an index beside the table, called through their C interface.

use model::command::{Command, Request};
use model::index::IndexRequest;
use model::state::word_of;

type Words = *const u64;
type Run = *mut u64;

/// Declares functions: a table and an index, each to write or only to read, the arguments of each, the answer.
macro_rules! declared {
    ($($name:ident($run:ty, $index:ty $(, $width:ty)*);)*) => {
        extern "C" {
            $(fn $name(table: $run, len: usize, index: $index, index_len: usize, $(_: $width,)* answer: Run, room: usize) -> u32;)*
        }
    };
}

declared! {
    sgroup_open_indexed(Run, Run, u32, u64);
    sgroup_register_name_indexed(Run, Run, u32, u32, u32, u32);
    sgroup_re_register_name_indexed(Run, Run, u32, u32, u32, u32);
    sgroup_unregister_name_indexed(Run, Run, u32, u32, u32);
    sgroup_registered_names_indexed(Words, Words, u32, u32, Run, usize);
    sgroup_whereis_name_indexed(Words, Words, u32, u32, u32);
    sgroup_whereis_name_at_indexed(Run, Run, u32, u32, u32, u32);
    sgroup_send_indexed(Run, Run, u32, u32);
    sgroup_send_name_indexed(Run, Run, u32, u32, u32);
    sgroup_send_at_indexed(Run, Run, u32, u32, u32, u32);
    sgroup_new_s_group_indexed(Run, Run, u32, u32, u64);
    sgroup_add_nodes_indexed(Run, Run, u32, u32, u64);
    sgroup_remove_nodes_indexed(Run, Run, u32, u32, u64);
    sgroup_delete_s_group_indexed(Run, Run, u32, u32);
    sgroup_own_nodes_indexed(Words, Words, u32);
    sgroup_own_s_groups_indexed(Words, Words, u32, Run, usize);
    sgroup_names_of(Words, Words, u32, Run, usize);
    sgroup_index(Words, Run);
}

/// A lent run: where it starts and how long it is.
type Lent = (Run, usize);

fn lent(run: &mut [u64]) -> Lent {
    (run.as_mut_ptr(), run.len())
}

/// The request through the library, on lent runs for the table, the index, the list and the answer; what it returns.
pub fn call(
    request: &IndexRequest,
    table: &mut [u64],
    index: &mut [u64],
    out: &mut [u64],
    answer: &mut [u64],
) -> u32 {
    let ((t, len), (x, index_len)) = (lent(table), lent(index));
    let ((o, out_len), (a, room)) = (lent(out), lent(answer));
    // The runs are four slices that the borrow checker keeps apart, and each length is its slice's.
    unsafe {
        match request {
            IndexRequest::Beside(Request::Open { n, hidden }) => {
                sgroup_open_indexed(t, len, x, index_len, *n, word_of(hidden), a, room)
            }
            IndexRequest::Beside(Request::Call { caller, command }) => call_command(
                *caller,
                command,
                (t, len),
                (x, index_len),
                (o, out_len),
                (a, room),
            ),
            IndexRequest::NamesOf { p } => {
                sgroup_names_of(t, len, x, index_len, *p, o, out_len, a, room)
            }
            IndexRequest::Write => sgroup_index(t, len, x, index_len, a, room),
        }
    }
}

/// The same for a command of this caller. The runs must be there and apart.
#[rustfmt::skip]
unsafe fn call_command(i: u32, command: &Command, (t, len): Lent, (x, many): Lent, (o, out_len): Lent, (a, room): Lent) -> u32 {
    use Command::*;
    match command {
        RegisterName { s, n, p } => sgroup_register_name_indexed(t, len, x, many, i, *s, *n, *p, a, room),
        ReRegisterName { s, n, p } => sgroup_re_register_name_indexed(t, len, x, many, i, *s, *n, *p, a, room),
        UnregisterName { s, n } => sgroup_unregister_name_indexed(t, len, x, many, i, *s, *n, a, room),
        RegisteredNames { s } => sgroup_registered_names_indexed(t, len, x, many, i, *s, o, out_len, a, room),
        WhereisName { s, n } => sgroup_whereis_name_indexed(t, len, x, many, i, *s, *n, a, room),
        WhereisNameAt { at, s, n } => sgroup_whereis_name_at_indexed(t, len, x, many, i, *at, *s, *n, a, room),
        SendPid { p } => sgroup_send_indexed(t, len, x, many, i, *p, a, room),
        SendName { s, n } => sgroup_send_name_indexed(t, len, x, many, i, *s, *n, a, room),
        SendNameAt { at, s, n } => sgroup_send_at_indexed(t, len, x, many, i, *at, *s, *n, a, room),
        NewSGroup { s, set } => sgroup_new_s_group_indexed(t, len, x, many, i, *s, word_of(set), a, room),
        AddNodes { s, set } => sgroup_add_nodes_indexed(t, len, x, many, i, *s, word_of(set), a, room),
        RemoveNodes { s, set } => sgroup_remove_nodes_indexed(t, len, x, many, i, *s, word_of(set), a, room),
        DeleteSGroup { s } => sgroup_delete_s_group_indexed(t, len, x, many, i, *s, a, room),
        OwnNodes => sgroup_own_nodes_indexed(t, len, x, many, i, a, room),
        OwnSGroups => sgroup_own_s_groups_indexed(t, len, x, many, i, o, out_len, a, room),
    }
}
