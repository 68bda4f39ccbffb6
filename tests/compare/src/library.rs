//! The proved functions, called through their C interface.

use model::command::{Command, Request};
use model::state::word_of;

/// Returned where the answer run is too short.
pub const NO_ROOM: u32 = u32::MAX;
/// Words that an answer takes: kind, first and second number, reason.
pub const ANSWER_WORDS: usize = 4;
/// The word of an answer that has the pid, where it is one.
pub const PID: usize = 1;

type Words = *const u64;
type Run = *mut u64;

extern "C" {
    fn sgroup_is_sound(table: Words, len: usize) -> bool;
    fn sgroup_open(table: Run, len: usize, n: u32, hidden: u64, answer: Run, room: usize) -> u32;
    fn sgroup_register_name(
        table: Run,
        len: usize,
        caller: u32,
        s: u32,
        n: u32,
        p: u32,
        answer: Run,
        room: usize,
    ) -> u32;
    fn sgroup_re_register_name(
        table: Run,
        len: usize,
        caller: u32,
        s: u32,
        n: u32,
        p: u32,
        answer: Run,
        room: usize,
    ) -> u32;
    fn sgroup_unregister_name(
        table: Run,
        len: usize,
        caller: u32,
        s: u32,
        n: u32,
        answer: Run,
        room: usize,
    ) -> u32;
    fn sgroup_registered_names(
        table: Words,
        len: usize,
        caller: u32,
        s: u32,
        out: Run,
        out_len: usize,
        answer: Run,
        room: usize,
    ) -> u32;
    fn sgroup_whereis_name(
        table: Words,
        len: usize,
        caller: u32,
        s: u32,
        n: u32,
        answer: Run,
        room: usize,
    ) -> u32;
    fn sgroup_whereis_name_at(
        table: Run,
        len: usize,
        caller: u32,
        node: u32,
        s: u32,
        n: u32,
        answer: Run,
        room: usize,
    ) -> u32;
    fn sgroup_send(table: Run, len: usize, caller: u32, p: u32, answer: Run, room: usize) -> u32;
    fn sgroup_send_name(
        table: Run,
        len: usize,
        caller: u32,
        s: u32,
        n: u32,
        answer: Run,
        room: usize,
    ) -> u32;
    fn sgroup_send_at(
        table: Run,
        len: usize,
        caller: u32,
        node: u32,
        s: u32,
        n: u32,
        answer: Run,
        room: usize,
    ) -> u32;
    fn sgroup_new_s_group(
        table: Run,
        len: usize,
        caller: u32,
        s: u32,
        set: u64,
        answer: Run,
        room: usize,
    ) -> u32;
    fn sgroup_add_nodes(
        table: Run,
        len: usize,
        caller: u32,
        s: u32,
        set: u64,
        answer: Run,
        room: usize,
    ) -> u32;
    fn sgroup_remove_nodes(
        table: Run,
        len: usize,
        caller: u32,
        s: u32,
        set: u64,
        answer: Run,
        room: usize,
    ) -> u32;
    fn sgroup_delete_s_group(
        table: Run,
        len: usize,
        caller: u32,
        s: u32,
        answer: Run,
        room: usize,
    ) -> u32;
    fn sgroup_own_nodes(table: Words, len: usize, caller: u32, answer: Run, room: usize) -> u32;
    fn sgroup_own_s_groups(
        table: Words,
        len: usize,
        caller: u32,
        out: Run,
        out_len: usize,
        answer: Run,
        room: usize,
    ) -> u32;
}

/// Whether the library finds the run sound.
pub fn is_sound(table: &[u64]) -> bool {
    unsafe { sgroup_is_sound(table.as_ptr(), table.len()) }
}

/// A lent run: where it starts and how long it is.
type Lent = (Run, usize);

fn lent(run: &mut [u64]) -> Lent {
    (run.as_mut_ptr(), run.len())
}

/// The request through the library, on lent runs for the table, the list and the answer; what it returns.
pub fn call(request: &Request, table: &mut [u64], out: &mut [u64], answer: &mut [u64]) -> u32 {
    let (t, o, a) = (lent(table), lent(out), lent(answer));
    // The runs are three slices that the borrow checker keeps apart, and each length is its slice's.
    unsafe {
        match request {
            Request::Open { n, hidden } => sgroup_open(t.0, t.1, *n, word_of(hidden), a.0, a.1),
            Request::Call { caller, command } => call_command(*caller, command, t, o, a),
        }
    }
}

/// The same for a command of this caller. The runs must be there and apart.
unsafe fn call_command(
    i: u32,
    command: &Command,
    (t, len): Lent,
    (o, out_len): Lent,
    (a, room): Lent,
) -> u32 {
    use Command::*;
    match command {
        RegisterName { s, n, p } => sgroup_register_name(t, len, i, *s, *n, *p, a, room),
        ReRegisterName { s, n, p } => sgroup_re_register_name(t, len, i, *s, *n, *p, a, room),
        UnregisterName { s, n } => sgroup_unregister_name(t, len, i, *s, *n, a, room),
        RegisteredNames { s } => sgroup_registered_names(t, len, i, *s, o, out_len, a, room),
        WhereisName { s, n } => sgroup_whereis_name(t, len, i, *s, *n, a, room),
        WhereisNameAt { at, s, n } => sgroup_whereis_name_at(t, len, i, *at, *s, *n, a, room),
        SendPid { p } => sgroup_send(t, len, i, *p, a, room),
        SendName { s, n } => sgroup_send_name(t, len, i, *s, *n, a, room),
        SendNameAt { at, s, n } => sgroup_send_at(t, len, i, *at, *s, *n, a, room),
        NewSGroup { s, set } => sgroup_new_s_group(t, len, i, *s, word_of(set), a, room),
        AddNodes { s, set } => sgroup_add_nodes(t, len, i, *s, word_of(set), a, room),
        RemoveNodes { s, set } => sgroup_remove_nodes(t, len, i, *s, word_of(set), a, room),
        DeleteSGroup { s } => sgroup_delete_s_group(t, len, i, *s, a, room),
        OwnNodes => sgroup_own_nodes(t, len, i, a, room),
        OwnSGroups => sgroup_own_s_groups(t, len, i, o, out_len, a, room),
    }
}
