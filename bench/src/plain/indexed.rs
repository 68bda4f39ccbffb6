//! The plain functions with an index beside the table, with the interface of the proved library.

use super::commands::{put, ANSWER_WORDS};
use super::index;
use super::sizes::{Index, Table};
use super::steps::{self, error, Answer};
use super::test::Test;
use crate::index_api::IndexApi;
use std::slice::{from_raw_parts, from_raw_parts_mut};

type Run = *mut u64;

/// The step on a sound table with its index, and how many rows that has.
#[inline(always)]
fn on<T: Test>(
    table: &mut [u64],
    index: &mut [u64],
    run: &mut [u64],
    step: impl FnOnce(&mut Table, &mut Index, usize) -> Answer,
) -> u32 {
    if run.len() < ANSWER_WORDS {
        return u32::MAX;
    }
    let answer = match (<&mut Table>::try_from(table), <&mut Index>::try_from(index)) {
        (Err(_), _) => error(1),
        (Ok(t), _) if !T::passes(t) => error(3),
        (Ok(t), Ok(x)) if index::is_right(t, x) => {
            let many = index::total(t);
            step(t, x, many)
        }
        _ => error(22),
    };
    put(run, answer)
}

/// Whether a call was done.
fn done(answer: &Answer) -> bool {
    answer[3] == 0
}

fn register_name(
    t: &mut Table,
    x: &mut Index,
    many: usize,
    caller: u32,
    s: u32,
    n: u32,
    p: u32,
) -> Answer {
    let answer = steps::register_name(t, caller, s, n, p);
    if done(&answer) {
        index::put_in(x, many, p, s, n);
    }
    answer
}

fn re_register_name(
    t: &mut Table,
    x: &mut Index,
    many: usize,
    caller: u32,
    s: u32,
    n: u32,
    p: u32,
) -> Answer {
    match steps::replace_name(t, caller, s, n, p) {
        Ok(Some(old)) => index::replace(x, many, (old, p), s, n),
        Ok(None) => index::put_in(x, many, p, s, n),
        Err(answer) => return answer,
    }
    steps::TRUE_DONE
}

fn unregister_name(
    t: &mut Table,
    x: &mut Index,
    many: usize,
    caller: u32,
    s: u32,
    n: u32,
) -> Answer {
    match steps::take_name(t, caller, s, n) {
        Ok(old) => index::take_out(x, many, old, s),
        Err(answer) => return answer,
    }
    steps::TRUE_DONE
}

fn remove_nodes(
    t: &mut Table,
    x: &mut Index,
    many: usize,
    caller: u32,
    s: u32,
    set: u64,
) -> Answer {
    match steps::remove_members(t, caller, s, set) {
        Ok(0) => {}
        Ok(hosts) => index::drop_hosted(x, many, s, hosts),
        Err(answer) => return answer,
    }
    steps::TRUE_DONE
}

fn delete_s_group(t: &mut Table, x: &mut Index, many: usize, caller: u32, s: u32) -> Answer {
    let answer = steps::delete_s_group(t, caller, s);
    if done(&answer) && index::total(t) != many {
        index::drop_hosted(x, many, s, u64::MAX);
    }
    answer
}

/// Commands that change rows.
macro_rules! keeps {
    ($($name:ident($($arg:ident: $width:ty),*);)*) => {
        $(pub unsafe extern "C" fn $name<T: Test>(t: Run, len: usize, x: Run, many: usize, caller: u32, $($arg: $width,)* a: Run, room: usize) -> u32 {
            on::<T>(from_raw_parts_mut(t, len), from_raw_parts_mut(x, many), from_raw_parts_mut(a, room), |t, x, many| super::$name(t, x, many, caller, $($arg),*))
        })*
    };
}

/// Commands that leave them.
macro_rules! leaves {
    ($($name:ident($($arg:ident: $width:ty),*);)*) => {
        $(pub unsafe extern "C" fn $name<T: Test>(t: Run, len: usize, x: Run, many: usize, caller: u32, $($arg: $width,)* a: Run, room: usize) -> u32 {
            on::<T>(from_raw_parts_mut(t, len), from_raw_parts_mut(x, many), from_raw_parts_mut(a, room), |t, _, _| steps::$name(t, caller, $($arg),*))
        })*
    };
}

/// Commands that write a list.
macro_rules! lists {
    ($($name:ident($($arg:ident: $width:ty),*);)*) => {
        $(pub unsafe extern "C" fn $name<T: Test>(t: Run, len: usize, x: Run, many: usize, caller: u32, $($arg: $width,)* o: Run, out_len: usize, a: Run, room: usize) -> u32 {
            let out = from_raw_parts_mut(o, out_len);
            on::<T>(from_raw_parts_mut(t, len), from_raw_parts_mut(x, many), from_raw_parts_mut(a, room), |t, _, _| steps::$name(t, caller, $($arg,)* out))
        })*
    };
}

/// The commands as they are called.
mod calls {
    use super::{from_raw_parts_mut, on, steps, Run, Test};

    keeps! {
        register_name(s: u32, n: u32, p: u32);
        re_register_name(s: u32, n: u32, p: u32);
        unregister_name(s: u32, n: u32);
        remove_nodes(s: u32, set: u64);
        delete_s_group(s: u32);
    }
    leaves! {
        whereis_name(s: u32, n: u32);
        whereis_name_at(node: u32, s: u32, n: u32);
        send(p: u32);
        send_name(s: u32, n: u32);
        send_at(node: u32, s: u32, n: u32);
        new_s_group(s: u32, set: u64);
        add_nodes(s: u32, set: u64);
        own_nodes();
    }
    lists! {
        registered_names(s: u32);
        own_s_groups();
    }
}

unsafe extern "C" fn open(
    t: Run,
    len: usize,
    x: Run,
    many: usize,
    n: u32,
    hidden: u64,
    a: Run,
    room: usize,
) -> u32 {
    let (table, index) = (from_raw_parts_mut(t, len), from_raw_parts_mut(x, many));
    let run = from_raw_parts_mut(a, room);
    if room < ANSWER_WORDS {
        return u32::MAX;
    }
    let answer = match (<&mut Table>::try_from(table), <&mut Index>::try_from(index)) {
        (Err(_), _) => error(1),
        (Ok(_), _) if n.wrapping_sub(1) > 63 => error(2),
        (Ok(_), Err(_)) => error(22),
        (Ok(t), Ok(x)) => {
            let answer = steps::open(t, n, hidden);
            if done(&answer) {
                x.fill(0);
            }
            answer
        }
    };
    put(run, answer)
}

unsafe extern "C" fn names_of<T: Test>(
    t: Run,
    len: usize,
    x: Run,
    many: usize,
    p: u32,
    o: Run,
    out_len: usize,
    a: Run,
    room: usize,
) -> u32 {
    let out = from_raw_parts_mut(o, out_len);
    on::<T>(
        from_raw_parts_mut(t, len),
        from_raw_parts_mut(x, many),
        from_raw_parts_mut(a, room),
        |t, x, many| {
            if steps::host(p) as u64 >= steps::size(t) {
                return error(7);
            }
            let rows = index::rows_of(x, many, p);
            let Some(out) = out.get_mut(..2 * rows.len()) else {
                return error(17);
            };
            for (pair, row) in out.chunks_exact_mut(2).zip(rows) {
                pair[0] = row[0] & 0xffff_ffff;
                pair[1] = row[1];
            }
            [9, 2 * rows.len() as u64, 0, 0]
        },
    )
}

unsafe extern "C" fn write<T: Test>(
    t: Run,
    len: usize,
    x: Run,
    many: usize,
    a: Run,
    room: usize,
) -> u32 {
    let (table, index) = (from_raw_parts(t, len), from_raw_parts_mut(x, many));
    let run = from_raw_parts_mut(a, room);
    if room < ANSWER_WORDS {
        return u32::MAX;
    }
    let answer = match (<&Table>::try_from(table), <&mut Index>::try_from(index)) {
        (Err(_), _) => error(1),
        (Ok(t), _) if !T::passes(t) => error(3),
        (Ok(_), Err(_)) => error(22),
        (Ok(t), Ok(x)) => {
            index::write(t, x);
            [1, 0, 0, 0]
        }
    };
    put(run, answer)
}

/// The plain functions, with this test of the table.
pub const fn api<T: Test>() -> IndexApi {
    IndexApi {
        open,
        register_name: calls::register_name::<T>,
        re_register_name: calls::re_register_name::<T>,
        unregister_name: calls::unregister_name::<T>,
        registered_names: calls::registered_names::<T>,
        whereis_name: calls::whereis_name::<T>,
        whereis_name_at: calls::whereis_name_at::<T>,
        send: calls::send::<T>,
        send_name: calls::send_name::<T>,
        send_at: calls::send_at::<T>,
        new_s_group: calls::new_s_group::<T>,
        add_nodes: calls::add_nodes::<T>,
        remove_nodes: calls::remove_nodes::<T>,
        delete_s_group: calls::delete_s_group::<T>,
        own_nodes: calls::own_nodes::<T>,
        own_s_groups: calls::own_s_groups::<T>,
        names_of: names_of::<T>,
        write: write::<T>,
    }
}
