//! The plain functions with the interface of the proved library: lent runs as pointers and lengths, and a test before each step.

use super::launch;
use super::sizes::Table;
use super::steps::{self, error, Answer};
use super::test::Test;
use crate::api::Api;
use std::slice::{from_raw_parts, from_raw_parts_mut};

pub const ANSWER_WORDS: usize = 4;

/// Writes the answer; the reason.
pub fn put(run: &mut [u64], answer: Answer) -> u32 {
    run[..ANSWER_WORDS].copy_from_slice(&answer);
    answer[3] as u32
}

/// The step on a table that passes.
#[inline(always)]
fn on<T: Test>(table: &mut [u64], run: &mut [u64], step: impl FnOnce(&mut Table) -> Answer) -> u32 {
    if run.len() < ANSWER_WORDS {
        return u32::MAX;
    }
    let answer = match <&mut Table>::try_from(table) {
        Err(_) => error(1),
        Ok(table) if !T::passes(table) => error(3),
        Ok(table) => step(table),
    };
    put(run, answer)
}

unsafe extern "C" fn is_sound<T: Test>(t: *const u64, len: usize) -> bool {
    <&Table>::try_from(from_raw_parts(t, len)).is_ok_and(T::passes)
}

unsafe extern "C" fn open(
    t: *mut u64,
    len: usize,
    n: u32,
    hidden: u64,
    a: *mut u64,
    room: usize,
) -> u32 {
    let (table, run) = (from_raw_parts_mut(t, len), from_raw_parts_mut(a, room));
    if room < ANSWER_WORDS {
        return u32::MAX;
    }
    put(
        run,
        <&mut Table>::try_from(table).map_or(error(1), |table| steps::open(table, n, hidden)),
    )
}

unsafe extern "C" fn launch(
    t: *mut u64,
    len: usize,
    n: u32,
    hidden: u64,
    start: u32,
    book: *const u8,
    book_len: usize,
    file: *const u8,
    file_len: usize,
    a: *mut u64,
    room: usize,
) -> u32 {
    let (table, run) = (from_raw_parts_mut(t, len), from_raw_parts_mut(a, room));
    let (book, file) = (
        from_raw_parts(book, book_len),
        from_raw_parts(file, file_len),
    );
    if room < ANSWER_WORDS {
        return u32::MAX;
    }
    let launched = |table| launch::launch(table, n, hidden, start, book, file);
    put(
        run,
        <&mut Table>::try_from(table).map_or(error(1), launched),
    )
}

/// A command of numbers that writes no list.
macro_rules! command {
    ($name:ident ($($arg:ident : $width:ty),*)) => {
        unsafe extern "C" fn $name<T: Test>(t: *mut u64, len: usize, caller: u32, $($arg: $width,)* a: *mut u64, room: usize) -> u32 {
            on::<T>(from_raw_parts_mut(t, len), from_raw_parts_mut(a, room), |table| steps::$name(table, caller, $($arg),*))
        }
    };
}

/// A command that writes a list.
macro_rules! list {
    ($name:ident ($($arg:ident : $width:ty),*)) => {
        unsafe extern "C" fn $name<T: Test>(t: *mut u64, len: usize, caller: u32, $($arg: $width,)* o: *mut u64, out_len: usize, a: *mut u64, room: usize) -> u32 {
            let out = from_raw_parts_mut(o, out_len);
            on::<T>(from_raw_parts_mut(t, len), from_raw_parts_mut(a, room), |table| steps::$name(table, caller, $($arg,)* out))
        }
    };
}

command!(register_name(s: u32, n: u32, p: u32));
command!(re_register_name(s: u32, n: u32, p: u32));
command!(unregister_name(s: u32, n: u32));
list!(registered_names(s: u32));
command!(whereis_name(s: u32, n: u32));
command!(whereis_name_at(node: u32, s: u32, n: u32));
command!(send(p: u32));
command!(send_name(s: u32, n: u32));
command!(send_at(node: u32, s: u32, n: u32));
command!(new_s_group(s: u32, set: u64));
command!(add_nodes(s: u32, set: u64));
command!(remove_nodes(s: u32, set: u64));
command!(delete_s_group(s: u32));
command!(own_nodes());
list!(own_s_groups());

/// The plain functions, each command with this test before its step.
pub const fn api<T: Test>() -> Api {
    Api {
        is_sound: is_sound::<T>,
        open,
        register_name: register_name::<T>,
        re_register_name: re_register_name::<T>,
        unregister_name: unregister_name::<T>,
        registered_names: registered_names::<T>,
        whereis_name: whereis_name::<T>,
        whereis_name_at: whereis_name_at::<T>,
        send: send::<T>,
        send_name: send_name::<T>,
        send_at: send_at::<T>,
        new_s_group: new_s_group::<T>,
        add_nodes: add_nodes::<T>,
        remove_nodes: remove_nodes::<T>,
        delete_s_group: delete_s_group::<T>,
        own_nodes: own_nodes::<T>,
        own_s_groups: own_s_groups::<T>,
        launch,
    }
}
