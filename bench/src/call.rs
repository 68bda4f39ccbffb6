//! A call with its arguments, and loops of calls on one side.

use crate::api::Api;
use crate::plain::sizes::{BODY, GROUPS};
use std::hint::black_box;

/// The fifteen commands and opening.
#[derive(Clone, Copy, Debug, PartialEq, Eq)]
pub enum Which {
    Open,
    RegisterName,
    ReRegisterName,
    UnregisterName,
    RegisteredNames,
    WhereisName,
    WhereisNameAt,
    Send,
    SendName,
    SendAt,
    NewSGroup,
    AddNodes,
    RemoveNodes,
    DeleteSGroup,
    OwnNodes,
    OwnSGroups,
}

/// The arguments; each command takes those that it has. For opening `n` is the roster size and `set` the hidden nodes.
#[derive(Clone, Copy, Debug, Default)]
pub struct Asked {
    pub caller: u32,
    pub node: u32,
    pub s: u32,
    pub n: u32,
    pub p: u32,
    pub set: u64,
}

/// Words of the run for lists: own_s_groups has two an s_group, registered_names one a name.
pub const LIST_ROOM: usize = 2 * GROUPS + BODY;

/// The runs that are lent to every call.
#[derive(Clone, PartialEq, Eq)]
pub struct Lent {
    pub table: Vec<u64>,
    pub out: Vec<u64>,
    pub answer: Vec<u64>,
}

impl Lent {
    pub fn new(table: &[u64]) -> Lent {
        Lent {
            table: table.to_vec(),
            out: vec![0; LIST_ROOM],
            answer: vec![0; 4],
        }
    }

    /// The table as it was.
    pub fn restore(&mut self, words: &[u64]) {
        self.table.copy_from_slice(words);
    }
}

/// Calls a command on one side with each of the arguments, each on a table of its own; the sum of what is returned.
#[inline(always)]
pub fn calls(api: &Api, which: Which, lent: &mut [Lent], asked: &[Asked]) -> u64 {
    macro_rules! loops {
        ($($variant:ident => $function:ident ( $($arg:ident),* ) $($list:ident)?;)*) => {
            match which {
                Which::Open => each(lent, asked, |l, x| unsafe {
                    (api.open)(l.table.as_mut_ptr(), l.table.len(), x.n, x.set, l.answer.as_mut_ptr(), l.answer.len())
                }),
                $(Which::$variant => each(lent, asked, |l, x| unsafe {
                    (api.$function)(l.table.as_mut_ptr(), l.table.len(), x.caller, $(x.$arg,)* $(l.$list.as_mut_ptr(), l.$list.len(),)? l.answer.as_mut_ptr(), l.answer.len())
                }),)*
            }
        };
    }
    loops! {
        RegisterName => register_name(s, n, p);
        ReRegisterName => re_register_name(s, n, p);
        UnregisterName => unregister_name(s, n);
        RegisteredNames => registered_names(s) out;
        WhereisName => whereis_name(s, n);
        WhereisNameAt => whereis_name_at(node, s, n);
        Send => send(p);
        SendName => send_name(s, n);
        SendAt => send_at(node, s, n);
        NewSGroup => new_s_group(s, set);
        AddNodes => add_nodes(s, set);
        RemoveNodes => remove_nodes(s, set);
        DeleteSGroup => delete_s_group(s);
        OwnNodes => own_nodes();
        OwnSGroups => own_s_groups() out;
    }
}

/// One call on one side: the number returned and all runs after it.
pub fn outcome(api: &Api, which: Which, lent: Lent, asked: Asked) -> (u64, Lent) {
    let mut all = [lent];
    let returned = calls(api, which, &mut all, &[asked]);
    let [lent] = all;
    (returned, lent)
}

/// The same loop without the calls.
#[inline(always)]
pub fn no_calls(lent: &mut [Lent], asked: &[Asked]) -> u64 {
    each(lent, asked, |_, one| one.s)
}

#[inline(always)]
fn each(lent: &mut [Lent], asked: &[Asked], call: impl Fn(&mut Lent, &Asked) -> u32) -> u64 {
    let mut sum = 0;
    for (own, one) in lent.iter_mut().zip(asked) {
        sum += u64::from(call(own, one));
        black_box(&mut sum);
    }
    sum
}

impl Which {
    /// The lookups and sends by name.
    pub const LOOKUPS: [Which; 4] = [
        Which::WhereisName,
        Which::WhereisNameAt,
        Which::SendName,
        Which::SendAt,
    ];

    pub const COMMANDS: [Which; 15] = [
        Which::RegisterName,
        Which::ReRegisterName,
        Which::UnregisterName,
        Which::RegisteredNames,
        Which::WhereisName,
        Which::WhereisNameAt,
        Which::Send,
        Which::SendName,
        Which::SendAt,
        Which::NewSGroup,
        Which::AddNodes,
        Which::RemoveNodes,
        Which::DeleteSGroup,
        Which::OwnNodes,
        Which::OwnSGroups,
    ];
}
