//! A call with an index beside the table, on one side.

use crate::call::{Asked, Which, LIST_ROOM};
use crate::index_api::IndexApi;

/// What is called: opening or a command, reading by pid, writing.
#[derive(Clone, Copy, Debug, PartialEq, Eq)]
pub enum Called {
    Beside(Which),
    NamesOf,
    Write,
}

/// The runs that are lent to every call.
#[derive(Clone, PartialEq, Eq)]
pub struct Lent {
    pub table: Vec<u64>,
    pub index: Vec<u64>,
    pub out: Vec<u64>,
    pub answer: Vec<u64>,
}

impl Lent {
    pub fn new(table: &[u64], index: &[u64]) -> Lent {
        Lent {
            table: table.to_vec(),
            index: index.to_vec(),
            out: vec![0; LIST_ROOM],
            answer: vec![0; 4],
        }
    }

    /// Table and index as these, and in the first cache.
    pub fn restore(&mut self, table: &[u64], index: &[u64]) {
        self.table.copy_from_slice(table);
        self.index.copy_from_slice(index);
        let words = self.table.iter().chain(&self.index);
        std::hint::black_box(words.fold(0, |all, word| all | word));
    }
}

/// One call; what it returns. An argument that the call does not take is not looked at.
#[rustfmt::skip]
#[inline(always)]
pub fn call(api: &IndexApi, called: Called, l: &mut Lent, asked: &Asked) -> u32 {
    let (t, len) = (l.table.as_mut_ptr(), l.table.len());
    let (x, many) = (l.index.as_mut_ptr(), l.index.len());
    let (o, out_len) = (l.out.as_mut_ptr(), l.out.len());
    let (a, room) = (l.answer.as_mut_ptr(), l.answer.len());
    let Asked { caller, node, s, n, p, set } = *asked;
    // The runs are four vectors, and each length is its own.
    unsafe {
        match called {
            Called::NamesOf => (api.names_of)(t, len, x, many, p, o, out_len, a, room),
            Called::Write => (api.write)(t, len, x, many, a, room),
            Called::Beside(which) => match which {
                Which::Open => (api.open)(t, len, x, many, n, set, a, room),
                Which::RegisterName => (api.register_name)(t, len, x, many, caller, s, n, p, a, room),
                Which::ReRegisterName => (api.re_register_name)(t, len, x, many, caller, s, n, p, a, room),
                Which::UnregisterName => (api.unregister_name)(t, len, x, many, caller, s, n, a, room),
                Which::RegisteredNames => (api.registered_names)(t, len, x, many, caller, s, o, out_len, a, room),
                Which::WhereisName => (api.whereis_name)(t, len, x, many, caller, s, n, a, room),
                Which::WhereisNameAt => (api.whereis_name_at)(t, len, x, many, caller, node, s, n, a, room),
                Which::Send => (api.send)(t, len, x, many, caller, p, a, room),
                Which::SendName => (api.send_name)(t, len, x, many, caller, s, n, a, room),
                Which::SendAt => (api.send_at)(t, len, x, many, caller, node, s, n, a, room),
                Which::NewSGroup => (api.new_s_group)(t, len, x, many, caller, s, set, a, room),
                Which::AddNodes => (api.add_nodes)(t, len, x, many, caller, s, set, a, room),
                Which::RemoveNodes => (api.remove_nodes)(t, len, x, many, caller, s, set, a, room),
                Which::DeleteSGroup => (api.delete_s_group)(t, len, x, many, caller, s, a, room),
                Which::OwnNodes => (api.own_nodes)(t, len, x, many, caller, a, room),
                Which::OwnSGroups => (api.own_s_groups)(t, len, x, many, caller, o, out_len, a, room),
            },
        }
    }
}

/// One call on one side: the number returned and all runs after it.
pub fn outcome(api: &IndexApi, called: Called, mut lent: Lent, asked: &Asked) -> (u32, Lent) {
    let returned = call(api, called, &mut lent, asked);
    (returned, lent)
}
