//! The functions of one side with an index beside the table, as pointers, so that the same loops time both.

use crate::plain::indexed::api;
use crate::plain::test::{peers, Marks, Peer};

type Run = *mut u64;

/// One side, the proved functions, and functions that do nothing: a table and an index, the arguments of each, the answer.
macro_rules! functions {
    ($($name:ident = $proved:ident($($width:ty),*);)*) => {
        pub struct IndexApi {
            $(pub $name: unsafe extern "C" fn(Run, usize, Run, usize, $($width,)* Run, usize) -> u32,)*
        }

        extern "C" {
            $(fn $proved(t: Run, len: usize, x: Run, many: usize, $(_: $width,)* a: Run, room: usize) -> u32;)*
        }

        pub const PROVED: IndexApi = IndexApi {
            $($name: $proved,)*
        };

        pub const NOTHING: IndexApi = IndexApi {
            $($name: {
                unsafe extern "C" fn nothing(_: Run, _: usize, _: Run, _: usize, $(_: $width,)* _: Run, _: usize) -> u32 {
                    0
                }
                nothing
            },)*
        };
    };
}

functions! {
    open = sgroup_open_indexed(u32, u64);
    register_name = sgroup_register_name_indexed(u32, u32, u32, u32);
    re_register_name = sgroup_re_register_name_indexed(u32, u32, u32, u32);
    unregister_name = sgroup_unregister_name_indexed(u32, u32, u32);
    registered_names = sgroup_registered_names_indexed(u32, u32, Run, usize);
    whereis_name = sgroup_whereis_name_indexed(u32, u32, u32);
    whereis_name_at = sgroup_whereis_name_at_indexed(u32, u32, u32, u32);
    send = sgroup_send_indexed(u32, u32);
    send_name = sgroup_send_name_indexed(u32, u32, u32);
    send_at = sgroup_send_at_indexed(u32, u32, u32, u32);
    new_s_group = sgroup_new_s_group_indexed(u32, u32, u64);
    add_nodes = sgroup_add_nodes_indexed(u32, u32, u64);
    remove_nodes = sgroup_remove_nodes_indexed(u32, u32, u64);
    delete_s_group = sgroup_delete_s_group_indexed(u32, u32);
    own_nodes = sgroup_own_nodes_indexed(u32);
    own_s_groups = sgroup_own_s_groups_indexed(u32, Run, usize);
    names_of = sgroup_names_of(u32, Run, usize);
    write = sgroup_index();
}

pub const PLAIN: IndexApi = api::<Marks>();

/// The plain functions with each of the tests of a table.
pub const PEERS: &[Peer<IndexApi>] = peers!(api);
