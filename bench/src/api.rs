//! The functions of one side as pointers, so that the same loops time both; the proved side with its test and without.

use crate::plain::commands::api;
use crate::plain::test::{peers, Marks, Peer, Untested};

type Run = *mut u64;

type Text = *const u8;

type IsSound = unsafe extern "C" fn(*const u64, usize) -> bool;

extern "C" {
    fn sgroup_is_sound(t: *const u64, len: usize) -> bool;
    fn notest_is_sound(t: *const u64, len: usize) -> bool;
}

unsafe extern "C" fn never_sound(_: *const u64, _: usize) -> bool {
    false
}

/// One side; the proved functions, with their test and without; and functions that do nothing. Each but the test has a table, its arguments and an answer.
macro_rules! functions {
    ($($name:ident = $proved:ident, $untested:ident($($width:ty),*);)*) => {
        pub struct Api {
            pub is_sound: IsSound,
            $(pub $name: unsafe extern "C" fn(Run, usize, $($width,)* Run, usize) -> u32,)*
        }

        extern "C" {
            $(
                fn $proved(t: Run, len: usize, $(_: $width,)* a: Run, room: usize) -> u32;
                fn $untested(t: Run, len: usize, $(_: $width,)* a: Run, room: usize) -> u32;
            )*
        }

        pub const PROVED: Api = Api {
            is_sound: sgroup_is_sound,
            $($name: $proved,)*
        };

        pub const PROVED_UNTESTED: Api = Api {
            is_sound: notest_is_sound,
            $($name: $untested,)*
        };

        pub const NOTHING: Api = Api {
            is_sound: never_sound,
            $($name: {
                unsafe extern "C" fn nothing(_: Run, _: usize, $(_: $width,)* _: Run, _: usize) -> u32 {
                    0
                }
                nothing
            },)*
        };
    };
}

functions! {
    open = sgroup_open, notest_open(u32, u64);
    register_name = sgroup_register_name, notest_register_name(u32, u32, u32, u32);
    re_register_name = sgroup_re_register_name, notest_re_register_name(u32, u32, u32, u32);
    unregister_name = sgroup_unregister_name, notest_unregister_name(u32, u32, u32);
    registered_names = sgroup_registered_names, notest_registered_names(u32, u32, Run, usize);
    whereis_name = sgroup_whereis_name, notest_whereis_name(u32, u32, u32);
    whereis_name_at = sgroup_whereis_name_at, notest_whereis_name_at(u32, u32, u32, u32);
    send = sgroup_send, notest_send(u32, u32);
    send_name = sgroup_send_name, notest_send_name(u32, u32, u32);
    send_at = sgroup_send_at, notest_send_at(u32, u32, u32, u32);
    new_s_group = sgroup_new_s_group, notest_new_s_group(u32, u32, u64);
    add_nodes = sgroup_add_nodes, notest_add_nodes(u32, u32, u64);
    remove_nodes = sgroup_remove_nodes, notest_remove_nodes(u32, u32, u64);
    delete_s_group = sgroup_delete_s_group, notest_delete_s_group(u32, u32);
    own_nodes = sgroup_own_nodes, notest_own_nodes(u32);
    own_s_groups = sgroup_own_s_groups, notest_own_s_groups(u32, Run, usize);
    launch = sgroup_launch, notest_launch(u32, u64, u32, Text, usize, Text, usize);
}

pub const PLAIN: Api = api::<Marks>();
pub const PLAIN_UNTESTED: Api = api::<Untested>();

/// The plain functions with each of the tests, and without one.
pub const PEERS: &[Peer<Api>] = peers!(api);
pub const UNTESTED_PEERS: &[Peer<Api>] = &[Peer {
    test: NO_TEST,
    functions: PLAIN_UNTESTED,
}];
pub const NO_TEST: &str = "none";
