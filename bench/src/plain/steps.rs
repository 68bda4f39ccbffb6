//! The steps of the fifteen commands on a sound table, in plain Rust, written for speed.

use super::sizes::{Table, BODIES, BODY, CONTENTS, FREE, GROUPS, LINKS, MEMBERS};
use super::sound::nodes;

/// Kind, first number, second number, reason.
pub type Answer = [u64; 4];

const TRUE: u64 = 2;
pub const TRUE_DONE: Answer = [TRUE, 0, 0, 0];
const FALSE: u64 = 3;
const ERROR: u64 = 4;
const UNDEFINED: u64 = 5;
const PID: u64 = 6;

pub fn error(reason: u64) -> Answer {
    [ERROR, 0, 0, reason]
}

fn said(kind: u64, reason: u64) -> Answer {
    [kind, 0, 0, reason]
}

fn pid(p: u32, reason: u64) -> Answer {
    [PID, u64::from(p), 0, reason]
}

pub fn host(p: u32) -> usize {
    (p >> 26) as usize
}

pub fn size(t: &Table) -> u64 {
    t[0]
}

pub fn groups(t: &Table) -> usize {
    (t[2] as usize).min(GROUPS)
}

/// Where the s_group is, or where it would be.
fn place(t: &Table, s: u32) -> Result<usize, usize> {
    t[CONTENTS..CONTENTS + groups(t)].binary_search_by_key(&u64::from(s), |word| word & 0xffff)
}

fn off_range(s: u32) -> bool {
    s.wrapping_sub(1) > 65_534
}

fn has(set: u64, node: u32) -> bool {
    set >> (node & 63) & 1 == 1
}

/// The s_group that the node is a member of, or 8 or 9.
fn as_member(t: &Table, node: u32, s: u32) -> Result<usize, u64> {
    match place(t, s) {
        Err(_) => Err(8),
        Ok(i) if has(t[MEMBERS + i], node) => Ok(i),
        Ok(_) => Err(9),
    }
}

pub fn count(t: &Table, i: usize) -> usize {
    ((t[CONTENTS + i] >> 16) as usize).min(BODY)
}

pub fn body(t: &Table, i: usize) -> &[u64; BODY] {
    t[BODIES + BODY * i..][..BODY].try_into().unwrap()
}

fn body_mut(t: &mut Table, i: usize) -> &mut [u64; BODY] {
    (&mut t[BODIES + BODY * i..][..BODY]).try_into().unwrap()
}

/// Where the name is in its namespace, or where it would be.
fn seat(names: &[u64], n: u32) -> Result<usize, usize> {
    let i = names.partition_point(|word| word >> 32 < u64::from(n));
    match names.get(i) {
        Some(word) if word >> 32 == u64::from(n) => Ok(i),
        _ => Err(i),
    }
}

fn holds_pid(names: &[u64], p: u32) -> bool {
    names
        .iter()
        .fold(false, |held, word| held | (*word as u32 == p))
}

fn entry(n: u32, p: u32) -> u64 {
    u64::from(n) << 32 | u64::from(p)
}

// ---- connections and free groups

fn interconnect(t: &mut Table, set: u64) {
    for i in nodes(set) {
        t[LINKS + i] |= set & !(1 << i);
    }
}

fn one_free_group(t: &mut Table, set: u64) {
    for i in nodes(set) {
        t[FREE + i] = set;
    }
}

fn leave_free(t: &mut Table, set: u64) {
    let mut touched = 0;
    for i in nodes(set) {
        touched |= t[FREE + i];
        t[FREE + i] = 0;
    }
    for i in nodes(touched & !set) {
        t[FREE + i] &= !set;
    }
}

fn connect(t: &mut Table, a: usize, b: usize) {
    let (x, y) = (t[FREE + a], t[FREE + b]);
    if a == b || t[LINKS + a] >> b & 1 == 1 {
        return;
    }
    if x == 0 || y == 0 {
        t[LINKS + a] |= 1 << b;
        t[LINKS + b] |= 1 << a;
    } else {
        interconnect(t, x | y);
        one_free_group(t, x | y);
    }
}

/// The nodes that left become free where they are in no s_group any more.
fn become_free(t: &mut Table, gone: u64) {
    let grouped = t[MEMBERS..MEMBERS + groups(t)]
        .iter()
        .fold(0, |all, members| all | members);
    let lot = gone & !grouped & !t[1];
    if lot == 0 {
        return;
    }
    let near = nodes(lot).fold(0, |all, i| all | t[LINKS + i]);
    let all = nodes(near).fold(lot, |all, i| all | t[FREE + i]);
    interconnect(t, all);
    one_free_group(t, all);
}

fn insert_group(t: &mut Table, at: usize, s: u32, set: u64) {
    let g = groups(t).min(GROUPS - 1);
    t.copy_within(CONTENTS + at..CONTENTS + g, CONTENTS + at + 1);
    t.copy_within(MEMBERS + at..MEMBERS + g, MEMBERS + at + 1);
    t.copy_within(
        BODIES + BODY * at..BODIES + BODY * g,
        BODIES + BODY * (at + 1),
    );
    t[CONTENTS + at] = u64::from(s);
    t[MEMBERS + at] = set;
    t[BODIES + BODY * at..][..BODY].fill(0);
    t[2] += 1;
}

fn drop_group(t: &mut Table, at: usize) {
    let g = groups(t);
    t.copy_within(CONTENTS + at + 1..CONTENTS + g, CONTENTS + at);
    t.copy_within(MEMBERS + at + 1..MEMBERS + g, MEMBERS + at);
    t.copy_within(
        BODIES + BODY * (at + 1)..BODIES + BODY * g,
        BODIES + BODY * at,
    );
    t[CONTENTS + g - 1] = 0;
    t[MEMBERS + g - 1] = 0;
    t[BODIES + BODY * (g - 1)..][..BODY].fill(0);
    t[2] -= 1;
}

/// The names go whose pid lives on a node that left; the hosts of these. The hosts of all are gathered first: mostly none of them left, sometimes all. Else each
/// name is moved without a branch, since which ones go cannot be foretold.
fn drop_hosted(t: &mut Table, i: usize, gone: u64) -> u64 {
    let held = count(t, i);
    let body = body_mut(t, i);
    let hosts = body[..held]
        .iter()
        .fold(0u64, |hosts, word| hosts | 1 << (word >> 26 & 63));
    if hosts & gone == 0 {
        return 0;
    }
    let mut kept = 0;
    if hosts & !gone != 0 {
        for at in 0..held {
            let word = body[at];
            body[kept & (BODY - 1)] = word;
            kept += usize::from(!has(gone, word as u32 >> 26));
        }
    }
    body[kept..held].fill(0);
    t[CONTENTS + i] -= 65_536 * (held - kept) as u64;
    hosts & gone
}

// ---- the commands

pub fn register_name(t: &mut Table, caller: u32, s: u32, n: u32, p: u32) -> Answer {
    let i = match naming(t, caller, s, n, Some(p), FALSE) {
        Ok(i) => i,
        Err(answer) => return answer,
    };
    let held = count(t, i);
    let body = body_mut(t, i);
    let Err(at) = seat(&body[..held], n) else {
        return said(FALSE, 10);
    };
    if holds_pid(&body[..held], p) {
        return said(FALSE, 11);
    }
    if held == BODY {
        return said(FALSE, 13);
    }
    body.copy_within(at..held, at + 1);
    body[at] = entry(n, p);
    t[CONTENTS + i] += 65_536;
    said(TRUE, 0)
}

/// True where it is done.
#[inline(always)]
fn done<T>(step: Result<T, Answer>) -> Answer {
    match step {
        Ok(_) => TRUE_DONE,
        Err(answer) => answer,
    }
}

pub fn re_register_name(t: &mut Table, caller: u32, s: u32, n: u32, p: u32) -> Answer {
    done(replace_name(t, caller, s, n, p))
}

/// The same; the pid that the name had, where it had one.
#[inline(always)]
pub fn replace_name(
    t: &mut Table,
    caller: u32,
    s: u32,
    n: u32,
    p: u32,
) -> Result<Option<u32>, Answer> {
    let i = naming(t, caller, s, n, Some(p), FALSE)?;
    let held = count(t, i);
    let body = body_mut(t, i);
    if holds_pid(&body[..held], p) {
        return Err(said(FALSE, 11));
    }
    match seat(&body[..held], n) {
        Ok(at) => {
            let old = body[at] as u32;
            body[at] = entry(n, p);
            Ok(Some(old))
        }
        Err(_) if held == BODY => Err(said(FALSE, 13)),
        Err(at) => {
            body.copy_within(at..held, at + 1);
            body[at] = entry(n, p);
            t[CONTENTS + i] += 65_536;
            Ok(None)
        }
    }
}

pub fn unregister_name(t: &mut Table, caller: u32, s: u32, n: u32) -> Answer {
    done(take_name(t, caller, s, n))
}

/// The same; the pid that the name had.
#[inline(always)]
pub fn take_name(t: &mut Table, caller: u32, s: u32, n: u32) -> Result<u32, Answer> {
    let i = naming(t, caller, s, n, None, FALSE)?;
    let held = count(t, i);
    let body = body_mut(t, i);
    let Ok(at) = seat(&body[..held], n) else {
        return Err(said(TRUE, 12));
    };
    let old = body[at] as u32;
    body.copy_within(at + 1..held, at);
    body[held - 1] = 0;
    t[CONTENTS + i] -= 65_536;
    Ok(old)
}

/// Reasons 4 to 9 of a command on a name: the s_group, or the answer.
fn naming(
    t: &Table,
    caller: u32,
    s: u32,
    n: u32,
    p: Option<u32>,
    refusal: u64,
) -> Result<usize, Answer> {
    if u64::from(caller) >= size(t) {
        return Err(error(4));
    }
    if off_range(s) {
        return Err(error(5));
    }
    if n == 0 {
        return Err(error(6));
    }
    if p.is_some_and(|p| host(p) as u64 >= size(t)) {
        return Err(error(7));
    }
    as_member(t, caller, s).map_err(|reason| said(refusal, reason))
}

pub fn registered_names(t: &Table, caller: u32, s: u32, out: &mut [u64]) -> Answer {
    if u64::from(caller) >= size(t) {
        return error(4);
    }
    if off_range(s) {
        return error(5);
    }
    let i = match as_member(t, caller, s) {
        Ok(i) => i,
        Err(reason) => return said(9, reason),
    };
    let names = &body(t, i)[..count(t, i)];
    let Some(out) = out.get_mut(..names.len()) else {
        return error(17);
    };
    for (word, name) in out.iter_mut().zip(names) {
        *word = u64::from(s) << 32 | name >> 32;
    }
    [9, names.len() as u64, 0, 0]
}

/// The pid of a name, with 21 where no member hosts it; which of both comes is not branched on.
fn found(t: &Table, i: usize, n: u32) -> Answer {
    let names = &body(t, i)[..count(t, i)];
    match seat(names, n) {
        Ok(at) => {
            let p = names[at] as u32;
            let outside = !has(t[MEMBERS + i], p >> 26);
            pid(p, 21 * u64::from(outside))
        }
        Err(_) => said(UNDEFINED, 12),
    }
}

pub fn whereis_name(t: &Table, caller: u32, s: u32, n: u32) -> Answer {
    match naming(t, caller, s, n, None, UNDEFINED) {
        Ok(i) => found(t, i, n),
        Err(answer) => answer,
    }
}

pub fn whereis_name_at(t: &mut Table, caller: u32, node: u32, s: u32, n: u32) -> Answer {
    if u64::from(caller) >= size(t) {
        return error(4);
    }
    if s > 65_535 {
        return error(5);
    }
    if n == 0 {
        return error(6);
    }
    if u64::from(node) >= size(t) {
        return error(7);
    }
    connect(t, caller as usize & 63, node as usize & 63);
    if s == 0 {
        return said(UNDEFINED, 12);
    }
    match as_member(t, node, s) {
        Ok(i) => found(t, i, n),
        Err(reason) => said(UNDEFINED, reason),
    }
}

pub fn send(t: &mut Table, caller: u32, p: u32) -> Answer {
    if u64::from(caller) >= size(t) {
        return error(4);
    }
    if host(p) as u64 >= size(t) {
        return error(7);
    }
    connect(t, caller as usize & 63, host(p) & 63);
    pid(p, 0)
}

fn sent(t: &mut Table, caller: u32, answer: Answer) -> Answer {
    if answer[0] == PID {
        connect(t, caller as usize & 63, host(answer[1] as u32) & 63);
    }
    answer
}

pub fn send_name(t: &mut Table, caller: u32, s: u32, n: u32) -> Answer {
    let answer = whereis_name(t, caller, s, n);
    sent(t, caller, answer)
}

pub fn send_at(t: &mut Table, caller: u32, node: u32, s: u32, n: u32) -> Answer {
    let answer = whereis_name_at(t, caller, node, s, n);
    sent(t, caller, answer)
}

/// Reasons 4, 5 and 7 of a command on a set.
fn on_set(t: &Table, caller: u32, s: u32, set: u64) -> u64 {
    if u64::from(caller) >= size(t) {
        return 4;
    }
    if off_range(s) {
        return 5;
    }
    if set & !(u64::MAX >> (64 - size(t))) != 0 {
        return 7;
    }
    0
}

pub fn new_s_group(t: &mut Table, caller: u32, s: u32, set: u64) -> Answer {
    let reason = on_set(t, caller, s, set);
    if reason != 0 {
        return error(reason);
    }
    if !has(set, caller) {
        return error(14);
    }
    let Err(at) = place(t, s) else {
        return error(15);
    };
    if groups(t) == GROUPS {
        return error(16);
    }
    interconnect(t, set);
    leave_free(t, set);
    insert_group(t, at, s, set);
    [7, u64::from(s), set, 0]
}

pub fn add_nodes(t: &mut Table, caller: u32, s: u32, set: u64) -> Answer {
    let reason = on_set(t, caller, s, set);
    if reason != 0 {
        return error(reason);
    }
    let i = match as_member(t, caller, s) {
        Ok(i) => i,
        Err(reason) => return error(reason),
    };
    let members = t[MEMBERS + i] | set;
    interconnect(t, members);
    leave_free(t, set);
    t[MEMBERS + i] = members;
    [7, u64::from(s), set, 0]
}

pub fn remove_nodes(t: &mut Table, caller: u32, s: u32, set: u64) -> Answer {
    done(remove_members(t, caller, s, set))
}

/// The same; the hosts whose names the s_group lost.
#[inline(always)]
pub fn remove_members(t: &mut Table, caller: u32, s: u32, set: u64) -> Result<u64, Answer> {
    let reason = on_set(t, caller, s, set);
    if reason != 0 {
        return Err(error(reason));
    }
    let i = as_member(t, caller, s).map_err(error)?;
    let members = t[MEMBERS + i];
    let mut hosts = u64::MAX;
    if members & !set == 0 {
        drop_group(t, i);
    } else {
        hosts = drop_hosted(t, i, members & set);
        t[MEMBERS + i] = members & !set;
    }
    become_free(t, members & set);
    Ok(hosts)
}

pub fn delete_s_group(t: &mut Table, caller: u32, s: u32) -> Answer {
    let reason = on_set(t, caller, s, 0);
    if reason != 0 {
        return error(reason);
    }
    let i = match as_member(t, caller, s) {
        Ok(i) => i,
        Err(reason) => return error(reason),
    };
    let members = t[MEMBERS + i];
    drop_group(t, i);
    become_free(t, members);
    said(TRUE, 0)
}

pub fn own_nodes(t: &Table, caller: u32) -> Answer {
    if u64::from(caller) >= size(t) {
        return error(4);
    }
    let mut set = t[FREE + (caller as usize & 63)];
    if set == 0 {
        for members in &t[MEMBERS..MEMBERS + groups(t)] {
            set |= members & (members >> (caller & 63) & 1).wrapping_neg();
        }
    }
    if set == 0 {
        set = 1 << (caller & 63);
    }
    [8, set, u64::from(set.count_ones()), 0]
}

pub fn own_s_groups(t: &Table, caller: u32, out: &mut [u64]) -> Answer {
    if u64::from(caller) >= size(t) {
        return error(4);
    }
    let g = groups(t);
    let own = t[MEMBERS..MEMBERS + g]
        .iter()
        .fold(0, |n, members| n + (members >> (caller & 63) & 1)) as usize;
    let Some(out) = out.get_mut(..2 * own) else {
        return error(17);
    };
    let mut rooms = out.chunks_exact_mut(2);
    for (contents, members) in t[CONTENTS..CONTENTS + g]
        .iter()
        .zip(&t[MEMBERS..MEMBERS + g])
    {
        if has(*members, caller) {
            if let Some(room) = rooms.next() {
                room[0] = contents & 0xffff;
                room[1] = *members;
            }
        }
    }
    [9, 2 * own as u64, 0, 0]
}

pub fn open(t: &mut Table, n: u32, hidden: u64) -> Answer {
    if n.wrapping_sub(1) > 63 {
        return error(2);
    }
    let roster = u64::MAX >> (64 - n);
    if hidden & !roster != 0 {
        return error(7);
    }
    t.fill(0);
    t[0] = u64::from(n);
    t[1] = hidden;
    for i in nodes(roster & !hidden) {
        t[FREE + i] = 1 << i;
    }
    said(1, 0)
}
