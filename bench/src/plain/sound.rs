//! A soundness test in plain Rust, written for speed. It marks the pids of each s_group anew.

use super::sizes::{Table, BODIES, BODY, CONTENTS, FREE, GROUPS, LINKS, MEMBERS};

/// Below this many nodes, pairs are quicker than the turned matrix.
const TURNED_FROM: usize = 22;

/// The nodes of a set, lowest first.
pub fn nodes(mut set: u64) -> impl Iterator<Item = usize> {
    std::iter::from_fn(move || {
        let node = (set != 0).then(|| set.trailing_zeros() as usize);
        set &= set.wrapping_sub(1);
        node
    })
}

#[inline(always)]
fn any(words: &[u64]) -> u64 {
    words.iter().fold(0, |all, word| all | word)
}

#[inline(never)]
pub fn is_sound(t: &Table) -> bool {
    let (size, hidden, count) = (t[0], t[1], t[2]);
    if size.wrapping_sub(1) > 63 || count > GROUPS as u64 || t[3] != 0 {
        return false;
    }
    let roster = u64::MAX >> (64 - size);
    let (n, g) = (size as usize, count as usize);
    let mut grouped = 0;
    let mut last = 0;
    let mut right = hidden & !roster == 0;
    for (contents, members) in t[CONTENTS..CONTENTS + g]
        .iter()
        .zip(&t[MEMBERS..MEMBERS + g])
    {
        let name = contents & 0xffff;
        right &= (last < name) & (contents >> 16 <= BODY as u64) & (*members != 0);
        last = name;
        grouped |= members;
    }
    let unused = any(&t[CONTENTS + g..MEMBERS])
        | any(&t[MEMBERS + g..LINKS])
        | any(&t[LINKS + n..FREE])
        | any(&t[FREE + n..BODIES])
        | any(&t[BODIES + BODY * g..]);
    right &= (unused == 0) & (grouped & !roster == 0);
    let links: &[u64; 64] = t[LINKS..FREE].try_into().unwrap();
    let free: &[u64; 64] = t[FREE..BODIES].try_into().unwrap();
    right
        && linked(links, n, roster)
        && t[MEMBERS..MEMBERS + g]
            .iter()
            .all(|members| met(links, *members))
        && freed(links, free, n, roster & !hidden & !grouped)
        && (0..g).all(|i| named(t, i, size as u32))
}

/// Connections stay on the roster, go to no node itself, and are mutual.
#[inline(always)]
fn linked(links: &[u64; 64], n: usize, roster: u64) -> bool {
    let mut off = 0;
    for (i, word) in links[..n].iter().enumerate() {
        off |= word & (!roster | 1 << i);
    }
    off == 0
        && if n < TURNED_FROM {
            pairs(links, n)
        } else {
            turned(links)
        }
}

/// The connections of each two of the first n nodes are mutual.
#[inline(always)]
pub fn pairs(links: &[u64; 64], n: usize) -> bool {
    let mut off = 0;
    for i in 0..n {
        for j in 0..i {
            off |= (links[i] >> j ^ links[j] >> i) & 1;
        }
    }
    off == 0
}

/// The matrix turned about its diagonal is the same.
#[inline(always)]
fn turned(links: &[u64; 64]) -> bool {
    let mut a = *links;
    let mut mask = 0x0000_0000_ffff_ffff_u64;
    let mut step = 32;
    while step != 0 {
        let mut base = 0;
        while base < 64 {
            for k in base..base + step {
                let swapped = (a[k] >> step ^ a[k + step]) & mask;
                a[k] ^= swapped << step;
                a[k + step] ^= swapped;
            }
            base += 2 * step;
        }
        step /= 2;
        mask ^= mask << step;
    }
    a.iter().zip(links).fold(0, |off, (x, y)| off | (x ^ y)) == 0
}

/// The members are all connected.
#[inline(always)]
fn met(links: &[u64; 64], members: u64) -> bool {
    let mut common = u64::MAX;
    for i in nodes(members) {
        common &= links[i] | 1 << i;
    }
    members & !common == 0
}

/// Each free normal node's group is what it is connected to among them, and every other word is zero.
#[inline(always)]
fn freed(links: &[u64; 64], free: &[u64; 64], n: usize, loose: u64) -> bool {
    let mut off = 0;
    for i in 0..n {
        let there = (loose >> i & 1).wrapping_neg();
        off |= free[i] ^ (links[i] & loose | 1 << i) & there;
    }
    off == 0
        && nodes(loose).fold(0, |off, i| {
            off | (free[free[i].trailing_zeros() as usize & 63] ^ free[i])
        }) == 0
}

/// The names of group i ascend, their pids differ and live on the roster, and the words after them are zero.
#[inline(always)]
fn named(t: &Table, i: usize, size: u32) -> bool {
    let count = (t[CONTENTS + i] >> 16) as usize;
    let body: &[u64; BODY] = t[BODIES + BODY * i..BODIES + BODY * (i + 1)]
        .try_into()
        .unwrap();
    super::namespace::sound(body, count, size)
}
