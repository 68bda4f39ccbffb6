//! The fastest portable soundness test that we know, in plain Rust. Pids are told apart by one run of bytes for the whole test, zeroed once: a slot holds the number of the
//! last s_group that came by, so that nothing is cleared between two s_groups.

use super::sizes::{
    Table, BODIES, BODY, CONTENTS, FREE, GROUPS, LINKS, MEMBERS, PIDS_PER_HOST, ROSTER,
};
use super::sound::pairs;

/// Below this many nodes, pairs are quicker than the turned matrix.
const TURNED_FROM: usize = 12;
/// Words that are looked at together where all must be zero.
const STRETCH: usize = 16;
/// The multiple of a pid by this has its slot in the high digits.
pub const FACTOR: u32 = 0x9e37_79b1;

/// The set of each node alone.
const ALONE: [u64; ROSTER] = {
    let mut sets = [0; ROSTER];
    let mut i = 0;
    while i < ROSTER {
        sets[i] = 1 << i;
        i += 1;
    }
    sets
};

#[inline(never)]
pub fn is_sound<const SLOTS: usize>(t: &Table) -> bool {
    let Some((n, g)) = framed(t) else {
        return false;
    };
    let limit = n as u64 * PIDS_PER_HOST;
    let mut seen = [0u8; SLOTS];
    for i in 0..g {
        let count = (t[CONTENTS + i] >> 16) as usize;
        let body: &[u64; BODY] = t[BODIES + BODY * i..BODIES + BODY * (i + 1)]
            .try_into()
            .unwrap();
        let stamp = i as u8 + 1;
        if count == BODY && n == ROSTER {
            if !stamped::<SLOTS, true>(body, limit, stamp, &mut seen) {
                return false;
            }
            continue;
        }
        let (used, unused) = body.split_at(count.min(BODY));
        if any(unused) != 0 || !stamped::<SLOTS, false>(used, limit, stamp, &mut seen) {
            return false;
        }
    }
    true
}

#[inline(always)]
fn any(words: &[u64]) -> u64 {
    let mut all = [0u64; STRETCH];
    let mut stretches = words.chunks_exact(STRETCH);
    for stretch in &mut stretches {
        for (all, word) in all.iter_mut().zip(stretch) {
            *all |= word;
        }
    }
    all.iter()
        .chain(stretches.remainder())
        .fold(0, |all, word| all | word)
}

/// The roster's size and the number of s_groups, where everything but the names is right.
#[inline(always)]
fn framed(t: &Table) -> Option<(usize, usize)> {
    let (size, hidden, count) = (t[0], t[1], t[2]);
    if size.wrapping_sub(1) >= ROSTER as u64 || count > GROUPS as u64 || t[3] != 0 {
        return None;
    }
    let roster = u64::MAX >> (ROSTER as u64 - size);
    let (n, g) = (size as usize, count as usize);
    let mut grouped = 0;
    let mut last = 0;
    let mut wrong = hidden & !roster != 0;
    let all = &t[MEMBERS..MEMBERS + g];
    for (contents, members) in t[CONTENTS..CONTENTS + g].iter().zip(all) {
        let name = contents & 0xffff;
        wrong |= (name <= last) | (contents >> 16 > BODY as u64) | (*members == 0);
        last = name;
        grouped |= members;
    }
    let links: &[u64; ROSTER] = t[LINKS..FREE].try_into().unwrap();
    let free: &[u64; ROSTER] = t[FREE..BODIES].try_into().unwrap();
    let mut off = grouped & !roster | beyond(t, n, g);
    for (word, own) in links.iter().zip(ALONE) {
        off |= word & (!roster | own);
    }
    off |= freed(links, free, n, roster & !hidden & !grouped);
    let right = !wrong && off == 0 && met(links, all) && mutual(links, n);
    right.then_some((n, g))
}

/// The words beyond the last s_group and the last node.
#[inline(always)]
fn beyond(t: &Table, n: usize, g: usize) -> u64 {
    any(&t[CONTENTS + g..MEMBERS])
        | any(&t[MEMBERS + g..LINKS])
        | any(&t[BODIES + BODY * g..])
        | any(&t[LINKS + n..FREE])
        | any(&t[FREE + n..BODIES])
}

/// Zero where each free normal node's group is what it is connected to among them, and every other word is zero.
#[inline(always)]
fn freed(links: &[u64; ROSTER], free: &[u64; ROSTER], n: usize, loose: u64) -> u64 {
    if loose == 0 {
        return any(free);
    }
    let mut off = 0;
    for i in 0..n {
        let there = (loose >> i & 1).wrapping_neg();
        off |= free[i] ^ (links[i] & loose | 1 << i) & there;
    }
    let mut left = loose;
    while left != 0 {
        let i = left.trailing_zeros() as usize;
        off |= free[i] ^ free[free[i].trailing_zeros() as usize % ROSTER];
        left &= left - 1;
    }
    off
}

/// The members of each s_group are all connected.
#[inline(always)]
fn met(links: &[u64; ROSTER], all: &[u64]) -> bool {
    let mut known = [0u64; ROSTER];
    for i in 0..ROSTER {
        known[i] = links[i] | ALONE[i];
    }
    let mut off = 0;
    for members in all {
        let mut common = u64::MAX;
        let mut left = *members;
        while left != 0 {
            common &= known[left.trailing_zeros() as usize % ROSTER];
            left &= left - 1;
        }
        off |= members & !common;
    }
    off == 0
}

/// Connections are mutual.
#[inline(always)]
fn mutual(links: &[u64; ROSTER], n: usize) -> bool {
    if n < TURNED_FROM {
        pairs(links, n)
    } else {
        turned(links)
    }
}

/// The matrix turned about its diagonal is the same. The last exchange is not written down: its rows are compared as they would be.
#[inline(always)]
fn turned(links: &[u64; ROSTER]) -> bool {
    let mut a = *links;
    exchange::<32>(&mut a, 0x0000_0000_ffff_ffff);
    exchange::<16>(&mut a, 0x0000_ffff_0000_ffff);
    exchange::<8>(&mut a, 0x00ff_00ff_00ff_00ff);
    exchange::<4>(&mut a, 0x0f0f_0f0f_0f0f_0f0f);
    exchange::<2>(&mut a, 0x3333_3333_3333_3333);
    let mut off = 0;
    for k in (0..ROSTER).step_by(2) {
        let swapped = (a[k] >> 1 ^ a[k + 1]) & 0x5555_5555_5555_5555;
        off |= a[k] ^ swapped << 1 ^ links[k] | a[k + 1] ^ swapped ^ links[k + 1];
    }
    off == 0
}

/// Blocks of STEP by STEP digits on both sides of the diagonal change places.
#[inline(always)]
fn exchange<const STEP: usize>(a: &mut [u64; ROSTER], mask: u64) {
    let mut base = 0;
    while base < ROSTER {
        for k in base..base + STEP {
            let swapped = (a[k] >> STEP ^ a[k + STEP]) & mask;
            a[k] ^= swapped << STEP;
            a[k + STEP] ^= swapped;
        }
        base += 2 * STEP;
    }
}

/// The names ascend, the pids differ and are below the limit; with WHOLE every pid is. The inner loop is left only where a slot is taken, so that nothing but
/// the test is in it.
#[inline(always)]
fn stamped<const SLOTS: usize, const WHOLE: bool>(
    used: &[u64],
    limit: u64,
    stamp: u8,
    seen: &mut [u8; SLOTS],
) -> bool {
    let shift = u32::BITS - SLOTS.trailing_zeros();
    let mut last = 0u32;
    let mut k = 0;
    'all: while k < used.len() {
        while k < used.len() {
            let word = used[k];
            let (name, pid) = ((word >> 32) as u32, word as u32);
            if name <= last || !WHOLE && u64::from(pid) >= limit {
                return false;
            }
            last = name;
            k += 1;
            let slot = &mut seen[(pid.wrapping_mul(FACTOR) >> shift) as usize];
            if *slot == stamp {
                if held_before(used, k - 1) {
                    return false;
                }
                continue 'all;
            }
            *slot = stamp;
        }
    }
    true
}

/// The pid of word k is among those before it.
#[cold]
#[inline(never)]
fn held_before(used: &[u64], k: usize) -> bool {
    let pid = used[k] as u32;
    used[..k]
        .iter()
        .fold(false, |found, word| found | (*word as u32 == pid))
}
