//! Scripts for the program: random ones from a seed, and fixed ones at the edges.

use model::generate;
use model::prng::Prng;
use model::script::{LONGEST_LINE, LONGEST_SCRIPT};

/// The random script of a seed: mostly generated lines, now and then bytes that are hardly a script.
pub fn random(seed: u64) -> Vec<u8> {
    let mut prng = Prng::new(seed);
    match prng.below(16) {
        0 => noise(&mut prng),
        1 => spoiled(generate::script(seed, 40), &mut prng),
        2 => generate::script(seed, 4_000),
        _ => {
            let lines = 20 + prng.below(400) as usize;
            generate::script(seed, lines)
        }
    }
}

/// Random bytes, with spaces, digits and newlines among them.
fn noise(prng: &mut Prng) -> Vec<u8> {
    let length = prng.below(2_000);
    (0..length)
        .map(|_| match prng.below(4) {
            0 => prng.word() as u8,
            1 => b'\n',
            2 => b' ',
            _ => b'0' + prng.below(10) as u8,
        })
        .collect()
}

/// A script with a few bytes changed.
fn spoiled(mut script: Vec<u8>, prng: &mut Prng) -> Vec<u8> {
    for _ in 0..1 + prng.below(8) {
        if !script.is_empty() {
            let place = prng.below(script.len() as u64) as usize;
            script[place] = prng.word() as u8;
        }
    }
    script
}

/// Scripts at the edges, each with a name.
pub fn fixed() -> Vec<(&'static str, Vec<u8>)> {
    vec![
        ("empty", Vec::new()),
        ("one-newline", b"\n".to_vec()),
        ("no-newline", b"open 4 8\n0 own_nodes".to_vec()),
        ("longest", filled(LONGEST_SCRIPT)),
        ("too-long", filled(LONGEST_SCRIPT + 1)),
        ("too-long-of-newlines", vec![b'\n'; LONGEST_SCRIPT + 1]),
        ("longest-of-newlines", vec![b'\n'; LONGEST_SCRIPT]),
        ("long-lines", long_lines()),
        ("full", full()),
        ("wide-lists", wide_lists()),
        ("hosts", hosts()),
    ]
}

/// A script of this many bytes: commands, then a comment-like last line that is bad.
fn filled(length: usize) -> Vec<u8> {
    let mut script = b"open 64 0\n0 new_s_group 65535 18446744073709551615\n".to_vec();
    while script.len() + 200 < length {
        script.extend(b"63 own_s_groups\n0 registered_names 65535\n");
    }
    while script.len() + 1 < length {
        script.push(if script.len() % 100 == 0 { b'\n' } else { b'x' });
    }
    script.push(b'\n');
    script
}

/// Lines around the longest length, with and without a command in them.
fn long_lines() -> Vec<u8> {
    let mut script = b"open 2 0\n".to_vec();
    for length in LONGEST_LINE - 2..=LONGEST_LINE + 2 {
        let zeros = length - b"0 send ".len();
        script.extend(b"0 send ");
        script.extend(vec![b'0'; zeros]);
        script.push(b'\n');
        script.extend(vec![b'9'; length]);
        script.push(b'\n');
    }
    script
}

/// 32 groups of 32 names each and one more of both, every list asked for, then all taken apart again.
fn full() -> Vec<u8> {
    let mut script = String::from("open 64 9223372036854775808\n");
    for group in 1..=33u64 {
        script.push_str(&format!(
            "{} new_s_group {group} {}\n",
            group % 64,
            (0xFFFFu64).rotate_left(group as u32) | 1 << (group % 64)
        ));
    }
    for group in 1..=32u64 {
        for name in 1..=33u64 {
            script.push_str(&format!(
                "{} register_name {group} {name} {}\n",
                group % 64,
                name * 67_108_864 + group
            ));
        }
    }
    for group in 1..=32u64 {
        script.push_str(&format!(
            "{0} registered_names {group}\n{0} own_s_groups\n{0} own_nodes\n",
            group % 64
        ));
    }
    for group in (1..=32u64).rev() {
        script.push_str(&format!(
            "{0} remove_nodes {group} {1}\n{0} registered_names {group}\n{0} delete_s_group {group}\n{0} own_nodes\n",
            group % 64,
            0xFFu64.rotate_left(group as u32 + 8)
        ));
    }
    script.into_bytes()
}

/// One node in 32 groups: a list of 64 words, with the widest numbers.
fn wide_lists() -> Vec<u8> {
    let mut script = String::from("open 64 0\n");
    for group in 65_504..=65_535u32 {
        script.push_str(&format!("63 new_s_group {group} {}\n", u64::MAX));
    }
    script.push_str("63 own_s_groups\n");
    for name in 0..32u32 {
        script.push_str(&format!(
            "0 register_name 65535 {} {}\n",
            u32::MAX - name,
            u32::MAX - name
        ));
    }
    script.push_str("63 registered_names 65535\n0 own_nodes\n");
    script.into_bytes()
}

/// Each of 64 nodes as a host, every other one a member: names 1 to 32 of s_group 7 and 33 to 64 of s_group 8, found by each of the four lookups, and
/// again when all nodes have joined.
fn hosts() -> Vec<u8> {
    let odd = 0xAAAA_AAAA_AAAA_AAAAu64;
    let mut script = format!("open 64 0\n1 new_s_group 7 {odd}\n1 new_s_group 8 {odd}\n");
    let lookups = |name: u64| {
        let group = 7 + (name - 1) / 32;
        [
            format!("1 whereis_name {group} {name}\n"),
            format!("2 whereis_name 1 {group} {name}\n"),
            format!("1 send {group} {name}\n"),
            format!("2 send 1 {group} {name}\n"),
        ]
        .concat()
    };
    for name in 1..=64u64 {
        let (group, pid) = (7 + (name - 1) / 32, name * 67_108_864 - 1);
        script.push_str(&format!("1 register_name {group} {name} {pid}\n"));
        script.push_str(&lookups(name));
    }
    for group in 7..=8 {
        script.push_str(&format!("1 add_nodes {group} {}\n", u64::MAX));
    }
    script.extend((1..=64).map(lookups));
    script.into_bytes()
}
