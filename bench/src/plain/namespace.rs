//! The soundness of a namespace in plain Rust, written for speed.

/// Marks, by which most pids of a namespace are told apart.
pub const MARKS: usize = 1024;

/// The mark of a pid: 16 times its host plus the low digits of its number.
#[inline(always)]
pub fn mark(pid: u32) -> usize {
    (pid >> 22).wrapping_add(pid & 0xffff) as usize % MARKS
}

#[inline(always)]
pub fn sound(ns: &[u64], count: usize, size: u32) -> bool {
    if count > ns.len() {
        return false;
    }
    let (used, unused) = ns.split_at(count);
    if unused.iter().fold(0, |a, w| a | w) != 0 {
        return false;
    }
    let mut last = 0;
    let mut seen = [0u64; MARKS / 64];
    for (i, w) in used.iter().enumerate() {
        let name = (w >> 32) as u32;
        let pid = *w as u32;
        if name <= last || pid >> 26 >= size {
            return false;
        }
        last = name;
        let mark = mark(pid);
        let bit = 1 << (mark % 64);
        if seen[mark / 64] & bit != 0 && used[..i].iter().fold(false, |f, v| f | (*v as u32 == pid))
        {
            return false;
        }
        seen[mark / 64] |= bit;
    }
    true
}
