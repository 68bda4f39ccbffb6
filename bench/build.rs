//! Links, beside the proved library of target/native, a copy of it whose soundness test says true at once, so that a command can be timed without the
//! test. In the copy every name sgroup_* is notest_*, and the first instructions of the test are those that return true.

use std::path::Path;
use std::{env, fs};

const TEST: &[u8] = b"table::is_sound";

fn main() {
    let here = env::var("CARGO_MANIFEST_DIR").unwrap();
    let native = Path::new(&here).join("../target/native");
    let out = env::var("OUT_DIR").unwrap();
    let copy =
        without_test(fs::read(native.join("libsgroup_c.a")).expect("target/native/libsgroup_c.a"));
    fs::write(Path::new(&out).join("libnotest_c.a"), copy).unwrap();
    println!("cargo:rustc-link-search=native={out}");
    println!("cargo:rustc-link-lib=static=notest_c");
    println!("cargo:rerun-if-changed=../target/native/libsgroup_c.a");
}

/// The archive with other names and a test that returns true.
fn without_test(mut archive: Vec<u8>) -> Vec<u8> {
    let code: &[u8] = match env::var("CARGO_CFG_TARGET_ARCH").unwrap().as_str() {
        // mov $1, %eax; ret
        "x86_64" => &[0xb8, 1, 0, 0, 0, 0xc3],
        // mov w0, #1; ret
        "aarch64" => &[0x20, 0, 0x80, 0x52, 0xc0, 0x03, 0x5f, 0xd6],
        other => panic!("no code for {other}"),
    };
    let at = place_of_test(&archive);
    archive[at..at + code.len()].copy_from_slice(code);
    let (old, new) = (b"sgroup_", b"notest_");
    for at in 0..archive.len() - old.len() {
        if &archive[at..at + old.len()] == old {
            archive[at..at + old.len()].copy_from_slice(new);
        }
    }
    archive
}

/// A little-endian number of `width` bytes.
fn number(bytes: &[u8], at: usize, width: usize) -> usize {
    (0..width).fold(0, |n, i| n | (bytes[at + i] as usize) << (8 * i))
}

/// Where the test's code begins: its symbol in the one ELF file of the archive.
fn place_of_test(archive: &[u8]) -> usize {
    let elf = archive
        .windows(4)
        .position(|w| w == b"\x7fELF")
        .expect("an ELF file in the archive");
    let (sections, size) = (
        elf + number(archive, elf + 0x28, 8),
        number(archive, elf + 0x3a, 2),
    );
    let section = |i: usize| sections + size * i;
    let start = |i: usize| elf + number(archive, section(i) + 0x18, 8);
    let symbols = (0..number(archive, elf + 0x3c, 2))
        .find(|i| number(archive, section(*i) + 4, 4) == 2)
        .expect("a symbol table");
    let names = start(number(archive, section(symbols) + 0x28, 4));
    let count = number(archive, section(symbols) + 0x20, 8) / 24;
    let named = |symbol: &usize| {
        let name = names + number(archive, *symbol, 4);
        archive[name..].starts_with(TEST) && archive[name + TEST.len()] == 0
    };
    let symbol = (0..count)
        .map(|i| start(symbols) + 24 * i)
        .find(named)
        .expect("the test is a function of its own");
    start(number(archive, symbol + 6, 2)) + number(archive, symbol + 8, 8)
}
