//! The walk over small listings that are made up. Each instruction has one byte; what stands behind an @ is what the linker fills into the one before.

use stack::{taken, Result};

const HEADER: &str = "uint32_t sgroup_f(uint64_t *table, size_t table_len);";

/// A function: its name and its code.
type Code<'a> = (&'a str, &'a str);

/// The functions as objdump lists them.
fn listed(functions: &[Code]) -> String {
    let mut text = "f.o:     file format elf64-x86-64\n".to_string();
    for (name, code) in functions {
        text += &format!("\nDisassembly of section .text.{name}:\n\n0000000000000000 <{name}>:\n");
        for (at, line) in code.split("; ").enumerate() {
            let (instruction, place) = line.split_once(" @").unwrap_or((line, ""));
            text += &format!("   {at:x}:\t{instruction}\n");
            if !place.is_empty() {
                text += &format!("\t\t\t{at:x}: R_X86_64_PLT32\t{place}\n");
            }
        }
    }
    text
}

/// What a call of `sgroup_f` takes below the address to return to.
fn deepest(functions: &[Code]) -> Result<i64> {
    by_tables(functions, "")
}

/// The same with the records of jump tables.
fn by_tables(functions: &[Code], records: &str) -> Result<i64> {
    let all = taken(&listed(functions), records, HEADER, 16)?;
    Ok(all[0].bytes - 8)
}

/// Holds that a library is refused with these words.
fn refuses(functions: &[Code], words: &str) {
    let said = deepest(functions).expect_err("a refusal");
    assert!(said.contains(words), "{functions:?}: {said}");
}

#[test]
fn pushes_room_and_calls_add_up() {
    let f = "push %rbp; sub $0x20,%rsp; call 3 @.text.g-0x4; add $0x20,%rsp; pop %rbp; ret";
    let g = "sub $0x18,%rsp; lea 0x18(%rsp),%rsp; ret";
    assert_eq!(deepest(&[("sgroup_f", f), ("g", g)]), Ok(8 + 32 + 8 + 24));
}

#[test]
fn room_may_be_made_by_a_negative_number() {
    let f = "add $0xffffffffffffff80,%rsp; sub $0xffffffffffffff80,%rsp; ret";
    assert_eq!(deepest(&[("sgroup_f", f)]), Ok(128));
}

#[test]
fn a_push_without_a_pop_is_an_error() {
    refuses(&[("sgroup_f", "push %rbp; ret")], "returns with 8 bytes");
    refuses(&[("sgroup_f", "pop %rbp; ret")], "more is taken off");
}

#[test]
fn unequal_depths_are_an_error() {
    let f = "je 2 <sgroup_f+0x2>; push %rbp; pop %rbp; ret";
    refuses(&[("sgroup_f", f)], "8 and 0 bytes deep");
}

#[test]
fn every_path_is_walked() {
    let f = "je 4 <sgroup_f+0x4>; push %rbx; pop %rbx; ret; sub $0x30,%rsp; add $0x30,%rsp; jmp 1 <sgroup_f+0x1>";
    assert_eq!(deepest(&[("sgroup_f", f)]), Ok(48));
}

#[test]
fn a_tail_jump_has_no_address_to_return_to() {
    let g = "push %rbx; pop %rbx; ret";
    let f = "sub $0x10,%rsp; add $0x10,%rsp; jmp 3 @.text.g-0x4";
    assert_eq!(deepest(&[("sgroup_f", f), ("g", g)]), Ok(16));
    let f = "test %rdi,%rdi; je 3 @.text.g-0x4; ret";
    assert_eq!(deepest(&[("sgroup_f", f), ("g", g)]), Ok(8));
}

#[test]
fn a_tail_jump_with_a_frame_is_an_error() {
    let f = "push %rbp; jmp 2 @memset-0x4";
    refuses(&[("sgroup_f", f)], "with 8 bytes on the stack");
}

#[test]
fn a_jump_into_another_function_is_an_error() {
    let f = "jmp 2 @.text.g-0x3";
    refuses(
        &[("sgroup_f", f), ("g", "nop; ret")],
        ".text.g+0x1 is called",
    );
}

#[test]
fn functions_of_the_c_library_have_their_room() {
    let f = "push %rbp; call 2 @memset-0x4; pop %rbp; ret";
    assert_eq!(deepest(&[("sgroup_f", f)]), Ok(8 + 8 + 48));
}

#[test]
fn an_unknown_outside_function_is_an_error() {
    let f = "call 1 @malloc-0x4; ret";
    refuses(&[("sgroup_f", f)], "malloc+0x0 is called");
}

#[test]
fn a_cycle_is_an_error() {
    refuses(&[("sgroup_f", "call 0 <sgroup_f>; ret")], "a cycle");
    let (f, g) = ("call 1 @.text.g-0x4; ret", "call 1 @sgroup_f-0x4; ret");
    refuses(
        &[("sgroup_f", f), ("g", g)],
        "sgroup_f > g > sgroup_f is a cycle",
    );
}

#[test]
fn brackets_nest_sixteen_deep() {
    let list = "push %rbx; call 0 <values::skip_list>; call 3 @.text.values::skip_tuple-0x4; pop %rbx; ret";
    let tuple = "sub $0x18,%rsp; call 2 @.text.values::skip_list-0x4; call 3 @.text.g-0x4; add $0x18,%rsp; ret";
    let library = [
        ("sgroup_f", "call 1 @.text.values::skip_list-0x4; ret"),
        ("values::skip_list", list),
        ("values::skip_tuple", tuple),
        ("g", "push %rbx; pop %rbx; ret"),
    ];
    assert_eq!(deepest(&library), Ok(8 + 16 * 32 + 8));
}

#[test]
fn a_cycle_through_the_nesting_functions_is_an_error() {
    let library = [
        ("sgroup_f", "call 1 @.text.values::skip_list-0x4; ret"),
        ("values::skip_list", "call 1 @.text.g-0x4; ret"),
        ("g", "call 1 @.text.values::skip_list-0x4; ret"),
    ];
    refuses(&library, "a cycle");
}

#[test]
fn what_changes_the_stack_unknown_is_an_error() {
    let strange = "and $0xffffffffffffffe0,%rsp; mov %rbp,%rsp; mov %eax,%esp; leave; enter $0x10,$0x0; pop %rsp; push %ax; pushf; \
                   sub %rax,%rsp; lea (%rsp,%rax,8),%rsp; lea 0x8(%rbp),%rsp; xchg %rsp,%rax; inc %rsp; ret $0x8; lret; syscall; \
                   int $0x80; loop 0 <sgroup_f>; cmpxchg %rsp,%rbx; mulx %rax,%rsp,%rbx; addr32 call 1; (bad); .byte 0xc4";
    for one in strange.split("; ") {
        refuses(&[("sgroup_f", &format!("{one}; ret"))], "not understood");
    }
}

#[test]
fn an_indirect_call_is_an_error() {
    refuses(&[("sgroup_f", "call *%rax; ret")], "not understood");
    refuses(&[("sgroup_f", "call *0x10(%rdi); ret")], "not understood");
}

#[test]
fn an_unknown_jump_is_an_error() {
    refuses(&[("sgroup_f", "jmp *%rax")], "jumps by no table");
    refuses(&[("sgroup_f", "jmp *(%rax)")], "not understood");
    refuses(
        &[("sgroup_f", "jmp 7f <g>")],
        ".text.sgroup_f+0x7f is called",
    );
}

#[test]
fn code_without_an_end_is_an_error() {
    refuses(&[("sgroup_f", "push %rbp")], "behind its end");
}

#[test]
fn code_that_no_path_reaches_is_an_error() {
    refuses(&[("sgroup_f", "ret; push %rbp")], "no path leads there");
    let padded = "ret; nop; data16 cs nopw 0x0(%rax,%rax,1); xchg %ax,%ax; int3";
    assert_eq!(deepest(&[("sgroup_f", padded)]), Ok(0));
}

#[test]
fn a_jump_table_is_followed() {
    let f = "lea 0x0(%rip),%rcx        # 7 <sgroup_f+0x7> @.rodata.sgroup_f-0x4; movslq (%rcx,%rax,4),%rax; add %rcx,%rax; xor %edx,%edx; \
             notrack jmp *%rax; ret; push %rbx; pop %rbx; ret";
    let records = "RELOCATION RECORDS FOR [.rodata.sgroup_f]:\n\
                   OFFSET           TYPE              VALUE\n\
                   0000000000000000 R_X86_64_PC32     .text.sgroup_f+0x0000000000000005\n\
                   0000000000000004 R_X86_64_PC32     .text.sgroup_f+0x000000000000000a\n";
    let followed = |records: &str| by_tables(&[("sgroup_f", f)], records);
    assert_eq!(followed(records), Ok(8));
    assert!(followed(&records.replace("000004 R", "000008 R")).is_err());
    assert!(followed(&records.replace("+0x000000000000000a", "+0x00000000000000aa")).is_err());
    assert!(followed(&records.replace(".text.sgroup_f", ".text.g")).is_err());
}

#[test]
fn what_lies_below_the_stack_pointer_counts() {
    let plain = "push %rbx; mov %rax,-0x18(%rsp); pop %rbx; ret";
    assert_eq!(deepest(&[("sgroup_f", plain)]), Ok(8 + 24));
    let indexed = "movb $0x0,-0x40(%rsp,%rax,1); ret";
    assert_eq!(deepest(&[("sgroup_f", indexed)]), Ok(128));
    let copied = "mov %rsp,%rax; ret";
    assert_eq!(deepest(&[("sgroup_f", copied)]), Ok(128));
}

#[test]
fn a_function_that_calls_uses_nothing_below() {
    let indexed =
        "sub $0x18,%rsp; movb $0x0,-0x40(%rsp,%rax,1); call 3 @memset-0x4; add $0x18,%rsp; ret";
    assert_eq!(deepest(&[("sgroup_f", indexed)]), Ok(24 + 8 + 48));
    let plain = "mov %rax,-0x8(%rsp); call 2 @memset-0x4; ret";
    refuses(&[("sgroup_f", plain)], "reaches below its stack");
}

#[test]
fn the_header_says_what_c_passes_on_the_stack() {
    let code = listed(&[("sgroup_f", "ret")]);
    let passed = |header: &str| taken(&code, "", header, 16).map(|all| all[0].bytes);
    let words = |count: usize| {
        let arguments = vec!["const uint64_t *a"; count].join(", ");
        format!("/* sgroup_g(x); */\n#define G(x) 1\nbool sgroup_f({arguments});\n")
    };
    assert_eq!(passed(&words(6)), Ok(8));
    assert_eq!(passed(&words(7)), Ok(8 + 16));
    assert_eq!(passed(&words(11)), Ok(8 + 48));
    assert!(passed("bool sgroup_f(double a);").is_err());
    assert!(passed("bool sgroup_g(size_t a);").is_err());
    assert!(passed("bool sgroup_f(size_t a); bool sgroup_g(size_t a);").is_err());
}

#[test]
fn another_file_format_is_an_error() {
    let code = listed(&[("sgroup_f", "ret")]).replace("x86-64", "littleaarch64");
    assert!(taken(&code, "", HEADER, 16).is_err());
}
