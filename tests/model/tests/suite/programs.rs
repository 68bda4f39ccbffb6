//! The binaries, run as programs.

use std::io::Write;
use std::process::{Command, Output, Stdio};

fn fed(program: &str, arguments: &[&str], input: &[u8]) -> Output {
    let mut child = Command::new(program)
        .args(arguments)
        .stdin(Stdio::piped())
        .stdout(Stdio::piped())
        .stderr(Stdio::piped())
        .spawn()
        .expect("the program starts");
    let mut stdin = child.stdin.take().expect("a pipe");
    stdin.write_all(input).expect("the input is taken");
    drop(stdin);
    child.wait_with_output().expect("the program ends")
}

const RUN: &str = env!("CARGO_BIN_EXE_model-run");
const GEN: &str = env!("CARGO_BIN_EXE_model-gen");
const LAUNCH: &str = env!("CARGO_BIN_EXE_model-launch");
const LAUNCHES: &str = env!("CARGO_BIN_EXE_model-launches");

#[test]
fn model_run_prints_what_the_script_prints() {
    let inputs = [
        Vec::new(),
        b"open 4 8\n0 own_nodes\n\xff\n".to_vec(),
        b"open 4 8".to_vec(),
        vec![b'\n'; 65_537],
        model::generate::script(9, 30),
    ];
    for input in inputs {
        let output = fed(RUN, &[], &input);
        assert!(output.status.success());
        assert_eq!(output.stdout, model::script::run(&input));
    }
}

#[test]
fn model_gen_prints_the_script_of_its_seed() {
    let output = fed(GEN, &["12", "40"], b"");
    assert!(output.status.success());
    assert_eq!(output.stdout, model::generate::script(12, 40));
}

#[test]
fn model_gen_without_its_numbers_tells_its_use() {
    for arguments in [&[][..], &["1"], &["1", "x"], &["1", "2", "3"]] {
        let output = fed(GEN, arguments, b"");
        assert_eq!(output.status.code(), Some(2));
        assert!(output.stdout.is_empty());
    }
}

#[test]
fn model_launches_writes_launches_and_model_launch_makes_them() {
    let folder = std::env::temp_dir().join(format!("model-launches-{}", std::process::id()));
    let name = folder.to_str().expect("a name");
    let output = fed(LAUNCHES, &["5", "4", "2", name], b"");
    assert!(output.status.success() && output.stdout.is_empty());
    let list = folder.join("list");
    let lines = std::fs::read_to_string(&list).expect("a list");
    let output = fed(LAUNCH, &[list.to_str().expect("a name")], b"");
    std::fs::remove_dir_all(&folder).expect("the folder goes");
    assert!(output.status.success());
    let printed = String::from_utf8(output.stdout).expect("a text");
    assert_eq!((lines.lines().count(), printed.lines().count()), (12, 12));
    let known = |line: &str| line.starts_with("ok") || line.starts_with("error ");
    assert!(printed.lines().all(known), "{printed}");
}

#[test]
fn the_programs_for_launches_tell_their_use() {
    for (program, arguments) in [
        (LAUNCH, &[][..]),
        (LAUNCH, &["a", "b"]),
        (LAUNCHES, &["1", "2", "3"]),
        (LAUNCHES, &["x", "2", "3", "folder"]),
    ] {
        let output = fed(program, arguments, b"");
        assert_eq!(output.status.code(), Some(2));
        assert!(output.stdout.is_empty());
    }
    let output = fed(LAUNCH, &["no-such-list"], b"");
    assert_eq!(output.status.code(), Some(1));
}
