//! The form of scripts: line ends, widths, spaces, lengths, and what a line does
//! before and after an opening.

use crate::helpers::{expect, printed};
use model::command::Form;
use model::malformed::{malformed, Fault};
use model::prng::Prng;
use model::script::{parse, run, LONGEST_SCRIPT};

#[test]
fn an_empty_script_prints_nothing() {
    assert_eq!(run(b""), b"");
}

#[test]
fn a_last_piece_without_newline_is_one_bad_line() {
    assert_eq!(printed("open 4 8"), "bad-line\n");
    assert_eq!(printed("open 4 8\n0 own_nodes"), "ok 0\nbad-line\n");
    assert_eq!(printed("open 4 8\n "), "ok 0\nbad-line\n");
    assert_eq!(printed("\n"), "bad-line\n");
    assert_eq!(printed("open 4 8\n\n"), "ok 0\nbad-line\n");
}

#[test]
fn a_bad_last_line_changes_nothing_before_it() {
    assert_eq!(
        printed("open 2 0\n0 own_nodes\n0 send 67108864"),
        "ok 0\nnodes 1 1 0\nbad-line\n"
    );
}

/// A script of so many bytes: an opening, then empty lines.
fn script_of_length(length: usize) -> Vec<u8> {
    let mut script = b"open 4 8\n".to_vec();
    script.resize(length, b'\n');
    script
}

#[test]
fn the_longest_script_runs_and_a_longer_one_is_too_long() {
    let longest = run(&script_of_length(LONGEST_SCRIPT));
    assert!(longest.starts_with(b"ok 0\nbad-line\n"));
    assert_eq!(longest.len(), 5 + 9 * (65_536 - 9));
    assert_eq!(run(&script_of_length(LONGEST_SCRIPT + 1)), b"too-long\n");
    assert_eq!(run(&vec![b'x'; LONGEST_SCRIPT]), b"bad-line\n");
    assert_eq!(run(&vec![b'x'; LONGEST_SCRIPT + 1]), b"too-long\n");
}

#[test]
fn commands_before_an_opening_find_the_table_unsound() {
    expect(&[
        ("0 own_nodes", "error 3"),
        ("99 register_name 0 0 0", "error 3"),
        ("0 whereis_name 1 0 1", "error 3"),
        ("4294967296 own_nodes", "bad-line"),
        ("open 65 0", "error 2"),
        ("0 own_nodes", "error 3"),
        ("nonsense", "bad-line"),
        ("open 4 8", "ok 0"),
        ("0 own_nodes", "nodes 1 1 0"),
    ]);
}

#[test]
fn a_repeated_opening_starts_afresh_and_a_refused_one_does_not() {
    expect(&[
        ("open 4 8", "ok 0"),
        ("0 new_s_group 5 3", "group 5 3 0"),
        ("open 65 0", "error 2"),
        ("open 4 16", "error 7"),
        ("open 04 8", "bad-line"),
        ("open 4", "bad-line"),
        ("0 own_nodes", "nodes 3 2 0"),
        ("open 2 0", "ok 0"),
        ("0 own_nodes", "nodes 1 1 0"),
        ("0 own_s_groups", "list 0 0"),
        ("2 own_nodes", "error 4"),
    ]);
}

#[test]
fn widths_are_a_matter_of_form() {
    expect(&[
        ("open 4294967295 0", "error 2"),
        ("open 4294967296 0", "bad-line"),
        ("open 64 18446744073709551615", "ok 0"),
        ("open 64 18446744073709551616", "bad-line"),
        ("open 18446744073709551616 0", "bad-line"),
        ("open 4 8", "ok 0"),
        ("4294967295 own_nodes", "error 4"),
        ("4294967296 own_nodes", "bad-line"),
        ("0 registered_names 4294967295", "error 5"),
        ("0 registered_names 4294967296", "bad-line"),
        ("0 whereis_name 5 4294967295", "undefined 8"),
        ("0 whereis_name 5 4294967296", "bad-line"),
        ("0 send 4294967295", "error 7"),
        ("0 send 4294967296", "bad-line"),
        ("0 whereis_name 4294967295 5 1", "error 7"),
        ("0 whereis_name 4294967296 5 1", "bad-line"),
        ("0 send 0 4294967296 1", "bad-line"),
        ("0 new_s_group 5 18446744073709551615", "error 7"),
        ("0 new_s_group 5 18446744073709551616", "bad-line"),
        ("0 new_s_group 4294967296 1", "bad-line"),
        (
            "0 remove_nodes 5 99999999999999999999999999999999999999999",
            "bad-line",
        ),
        ("0 own_s_groups", "list 0 0"),
    ]);
}

#[test]
fn leading_zeros_signs_and_spaces_are_bad() {
    expect(&[
        ("open 4 8", "ok 0"),
        ("00 own_nodes", "bad-line"),
        ("01 own_nodes", "bad-line"),
        ("+0 own_nodes", "bad-line"),
        ("-0 own_nodes", "bad-line"),
        ("0 send 00", "bad-line"),
        ("0 send 01", "bad-line"),
        ("0 send 0", "pid 0 0"),
        (" 0 own_nodes", "bad-line"),
        ("0 own_nodes ", "bad-line"),
        ("0  own_nodes", "bad-line"),
        ("0\town_nodes", "bad-line"),
        ("0 own_nodes\r", "bad-line"),
        ("0 own_nodes\0", "bad-line"),
        ("\u{feff}0 own_nodes", "bad-line"),
        (" ", "bad-line"),
        ("", "bad-line"),
        ("0", "bad-line"),
        ("own_nodes", "bad-line"),
        ("0 Own_nodes", "bad-line"),
        ("0 own_node", "bad-line"),
        ("0 own_nodes()", "bad-line"),
        ("0 own_nodes 0", "bad-line"),
        ("0 open 4 8", "bad-line"),
        ("Open 4 8", "bad-line"),
        ("open 4 8 0", "bad-line"),
        ("open  4 8", "bad-line"),
        ("0 own_nodes", "nodes 1 1 0"),
    ]);
}

#[test]
fn every_argument_count_is_right_or_bad() {
    for word in Form::ALL.map(Form::word) {
        for count in 0..6 {
            let line = format!("0 {word}{}\n", " 1".repeat(count));
            let known = Form::ALL
                .iter()
                .any(|form| form.word() == word && form.widths().len() == count);
            assert_eq!(parse(line.as_bytes()).is_some(), known, "{line:?}");
        }
    }
}

#[test]
fn well_formed_lines_come_back_from_their_requests() {
    for form in Form::ALL {
        let line = format!(
            "63 {}{}",
            form.word(),
            " 4294967295".repeat(form.widths().len())
        );
        let request = parse(format!("{line}\n").as_bytes()).expect("well formed");
        assert_eq!(request.line(), line);
    }
}

/// No well formed line comes near 120 bytes, so that the bound on a line's
/// length shows in no output: a longer line is bad by its form already.
#[test]
fn the_longest_well_formed_line_is_far_below_the_bound() {
    let lengths = Form::ALL.map(|form| {
        let widths = form.widths().iter();
        let digits: usize = widths
            .map(|width| 1 + width.largest().to_string().len())
            .sum();
        10 + 1 + form.word().len() + digits
    });
    assert_eq!(lengths.into_iter().max(), Some(60));
    let spaced = format!("0 own_nodes{}", " ".repeat(109));
    assert_eq!(spaced.len(), 120);
    assert_eq!(
        printed(&format!("open 1 0\n{spaced}\n{spaced} \n")),
        "ok 0\nbad-line\nbad-line\n"
    );
}

#[test]
fn every_kind_of_malformed_line_is_bad_everywhere() {
    let mut prng = Prng::new(7);
    for fault in Fault::ALL {
        for form in Form::ALL {
            let line = format!("1 {}{}\n", form.word(), " 1".repeat(form.widths().len()));
            let base = parse(line.as_bytes()).expect("well formed");
            expect_bad(fault, &malformed(fault, &base, &mut prng));
        }
        let opening = parse(b"open 9 5\n").expect("well formed");
        for _ in 0..20 {
            expect_bad(fault, &malformed(fault, &opening, &mut prng));
        }
    }
}

fn expect_bad(fault: Fault, line: &[u8]) {
    let once = [line, b"\n"].concat();
    let script = [once.as_slice(), b"open 3 0\n", &once, b"2 own_nodes\n"].concat();
    let output = String::from_utf8(run(&script)).expect("text");
    assert_eq!(
        output, "bad-line\nok 0\nbad-line\nnodes 4 1 0\n",
        "{fault:?} {line:?}"
    );
}
