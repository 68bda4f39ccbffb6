//! The interface for comparing: outcomes in numbers, the reasons that only a
//! table run or an answer run can bring, and what is written where.

use crate::helpers::{request, state_after, table};
use model::command::Form;
use model::compare::{command, opening, outcome, Outcome};
use model::table::{words_of, WORDS};

/// Four nodes, 3 hidden, group 5 of 0 and 1 with names 70 and 71.
fn sample() -> Vec<u64> {
    words_of(&state_after(&[
        "open 4 8",
        "0 new_s_group 5 3",
        "0 register_name 5 70 67108865",
        "0 register_name 5 71 7",
    ]))
}

fn numbers(outcome: &Outcome) -> (u32, u64, u64, u32) {
    (outcome.kind, outcome.first, outcome.second, outcome.reason)
}

#[test]
fn every_kind_has_its_number() {
    let words = sample();
    let cases = [
        ("open 4 8", (1, 0, 0, 0)),
        ("0 unregister_name 5 70", (2, 0, 0, 0)),
        ("0 register_name 5 70 1", (3, 0, 0, 10)),
        ("4 own_nodes", (4, 0, 0, 4)),
        ("0 whereis_name 5 9", (5, 0, 0, 12)),
        ("0 whereis_name 5 70", (6, 67_108_865, 0, 0)),
        ("0 add_nodes 5 4", (7, 5, 4, 0)),
        ("0 own_nodes", (8, 3, 2, 0)),
        ("0 own_s_groups", (9, 2, 0, 0)),
    ];
    for (line, expected) in cases {
        assert_eq!(
            numbers(&outcome(&words, &request(line), 64)),
            expected,
            "{line}"
        );
    }
}

#[test]
fn requests_can_be_made_of_numbers() {
    assert_eq!(opening(4, 8), request("open 4 8"));
    let made = command(2, Form::WhereisNameAt, &[3, 9, 70]);
    assert_eq!(made, Some(request("2 whereis_name 3 9 70")));
    let made = command(2, Form::AddNodes, &[9, u64::MAX]);
    assert_eq!(made, Some(request("2 add_nodes 9 18446744073709551615")));
    assert_eq!(command(2, Form::AddNodes, &[1 << 32, 0]), None);
    assert_eq!(command(2, Form::AddNodes, &[1]), None);
}

#[test]
fn a_run_of_another_length_is_reason_1_for_every_call() {
    for length in [0, 1, WORDS - 1, WORDS + 1, 2 * WORDS] {
        let run = vec![9; length];
        let lines = ["open 65 0", "open 4 8", "99 own_nodes", "0 send 1"];
        for line in lines {
            let result = outcome(&run, &request(line), 0);
            assert_eq!(numbers(&result), (4, 0, 0, 1));
            assert_eq!(result.table, run);
        }
    }
}

#[test]
fn an_unsound_table_is_reason_3_except_for_opening() {
    let run = vec![u64::MAX; WORDS];
    let refused = outcome(&run, &request("99 own_nodes"), 64);
    assert_eq!(numbers(&refused), (4, 0, 0, 3));
    assert_eq!(refused.table, run);
    let opened = outcome(&run, &request("open 4 8"), 0);
    assert_eq!(numbers(&opened), (1, 0, 0, 0));
    assert_eq!(
        opened.table,
        table(&[(0, 4), (1, 8), (132, 1), (133, 2), (134, 4)])
    );
    let too_many = outcome(&run, &request("open 65 8"), 0);
    assert_eq!(numbers(&too_many), (4, 0, 0, 2));
    assert_eq!(too_many.table, run);
}

#[test]
fn room_equal_to_the_list_is_enough() {
    let words = sample();
    for (line, length) in [("1 registered_names 5", 2), ("1 own_s_groups", 2)] {
        assert_eq!(outcome(&words, &request(line), length).reason, 0);
        let short = outcome(&words, &request(line), length - 1);
        assert_eq!(numbers(&short), (4, 0, 0, 17));
        assert!(short.list.is_empty());
        assert_eq!(short.table, words);
    }
}

#[test]
fn empty_lists_need_no_room() {
    let words = sample();
    assert_eq!(
        numbers(&outcome(&words, &request("2 registered_names 5"), 0)),
        (9, 0, 0, 9)
    );
    assert_eq!(
        numbers(&outcome(&words, &request("2 registered_names 6"), 0)),
        (9, 0, 0, 8)
    );
    assert_eq!(
        numbers(&outcome(&words, &request("2 own_s_groups"), 0)),
        (9, 0, 0, 0)
    );
    assert_eq!(
        numbers(&outcome(&words, &request("4 own_s_groups"), 0)),
        (4, 0, 0, 4)
    );
}

#[test]
fn only_the_words_of_the_list_are_written() {
    let words = sample();
    let before = [u64::MAX; 5];
    let listed = outcome(&words, &request("1 registered_names 5"), before.len());
    let first = (5 << 32) + 70;
    assert_eq!(listed.list, [first, first + 1]);
    let run = listed.answer_run(&before);
    assert_eq!(run, [first, first + 1, u64::MAX, u64::MAX, u64::MAX]);
    let other = outcome(&words, &request("1 own_nodes"), before.len());
    assert_eq!(other.answer_run(&before), before);
}
