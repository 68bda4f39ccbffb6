//! The sample of 01 and its thirteen marked steps, with every word of the table
//! after each of them, worked out by hand.

use crate::helpers::{printed, request, table, words_of_run};
use model::rules::Law;
use model::script::Session;

#[test]
fn sample_prints_as_given() {
    let input = "open 4 8\n\
                 0 new_s_group 5 3\n\
                 0 register_name 5 70 67108865\n\
                 1 whereis_name 5 70\n\
                 2 whereis_name 5 70\n\
                 1 whereis_name 5 71\n\
                 0 own_nodes\n";
    let output = "ok 0\n\
                  group 5 3 0\n\
                  true 0\n\
                  pid 67108865 0\n\
                  undefined 9\n\
                  undefined 12\n\
                  nodes 3 2 0\n";
    assert_eq!(printed(input), output);
}

/// Name 70 with pid 67108865: 70 x 2^32 + 67108865.
const ENTRY: u64 = 300_714_819_585;

/// The words after M1.
const OPENED: &[(usize, u64)] = &[(0, 4), (1, 8), (132, 1), (133, 2), (134, 4)];

/// The words after M2 to M4.
const GROUPED: &[(usize, u64)] = &[
    (0, 4),
    (1, 8),
    (2, 1),
    (4, 5),
    (36, 3),
    (68, 2),
    (69, 1),
    (134, 4),
];

/// The words after M5 to M10.
const NAMED: &[(usize, u64)] = &[
    (0, 4),
    (1, 8),
    (2, 1),
    (4, 65_541),
    (36, 3),
    (68, 2),
    (69, 1),
    (134, 4),
    (196, ENTRY),
];

/// The words after M11: 2 and 0 connected, free still {2}.
const LINKED: &[(usize, u64)] = &[
    (0, 4),
    (1, 8),
    (2, 1),
    (4, 65_541),
    (36, 3),
    (68, 6),
    (69, 1),
    (70, 1),
    (134, 4),
    (196, ENTRY),
];

/// The words after M12: 2 and 3 connected.
const LINKED_TO_HIDDEN: &[(usize, u64)] = &[
    (0, 4),
    (1, 8),
    (2, 1),
    (4, 65_541),
    (36, 3),
    (68, 6),
    (69, 1),
    (70, 9),
    (71, 4),
    (134, 4),
    (196, ENTRY),
];

/// The words after M13: one free group {0,1,2}, 1 and 2 connected.
const DELETED: &[(usize, u64)] = &[
    (0, 4),
    (1, 8),
    (68, 6),
    (69, 5),
    (70, 11),
    (71, 4),
    (132, 7),
    (133, 7),
    (134, 7),
];

#[test]
fn thirteen_marked_steps() {
    assert_eq!(ENTRY, 70 * (1 << 32) + 67_108_865);
    let steps = [
        ("open 4 8", "ok 0", OPENED),
        ("0 new_s_group 5 3", "group 5 3 0", GROUPED),
        ("2 new_s_group 6 3", "error 14", GROUPED),
        ("0 new_s_group 5 1", "error 15", GROUPED),
        ("0 register_name 5 70 67108865", "true 0", NAMED),
        ("0 register_name 5 70 1", "false 10", NAMED),
        ("1 register_name 5 71 67108865", "false 11", NAMED),
        ("1 re_register_name 5 70 67108865", "false 11", NAMED),
        ("1 unregister_name 5 99", "true 12", NAMED),
        ("2 whereis_name 5 70", "undefined 9", NAMED),
        ("2 whereis_name 0 5 70", "pid 67108865 0", LINKED),
        ("2 whereis_name 3 9 70", "undefined 8", LINKED_TO_HIDDEN),
        ("1 delete_s_group 5", "true 0", DELETED),
    ];
    let mut session = Session::new(&Law);
    for (number, (line, printed, words)) in steps.iter().enumerate() {
        let answer = session.answer(&request(line));
        assert_eq!(answer.to_string(), *printed, "M{}", number + 1);
        assert_eq!(
            words_of_run(&session.state),
            table(words),
            "M{}",
            number + 1
        );
    }
}
