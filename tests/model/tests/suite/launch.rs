//! Launches: every reason and their order, duplicates, the book, and the table
//! that comes out.

use crate::helpers::state_after;
use model::answer::{Reason, Value};
use model::launch::{launch, Book, Launched};
use model::launch_gen::{fixed, lines};
use model::table::{words_of, WORDS};

/// Four nodes and three s_groups.
const BOOK: &str = "node0\nnode1\nnode2\nnode3\nfirst\nsecond\nthird\n";

/// A file with these groups and nothing else.
fn file(groups: &str) -> Vec<u8> {
    format!("[{{kernel,[{{s_groups,[{groups}]}}]}}].\n").into_bytes()
}

/// A launch of node 0 of four on words that mean nothing.
fn launch_four(book: &str, groups: &str) -> Launched {
    launch(&old_words(), 4, 0, 0, book.as_bytes(), &file(groups))
}

fn old_words() -> Vec<u64> {
    (1..=WORDS as u64).map(|word| word * 0x9E37_79B9).collect()
}

/// The launch is refused for this reason at this place, and writes nothing.
fn refused(launched: &Launched, table: &[u64], reason: Reason, place: usize) {
    assert_eq!(launched.answer.value, Value::Error);
    assert_eq!((launched.answer.reason, launched.place), (reason, place));
    assert_eq!(launched.table, table);
}

/// A launch of node 0 of four with these groups is refused for this reason.
fn refuses(groups: &str, reason: Reason) {
    refused(&launch_four(BOOK, groups), &old_words(), reason, 0);
}

/// The launch leaves the table that these lines of a script leave.
fn leaves(launched: &Launched, lines: &[&str]) {
    assert_eq!(launched.answer.to_string(), "ok 0");
    assert_eq!(launched.place, 0);
    assert_eq!(launched.table, words_of(&state_after(lines)));
}

/// A launch of node 0 of four with these groups leaves what these lines leave
/// after the opening.
fn creates(groups: &str, created: &[&str]) {
    let lines = [&["open 4 0"], created].concat();
    leaves(&launch_four(BOOK, groups), &lines);
}

#[test]
fn no_groups_leave_the_opened_table() {
    creates("", &[]);
}

#[test]
fn each_group_is_created_by_its_lowest_member_in_the_order_of_the_file() {
    creates("{first,normal,[node1]}", &["1 new_s_group 1 2"]);
    creates(
        "{third,normal,[node3,node1]},{first,normal,[node0,node1]}",
        &["1 new_s_group 3 10", "0 new_s_group 1 3"],
    );
    creates(
        "{'second','normal',['node2','node0',node3]}",
        &["0 new_s_group 2 13"],
    );
}

#[test]
fn the_starting_node_need_not_be_in_a_group() {
    for start in 0..4 {
        let groups = file("{first,normal,[node0,node1]}");
        let launched = launch(&old_words(), 4, 0, start, BOOK.as_bytes(), &groups);
        leaves(&launched, &["open 4 0", "0 new_s_group 1 3"]);
    }
}

#[test]
fn other_pairs_are_skipped() {
    let text = b"[{stdlib,[{a,{}}]},{kernel,[{kernel,1},{s_groups,[{first,normal,[node1]}]},\
                 {normal,[]}]},{s_groups,[1,{2}]}].";
    let launched = launch(&old_words(), 4, 0, 0, BOOK.as_bytes(), text);
    leaves(&launched, &["open 4 0", "1 new_s_group 1 2"]);
}

#[test]
fn hidden_nodes_may_be_in_groups() {
    for hidden in [0, 1, 2, 8, 10, 15] {
        let groups = file("{first,normal,[node0,node1]},{second,normal,[node1,node3]}");
        let launched = launch(&old_words(), 4, hidden, 2, BOOK.as_bytes(), &groups);
        leaves(
            &launched,
            &[
                &format!("open 4 {hidden}"),
                "0 new_s_group 1 3",
                "1 new_s_group 2 10",
            ],
        );
    }
}

#[test]
fn the_run_has_exactly_its_words() {
    for length in [0, 1, 4, WORDS - 1, WORDS + 1] {
        let table = vec![7; length];
        let launched = launch(&table, 4, 0, 0, BOOK.as_bytes(), &file(""));
        refused(&launched, &table, Reason::RunLength, 0);
    }
}

#[test]
fn the_roster_has_1_to_64_nodes() {
    for n in [0, 65, u32::MAX] {
        let launched = launch(&old_words(), n, 0, 0, BOOK.as_bytes(), &file(""));
        refused(&launched, &old_words(), Reason::RosterSize, 0);
    }
}

#[test]
fn the_hidden_set_and_the_starting_node_are_on_the_roster() {
    for (hidden, start) in [(16, 0), (1 << 63, 0), (0, 4), (0, u32::MAX), (16, 4)] {
        let launched = launch(&old_words(), 4, hidden, start, BOOK.as_bytes(), &file(""));
        refused(&launched, &old_words(), Reason::NodeOffRoster, 0);
    }
}

#[test]
fn a_roster_of_64() {
    let nodes: Vec<Vec<u8>> = (0..64).map(|k| format!("n{k}").into_bytes()).collect();
    let book = [lines(&nodes), lines(&[b"all".to_vec(), b"last".to_vec()])].concat();
    let all: Vec<String> = (0..64).map(|k| format!("n{}", 63 - k)).collect();
    let groups = format!("{{all,normal,[{}]}},{{last,normal,[n63]}}", all.join(","));
    let launched = launch(&old_words(), 64, u64::MAX, 63, &book, &file(&groups));
    leaves(
        &launched,
        &[
            "open 64 18446744073709551615",
            "0 new_s_group 1 18446744073709551615",
            "63 new_s_group 2 9223372036854775808",
        ],
    );
    let off = launch(&old_words(), 64, 0, 64, &book, &file(&groups));
    refused(&off, &old_words(), Reason::NodeOffRoster, 0);
}

#[test]
fn a_bad_book_has_place_0() {
    let bad = [
        "",
        "node0\nnode1\nnode2\n",
        "node0\nnode1\nnode2\nnode3",
        "node0\nnode1\nnode2\nnode3\nfirst",
        "node0\nnode1\n\nnode2\nnode3\n",
        "\nnode0\nnode1\nnode2\nnode3\n",
        "node0\nnode1\nnode2\nnode3\nfirst\n\n",
        "node0\nnode1\nnode0\nnode3\nfirst\n",
        "node0\nnode1\nnode2\nnode3\nnode2\n",
        "node0\nnode1\nnode2\nnode3\nfirst\nsecond\nfirst\n",
    ];
    for book in bad {
        let launched = launch_four(book, "{first,normal,[node1]}");
        refused(&launched, &old_words(), Reason::NotLaunchFile, 0);
    }
}

#[test]
fn a_book_of_exactly_the_roster_has_no_group() {
    let four = "node0\nnode1\nnode2\nnode3\n";
    leaves(&launch_four(four, ""), &["open 4 0"]);
    let launched = launch_four(four, "{first,normal,[node1]}");
    refused(&launched, &old_words(), Reason::AtomNotInBook, 0);
}

#[test]
fn lines_of_a_book_have_1_to_64_bytes_of_any_kind() {
    let accepted = |line: &[u8]| Book::read(&[b"a\n", line, b"\n"].concat(), 1).is_some();
    assert!(accepted(b"b"));
    assert!(accepted(&[b'x'; 64]));
    assert!(!accepted(&[b'x'; 65]));
    assert!(!accepted(b""));
    assert!(!accepted(b"a"));
    for byte in 0..=255 {
        assert!(accepted(&[b'b', byte, b'c']), "byte {byte}");
        assert_eq!(accepted(&[byte]), byte != b'\n' && byte != b'a');
    }
    let book = Book::read(b"a\r\nb \n 'c'\n", 2).expect("a book");
    assert_eq!(book.nodes, [b"a\r", b"b "]);
    assert_eq!(book.groups, [b" 'c'"]);
}

#[test]
fn a_book_with_65_535_group_atoms_and_one_with_more() {
    let [(_, largest), (_, larger)] = &fixed()[..] else {
        panic!("two launches at the edge");
    };
    let launched = |l: &model::launch_gen::Launch| {
        launch(&old_words(), l.n, l.hidden, l.start, &l.book, &l.file)
    };
    leaves(&launched(largest), &["open 2 0", "1 new_s_group 65535 2"]);
    refused(&launched(larger), &old_words(), Reason::NotLaunchFile, 0);
    let atoms: Vec<Vec<u8>> = (0..65_536).map(|k| k.to_string().into_bytes()).collect();
    assert!(Book::read(&lines(&atoms), 1).is_some());
    assert!(Book::read(&lines(&atoms), 0).is_none());
}

#[test]
fn a_file_that_is_none_is_refused_at_its_place() {
    for (text, place) in [("", 0), ("x", 0), ("[{kernel", 8), ("[].", 1)] {
        let launched = launch(&old_words(), 4, 0, 0, BOOK.as_bytes(), text.as_bytes());
        refused(&launched, &old_words(), Reason::NotLaunchFile, place);
    }
}

#[test]
fn equal_duplicates_make_one_group_at_its_first_place() {
    let once = &["0 new_s_group 1 3"];
    creates(
        "{first,normal,[node0,node1]},{first,normal,[node0,node1]}",
        once,
    );
    creates(
        "{first,normal,[node0,node1]},{first,normal,[node1,node0]}",
        once,
    );
    creates(
        "{first,normal,[node0,node1]},{'first',normal,['node1',node1,node0]}",
        once,
    );
    creates("{first,normal,[node0,node0,node1]}", once);
    creates(
        "{second,normal,[node2]},{first,normal,[node3]},{second,normal,[node2]},\
         {third,normal,[node2]},{first,normal,[node3]},{second,normal,[node2]}",
        &[
            "2 new_s_group 2 4",
            "3 new_s_group 1 8",
            "2 new_s_group 3 4",
        ],
    );
}

#[test]
fn unequal_duplicates_make_none_where_the_starting_node_is_in_none() {
    let unequal = "{first,normal,[node1,node2]},{second,normal,[node0]},{first,normal,[node1]}";
    creates(unequal, &["0 new_s_group 2 1"]);
    let twice_equal = "{first,normal,[node1]},{first,normal,[node1]},{first,normal,[node2]}";
    creates(twice_equal, &[]);
    creates("{first,normal,[node1]},{first,normal,[node3,node1]}", &[]);
}

#[test]
fn unequal_duplicates_refuse_where_the_starting_node_is_in_any() {
    for groups in [
        "{first,normal,[node0,node2]},{first,normal,[node1]}",
        "{first,normal,[node1]},{first,normal,[node2,node0]}",
        "{first,normal,[node1]},{first,normal,[node1]},{first,normal,['node0']}",
        "{first,normal,[node0]},{first,normal,[node0]},{first,normal,[node0,node1]}",
        "{strange,normal,[node0]},{strange,normal,[node0,unknown]}",
    ] {
        refuses(groups, Reason::Duplicates);
    }
    let groups = file("{first,normal,[node0]},{first,normal,[node1]}");
    for (start, reason) in [(0, 19), (1, 19), (2, 0), (3, 0)] {
        let launched = launch(&old_words(), 4, 0, start, BOOK.as_bytes(), &groups);
        assert_eq!(launched.answer.reason.number(), reason, "start {start}");
    }
}

#[test]
fn duplicates_are_compared_as_atoms_not_by_the_book() {
    creates("{first,normal,[node1]},{first,normal,[unknown]}", &[]);
    refuses(
        "{first,normal,[node1]},{second,normal,[unknown]}",
        Reason::AtomNotInBook,
    );
    refuses(
        "{first,normal,[unknown]},{first,normal,[unknown]}",
        Reason::AtomNotInBook,
    );
}

#[test]
fn atoms_of_kept_groups_are_in_their_part_of_the_book() {
    for groups in [
        "{strange,normal,[node0]}",
        "{first,normal,[node0,strange]}",
        "{node0,normal,[node1]}",
        "{first,normal,[second]}",
        "{first,normal,[node0]},{'',normal,[node0]}",
        "{first,normal,['']}",
        "{first,normal,['node0\n']}",
        "{'First',normal,[node0]}",
    ] {
        refuses(groups, Reason::AtomNotInBook);
    }
    creates("{strange,normal,[node1]},{strange,normal,[nobody]}", &[]);
}

#[test]
fn node_atoms_beyond_the_roster_are_group_atoms() {
    let groups = file("{node3,normal,[node2]},{second,normal,[node0]}");
    let launched = launch(&old_words(), 3, 0, 0, BOOK.as_bytes(), &groups);
    leaves(
        &launched,
        &["open 3 0", "2 new_s_group 1 4", "0 new_s_group 3 1"],
    );
    let launched = launch(
        &old_words(),
        3,
        0,
        0,
        BOOK.as_bytes(),
        &file("{first,normal,[node3]}"),
    );
    refused(&launched, &old_words(), Reason::AtomNotInBook, 0);
}

/// A book with forty groups g1 to g40, and the groups of these numbers.
fn many_groups(numbers: impl Iterator<Item = u32>, extra: &str) -> Launched {
    let groups: Vec<Vec<u8>> = (1..=40).map(|k| format!("g{k}").into_bytes()).collect();
    let book = [b"node0\nnode1\n", lines(&groups).as_slice()].concat();
    let mut all: Vec<String> = numbers
        .map(|k| format!("{{g{k},normal,[node1]}}"))
        .collect();
    if !extra.is_empty() {
        all.push(extra.to_string());
    }
    launch(&old_words(), 2, 0, 0, &book, &file(&all.join(",")))
}

#[test]
fn at_most_32_groups_are_kept() {
    let created: Vec<String> = (1..=32).map(|k| format!("1 new_s_group {k} 2")).collect();
    let mut expected = vec!["open 2 0"];
    expected.extend(created.iter().map(String::as_str));
    leaves(&many_groups(1..=32, ""), &expected);
    leaves(&many_groups((1..=32).rev(), ""), &expected);
    leaves(&many_groups((1..=32).chain(1..=32), ""), &expected);
    refused(
        &many_groups(1..=33, ""),
        &old_words(),
        Reason::GroupsFull,
        0,
    );
    refused(
        &many_groups(1..=40, ""),
        &old_words(),
        Reason::GroupsFull,
        0,
    );
    let dropped = many_groups(1..=33, "{g33,normal,[node0,node1]}");
    refused(&dropped, &old_words(), Reason::Duplicates, 0);
}

#[test]
fn groups_that_are_dropped_are_not_counted() {
    let groups: Vec<Vec<u8>> = (1..=40).map(|k| format!("g{k}").into_bytes()).collect();
    let book = [b"node0\nnode1\n", lines(&groups).as_slice()].concat();
    let mut all: Vec<String> = (1..=33)
        .map(|k| format!("{{g{k},normal,[node0]}}"))
        .collect();
    all.insert(0, "{g33,normal,[node0,nobody]}".to_string());
    let text = file(&all.join(","));
    let launched = launch(&old_words(), 2, 0, 1, &book, &text);
    let created: Vec<String> = (1..=32).map(|k| format!("0 new_s_group {k} 1")).collect();
    let mut expected = vec!["open 2 0"];
    expected.extend(created.iter().map(String::as_str));
    leaves(&launched, &expected);
}

/// Everything that can be wrong with a launch, one part after the other right.
#[test]
fn the_order_of_the_reasons() {
    let good_book = {
        let groups: Vec<Vec<u8>> = (1..=40).map(|k| format!("g{k}").into_bytes()).collect();
        [b"node0\nnode1\n", lines(&groups).as_slice()].concat()
    };
    let bad_book = [good_book.as_slice(), b"\n"].concat();
    let numbered = |from: u32, to: u32| -> String {
        let all: Vec<String> = (from..=to)
            .map(|k| format!("{{g{k},normal,[node1]}}"))
            .collect();
        all.join(",")
    };
    let duplicates = "{d,normal,[node0]},{d,normal,[node1]}";
    let worst = file(&format!(
        "{duplicates},{{e,normal,[x]}},{}",
        numbered(1, 33)
    ));
    let bad_file = [&worst[..worst.len() - 2], b"!"].concat();
    let no_duplicates = file(&format!("{{e,normal,[x]}},{}", numbered(1, 33)));
    let too_many = file(&numbered(1, 33));
    let good = file(&numbered(1, 32));
    let at = bad_file.len() - 1;
    let (run, short) = (vec![5; WORDS], vec![5; WORDS - 1]);
    type Try<'a> = (&'a [u64], u32, u64, u32, &'a [u8], &'a [u8], u32, usize);
    let tries: [Try; 10] = [
        (&short, 65, 4, 2, &bad_book, &bad_file, 1, 0),
        (&run, 65, 4, 2, &bad_book, &bad_file, 2, 0),
        (&run, 2, 4, 2, &bad_book, &bad_file, 7, 0),
        (&run, 2, 0, 2, &bad_book, &bad_file, 7, 0),
        (&run, 2, 0, 0, &bad_book, &bad_file, 18, 0),
        (&run, 2, 0, 0, &good_book, &bad_file, 18, at),
        (&run, 2, 0, 0, &good_book, &worst, 19, 0),
        (&run, 2, 0, 0, &good_book, &no_duplicates, 20, 0),
        (&run, 2, 0, 0, &good_book, &too_many, 16, 0),
        (&run, 2, 0, 0, &good_book, &good, 0, 0),
    ];
    for (table, n, hidden, start, book, text, reason, place) in tries {
        let launched = launch(table, n, hidden, start, book, text);
        assert_eq!(launched.answer.reason.number(), reason);
        assert_eq!(launched.place, place, "reason {reason}");
        assert_eq!(launched.table == *table, reason != 0, "reason {reason}");
    }
}
