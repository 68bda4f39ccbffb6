//! The listings of 000, section 4.1, as they stand in examples/launch: each
//! launch of the list leaves the table that is written by hand beside it.

use model::command::Command;
use model::launch::{launch, Book};
use model::rules::{call, Law};
use model::state::{word_of, State};
use model::table::{state_of, WORDS};
use std::fs;
use std::path::Path;

fn read(name: &str) -> Vec<u8> {
    let folder = Path::new(env!("CARGO_MANIFEST_DIR")).join("../../examples/launch");
    fs::read(folder.join(name)).unwrap_or_else(|error| panic!("{name}: {error}"))
}

fn read_text(name: &str) -> String {
    String::from_utf8(read(name)).expect("a text")
}

#[test]
fn the_listings_leave_the_tables_beside_them() {
    let list = read_text("list");
    for line in list.lines() {
        let fields: Vec<&str> = line.split(' ').collect();
        let [n, hidden, start, book, file] = fields[..] else {
            panic!("no launch: {line}");
        };
        let number = |field: &str| field.parse::<u64>().expect("a number");
        let (n, start) = (number(n) as u32, number(start) as u32);
        let book = read(book);
        let old = vec![1; WORDS];
        let launched = launch(&old, n, number(hidden), start, &book, &read(file));
        assert_eq!(launched.answer.to_string(), "ok 0", "{line}");
        let book = Book::read(&book, n as usize).expect("a book");
        let state = state_of(&launched.table).expect("a sound table");
        let table = file.replace(".config", ".table");
        assert_eq!(shown(&state, &book), read_text(&table), "{line}");
    }
    assert_eq!(list.lines().count(), 7);
}

/// What the table files tell of a state.
fn shown(state: &State, book: &Book) -> String {
    let mut shown = String::new();
    for (name, group) in &state.s_groups {
        let atom = String::from_utf8_lossy(&book.groups[*name as usize - 1]);
        shown += &format!("group {name} {atom} {}\n", word_of(&group.members));
    }
    for (word, command) in [
        ("own_s_groups", Command::OwnSGroups),
        ("own_nodes", Command::OwnNodes),
    ] {
        for node in state.nodes.keys() {
            let answer = call(&Law, &mut state.clone(), *node, &command, 64);
            let mut fields = answer.value.fields();
            if command == Command::OwnSGroups {
                fields.remove(0);
            }
            let fields: String = fields.iter().map(|field| format!(" {field}")).collect();
            shown += &format!("{word} {node}{fields}\n");
        }
    }
    for (id, node) in &state.nodes {
        shown += &format!("connections {id} {}\n", word_of(&node.connections));
    }
    shown
}
