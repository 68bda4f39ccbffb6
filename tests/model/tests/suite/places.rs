//! The place of a text that is no launch file: the traps one by one, then, by
//! brute force, that the bytes up to the place can be completed and those up to
//! one byte more can't.

use crate::helpers::{rounds, seed};
use model::launch_file::{groups_of, read, Entry, Term, DEEPEST, RESERVED};
use model::launch_gen::{changed, deep, spoiled, text, Names};
use model::prng::Prng;

/// The end of a file after some pair, with all that a file needs.
const END: &str = ",{kernel,[{s_groups,[]}]}].";
const KERNEL: &str = "[{kernel,[{s_groups,[]}]}";
const IN_KERNEL: &str = "[{kernel,[{s_groups,[]}";
const IN_GROUPS: &str = "[{kernel,[{s_groups,[";

fn accepts(text: impl AsRef<[u8]>) {
    let text = text.as_ref();
    let shown = String::from_utf8_lossy(text);
    assert!(read(text).is_ok(), "{shown} fails at {:?}", read(text));
}

/// The first part followed by the second fails where the second begins.
fn fails(good: impl AsRef<[u8]>, rest: impl AsRef<[u8]>) {
    let good = good.as_ref();
    let text = [good, rest.as_ref()].concat();
    let shown = String::from_utf8_lossy(&text);
    assert_eq!(read(&text).err(), Some(good.len()), "{shown}");
}

/// A file whose first pair has this value.
fn valued(value: &str) -> String {
    format!("[{{a,{value}}}{END}")
}

#[test]
fn the_smallest_file() {
    accepts("[{kernel,[{s_groups,[]}]}].");
    accepts("[{'kernel',[{'s_groups',[]}]}].\n");
}

#[test]
fn a_second_kernel_fails_at_its_end() {
    fails(format!("{KERNEL},{{kernel"), ",1}].");
    fails(format!("{KERNEL},{{kernel"), " ,1}].");
    fails(format!("{KERNEL},{{kernel"), "");
    fails(format!("{KERNEL},{{'kernel"), "',1}].");
    fails(format!("{KERNEL},{{'kernel"), "");
    fails("[{'kernel',[{s_groups,[]}]},{kernel", ",1}].");
    accepts(format!("{KERNEL},{{kernelx,1}}]."));
    accepts(format!("{KERNEL},{{'kernelx',1}}]."));
    accepts(format!("{KERNEL},{{kerne,1}}]."));
    accepts(format!("{KERNEL},{{'kernel ',1}}]."));
    accepts(format!("{KERNEL},{{s_groups,kernel}}]."));
}

#[test]
fn a_second_s_groups_fails_at_its_end() {
    fails(format!("{IN_KERNEL},{{s_groups"), ",[]}]}].");
    fails(format!("{IN_KERNEL},{{s_groups"), "\n,[]}]}].");
    fails(format!("{IN_KERNEL},{{'s_groups"), "',[]}]}].");
    accepts(format!("{IN_KERNEL},{{s_groups_,[]}}]}}]."));
    accepts(format!("{IN_KERNEL},{{kernel,[]}}]}}]."));
}

#[test]
fn a_missing_entry_is_told_at_the_bracket() {
    fails("[", "].");
    fails(" [ ", "].");
    fails("[{a,1}", "].");
    fails("[{a,1} ", "].");
    fails("[{s_groups,[]}", "].");
    fails("[{kernel,[", "]}].");
    fails("[{kernel,[{a,1}", "]}].");
    fails("[{kernel,[{kernel,[{s_groups,[]}]}", "]}].");
}

#[test]
fn reserved_words_fail_at_their_end() {
    for word in RESERVED {
        fails(format!("[{{{word}"), format!(",1}}{END}"));
        fails(format!("[{{{word}"), format!(" ,1}}{END}"));
        fails(format!("[{{{word}"), "");
        fails(format!("[{{a,{word}"), format!("}}{END}"));
        fails(format!("[{{a,[{word}"), format!("]}}{END}"));
        fails(format!("{IN_KERNEL},{{{word}"), ",1}]}].");
        fails(format!("{IN_GROUPS}{{{word}"), ",normal,[a]}]}]}].");
        fails(format!("{IN_GROUPS}{{a,normal,[{word}"), "]}]}]}].");
        fails(format!("{IN_GROUPS}{{a,normal,[{word}"), ",a]}]}]}].");
        accepts(valued(&format!("'{word}'")));
        for byte in ['x', 'X', '_', '@', '0'] {
            accepts(valued(&format!("{word}{byte}")));
        }
    }
    for word in [
        "maybe", "else", "query", "true", "kernel", "s_groups", "normal",
    ] {
        accepts(valued(word));
    }
}

#[test]
fn an_empty_node_list_fails_at_its_bracket() {
    fails(format!("{IN_GROUPS}{{a,normal,["), "]}]}]}].");
    fails(format!("{IN_GROUPS}{{a,normal,[ "), "]}]}]}].");
    fails(format!("{IN_GROUPS}{{a,normal,[b,"), "]}]}]}].");
}

#[test]
fn normal_is_matched_byte_by_byte() {
    for (word, end) in [("normal", ","), ("'normal'", ",")] {
        for cut in 0..word.len() {
            let good = format!("{IN_GROUPS}{{a,{}", &word[..cut]);
            fails(&good, "x,[b]}]}]}].");
            fails(&good, ",[b]}]}]}].");
            fails(&good, "");
        }
        fails(format!("{IN_GROUPS}{{a,{word}"), "x,[b]}]}]}].");
        accepts(format!("{IN_GROUPS}{{a,{word} {end}[b]}}]}}]}}]."));
    }
    fails(format!("{IN_GROUPS}{{a,"), "hidden,[b]}]}]}].");
    fails(format!("{IN_GROUPS}{{a,no"), " rmal,[b]}]}]}].");
    fails(format!("{IN_GROUPS}{{a,"), "\"normal\",[b]}]}]}].");
    fails(format!("{IN_GROUPS}{{a,"), "[b]}]}]}].");
}

#[test]
fn sixteen_brackets_stand_inside_each_other_and_not_seventeen() {
    for (open, close) in [("[", "]"), ("{", "}")] {
        let nested = |depth: usize| (open.repeat(depth), close.repeat(depth));
        let (opened, closed) = nested(DEEPEST);
        accepts(valued(&format!("{opened}{closed}")));
        accepts(valued(&format!("{opened}1{closed}")));
        accepts(format!("{IN_KERNEL},{{a,{opened}a{closed}}}]}}]."));
        let good = format!("[{{a,{opened}");
        fails(&good, format!("[]{closed}}}{END}"));
        fails(&good, format!("{{}}{closed}}}{END}"));
        fails(format!("{good}1,"), format!("[]{closed}}}{END}"));
        let (opened, closed) = nested(DEEPEST - 1);
        accepts(valued(&format!("{opened}[],{{}},[1]{closed}")));
        fails(
            format!("[{{a,{opened}[1],[1,"),
            format!("[]]{closed}}}{END}"),
        );
    }
    let mixed = "[{".repeat(8) + &"}]".repeat(8);
    accepts(valued(&mixed));
    fails(format!("[{{a,{}", "[{".repeat(8)), "[");
}

#[test]
fn the_full_stop_ends_the_file() {
    let whole = format!("{KERNEL}].");
    for byte in 0..=255 {
        let more = [whole.as_bytes(), &[byte]].concat();
        if byte <= 32 {
            accepts(&more);
            accepts([more.as_slice(), b" \n\0"].concat());
            fails(&more, "x");
            fails(&more, ".");
        } else {
            fails(&whole, [byte]);
        }
    }
    fails(format!("{KERNEL}]"), "");
    fails(format!("{KERNEL}] "), ",");
    fails(format!("{KERNEL}] "), format!("{KERNEL}]."));
    fails(format!("{whole}\n"), format!("{KERNEL}]."));
    fails(format!("{whole}\n"), "%");
}

/// A file with everything in it, token by token.
const TOKENS: [&str; 61] = [
    "[", "{", "a", ",", "[", "{", "}", ",", "'b c'", ",", "12", "]", "}", ",", "{", "kernel", ",",
    "[", "{", "c", ",", "{", "[", "]", "}", "}", ",", "{", "s_groups", ",", "[", "{", "d", ",",
    "normal", ",", "[", "e", ",", "'f'", "]", "}", ",", "{", "''", ",", "'normal'", ",", "[", "g",
    "]", "}", "]", "}", "]", "}", ",", "{", "h", ",", "0",
];

fn whole() -> String {
    TOKENS.concat() + "}]."
}

#[test]
fn white_space_stands_between_all_tokens() {
    let mut tokens = TOKENS.to_vec();
    tokens.extend(["}", "]", "."]);
    accepts(tokens.concat());
    for byte in 0..=255u8 {
        let space = [byte];
        let spaced: Vec<u8> = tokens
            .iter()
            .flat_map(|token| [&space, token.as_bytes()].concat())
            .collect();
        if byte <= 32 {
            accepts(&spaced);
        } else {
            assert!(read(&spaced).is_err(), "byte {byte}");
        }
    }
    let whole = whole();
    let mut place = 0;
    for token in &tokens {
        let (before, behind) = whole.split_at(place);
        accepts(format!("{before} \n\t{behind}"));
        for byte in [127, 128, 160, 255] {
            let rest = [&[byte], behind.as_bytes()].concat();
            fails(before.as_bytes(), rest);
        }
        place += token.len();
    }
}

#[test]
fn a_text_that_ends_early_shares_all_its_bytes() {
    let whole = whole();
    for cut in 0..whole.len() {
        fails(&whole[..cut], "");
    }
}

#[test]
fn plain_atoms() {
    for atom in [
        "a",
        "z",
        "aZ",
        "a0",
        "a_",
        "a@b",
        "abc_@19XYZ",
        "node1@host",
    ] {
        accepts(valued(atom));
    }
    for byte in 0..=255u8 {
        let behind = [byte, b'b'];
        let rest = [&behind[..], b"}", END.as_bytes()].concat();
        let text = [b"[{a,a", rest.as_slice()].concat();
        match byte {
            b'a'..=b'z' | b'A'..=b'Z' | b'0'..=b'9' | b'_' | b'@' => accepts(&text),
            0..=32 => fails([b"[{a,a", &[byte][..]].concat(), &rest[1..]),
            b'}' => fails("[{a,a}", &rest[1..]),
            _ => fails("[{a,a", &rest),
        }
    }
    for byte in (0..=255u8).filter(|byte| *byte > 32) {
        let text = [b"[{", &[byte][..], b",1}", END.as_bytes()].concat();
        match byte {
            b'a'..=b'z' => accepts(&text),
            b'\'' => {
                assert_eq!(read(&text).err(), Some(text.len()));
            }
            _ => fails("[{", &text[2..]),
        }
    }
}

#[test]
fn quoted_atoms() {
    for byte in 0..=255u8 {
        let rest = [&[byte][..], b"b',1}", END.as_bytes()].concat();
        let text = [b"[{'a", rest.as_slice()].concat();
        match byte {
            b'\'' => fails("[{'a'", &rest[1..]),
            b'\\' => fails("[{'a", &rest),
            _ => {
                accepts(&text);
                let file = read(&text).expect("a file");
                assert_eq!(file[0], Entry::Other(vec![b'a', byte, b'b'], number("1")));
            }
        }
    }
    accepts(valued("''"));
    accepts(valued(&format!("'{}'", "x".repeat(300))));
    fails("[{'a'", "'b',1}].");
    fails("[{'a'", "b,1}].");
    fails("[{a", "'b',1}].");
}

fn number(digits: &str) -> Term {
    Term::Number(digits.as_bytes().to_vec())
}

#[test]
fn numbers_have_digits_only() {
    for digits in ["0", "9", "007", "123456789012345678901234567890"] {
        accepts(valued(digits));
        let file = read(valued(digits).as_bytes()).expect("a file");
        assert_eq!(file[0], Entry::Other(b"a".to_vec(), number(digits)));
    }
    for (good, rest) in [
        ("1", "a"),
        ("1", ".5"),
        ("1", "_0"),
        ("16", "#ff"),
        ("1", "'a'"),
        ("1 ", "0"),
        ("", "-1"),
        ("", "+1"),
    ] {
        fails(format!("[{{a,{good}"), format!("{rest}}}{END}"));
    }
    fails("[{", "1,1}].");
    fails(format!("{IN_GROUPS}{{a,normal,["), "1]}]}]}].");
    fails(format!("{IN_GROUPS}{{"), "1,normal,[a]}]}]}].");
}

#[test]
fn what_else_erlang_has_is_no_launch_file() {
    for value in [
        "\"a\"", "$a", "<<1>>", "#{}", "A", "_", "_a", "@a", "(a)", "%\na", "?a", "-1", "\\a", "|",
        ";", "]", "}", ",", ".", "\u{e9}",
    ] {
        fails("[{a,", format!("{value}}}{END}"));
    }
    fails("[{a,[1", "|[]]}].");
    fails("[{a,a", ":b}].");
    fails("[{a,[1,", "]}].");
    fails("[{a,[", ",1]}].");
    fails("[{a,{1,", "}}].");
    fails("[{a,[1", "}}].");
    fails("[{a,{1", "]}].");
    fails("", "%\n[{kernel,[{s_groups,[]}]}].");
    fails("", "\u{feff}[{kernel,[{s_groups,[]}]}].");
}

#[test]
fn pairs_and_groups_have_their_parts() {
    fails("[{a", "}].");
    fails("[{a,1", ",2}].");
    fails("[{", "}].");
    fails("[", "a].");
    fails("[", "[a,1]].");
    fails("", "{kernel,[]}.");
    fails("[{a,1}", "{b,2}].");
    fails("[{a,1},", "].");
    fails("[{kernel,", "a}].");
    fails("[{kernel,", "{s_groups,[]}}].");
    fails("[{kernel,[{s_groups,", "a}]}].");
    fails("[{kernel,[{s_groups,", "{}}]}].");
    fails(IN_GROUPS, "a]}]}].");
    fails(IN_GROUPS, "[]]}]}].");
    fails(format!("{IN_GROUPS}{{a"), "}]}]}].");
    fails(format!("{IN_GROUPS}{{a,normal"), "}]}]}].");
    fails(format!("{IN_GROUPS}{{a,normal,"), "b}]}]}].");
    fails(format!("{IN_GROUPS}{{a,normal,[b]"), ",c}]}]}].");
    fails(format!("{IN_GROUPS}{{a,normal,[b]}},"), "]}]}].");
    fails(format!("{IN_GROUPS}{{a,normal,[b"), "|c]}]}]}].");
}

#[test]
fn the_groups_stand_in_the_order_of_the_file() {
    let file = read(whole().as_bytes()).expect("a file");
    let groups: Vec<(Vec<u8>, usize)> = groups_of(&file)
        .into_iter()
        .map(|group| (group.atom, group.nodes.len()))
        .collect();
    assert_eq!(groups, [(b"d".to_vec(), 2), (Vec::new(), 1)]);
}

/// What may be missing of the last token.
const TOKEN_ENDS: [&str; 17] = [
    "", "x", "0", "'", "x'", "ormal", "rmal", "mal", "al", "l", "normal'", "ormal'", "rmal'",
    "mal'", "al'", "l'", "normal",
];

/// What may be missing of the innermost bracket.
const MIDDLES: [&str; 25] = [
    "",
    "a",
    "1",
    ",1",
    "a,1",
    "{a,1}",
    "[]",
    ",[]",
    "[a]",
    ",[a]",
    "normal,[a]",
    ",normal,[a]",
    "a,normal,[a]",
    "{a,normal,[a]}",
    "{s_groups,[]}",
    ",{s_groups,[]}",
    "[{s_groups,[]}]",
    ",[{s_groups,[]}]",
    "{kernel,[{s_groups,[]}]}",
    "kernel,[{s_groups,[]}]",
    "s_groups,[]",
    "[{kernel,[{s_groups,[]}]}]",
    "[{kernel,[{s_groups,[]}]}].",
    "]",
    "].",
];

/// The brackets that are open behind these bytes, from the outermost.
fn open_brackets(bytes: &[u8]) -> Vec<u8> {
    let mut open = Vec::new();
    let mut quoted = false;
    for byte in bytes {
        match byte {
            b'\'' => quoted = !quoted,
            b'[' | b'{' if !quoted => open.push(*byte),
            b']' | b'}' if !quoted => {
                open.pop();
            }
            _ => {}
        }
    }
    open
}

/// What closes these brackets, with an entry that the kernel list or the file's
/// list may lack, and with or without the full stop.
fn closings(open: &[u8]) -> Vec<String> {
    let mut all = Vec::new();
    let choices = [
        ("", ""),
        (",{s_groups,[]}", ""),
        ("", ",{kernel,[{s_groups,[]}]}"),
    ];
    for (in_kernel, in_file) in choices {
        let mut closing = String::new();
        for (depth, bracket) in open.iter().enumerate().rev() {
            match depth {
                0 => closing.push_str(in_file),
                2 => closing.push_str(in_kernel),
                _ => {}
            }
            closing.push(if *bracket == b'[' { ']' } else { '}' });
        }
        all.push(closing.clone() + ".");
        all.push(closing);
    }
    all.sort();
    all.dedup();
    all
}

/// A launch file that begins with these bytes, if one of very many endings
/// makes one of them.
fn completed(bytes: &[u8]) -> Option<Vec<u8>> {
    let closings = closings(&open_brackets(bytes));
    for token_end in TOKEN_ENDS {
        for middle in MIDDLES {
            for closing in &closings {
                let text = [
                    bytes,
                    token_end.as_bytes(),
                    middle.as_bytes(),
                    closing.as_bytes(),
                ];
                let text = text.concat();
                if read(&text).is_ok() {
                    return Some(text);
                }
            }
        }
    }
    None
}

/// Up to its place the text is the beginning of a launch file, and up to one
/// byte more it is not, as far as the endings tell.
fn shares_its_place(text: &[u8]) {
    let Err(place) = read(text) else {
        return;
    };
    let shown = String::from_utf8_lossy(text);
    let shared = completed(&text[..place]);
    assert!(shared.is_some(), "{shown}: nothing completes {place} bytes");
    if place < text.len() {
        let more = completed(&text[..=place]);
        let more = more.map(|text| String::from_utf8_lossy(&text).into_owned());
        assert_eq!(more, None, "{shown}: place {place}");
    }
}

/// Beginnings of files, at each kind of place in them.
const BEGINNINGS: [&str; 22] = [
    "",
    "[",
    "[{",
    "[{a",
    "[{'a",
    "[{kernel",
    "[{a,",
    "[{a,1",
    "[{a,[{",
    "[{a,[{1,",
    "[{a,1}",
    "[{kernel,",
    "[{kernel,[",
    "[{kernel,[{s_groups",
    "[{kernel,[{s_groups,",
    "[{kernel,[{s_groups,[",
    "[{kernel,[{s_groups,[{a,",
    "[{kernel,[{s_groups,[{a,normal",
    "[{kernel,[{s_groups,[{a,'normal'",
    "[{kernel,[{s_groups,[{a,normal,[",
    "[{kernel,[{s_groups,[]}",
    "[{kernel,[{s_groups,[]}]}]",
];

#[test]
fn short_texts_share_as_many_bytes_as_they_can() {
    let alphabet = b"[]{},.' a1nA%\\";
    for beginning in BEGINNINGS {
        for first in alphabet {
            shares_its_place(&[beginning.as_bytes(), &[*first]].concat());
            for second in alphabet {
                shares_its_place(&[beginning.as_bytes(), &[*first, *second]].concat());
            }
        }
    }
}

#[test]
fn words_share_as_many_bytes_as_they_can() {
    let words = [
        "kernel",
        "'kernel'",
        "s_groups",
        "'s_groups'",
        "after",
        "normal",
        "hidden",
    ];
    for beginning in BEGINNINGS.iter().chain(&[KERNEL, IN_KERNEL]) {
        for word in words {
            for comma in ["", ",", ",{"] {
                for end in ["", ",1", "x", "}"] {
                    shares_its_place(format!("{beginning}{comma}{word}{end}").as_bytes());
                }
            }
        }
    }
}

/// A short random launch file.
fn short_file(prng: &mut Prng) -> Vec<u8> {
    loop {
        let names = Names::new(2, prng);
        let file = text(&names.tree(prng), prng);
        if file.len() <= 240 {
            return file;
        }
    }
}

#[test]
fn changed_files_share_as_many_bytes_as_they_can() {
    let first = seed();
    for seed in first..first + rounds(600) {
        let mut prng = Prng::new(seed);
        let file = short_file(&mut prng);
        shares_its_place(&spoiled(&file, &mut prng));
    }
}

/// A text that is read is the text of its tree again.
#[test]
fn written_trees_are_read() {
    let first = seed();
    for seed in first..first + rounds(3_000) {
        let mut prng = Prng::new(seed);
        let names = Names::new(1 + prng.below(6) as usize, &mut prng);
        let tree = names.tree(&mut prng);
        let written = text(&tree, &mut prng);
        assert_eq!(read(&written), Ok(tree), "seed {seed}");
    }
}

#[test]
fn brackets_as_deep_as_they_may_be_and_one_deeper() {
    let first = seed();
    for seed in first..first + rounds(300) {
        let mut prng = Prng::new(seed);
        for depth in [DEEPEST, DEEPEST + 1] {
            let kernel = Entry::Kernel(vec![model::launch_file::KernelEntry::SGroups(Vec::new())]);
            let tree = [Entry::Other(b"a".to_vec(), deep(depth, &mut prng)), kernel];
            let written = text(&tree, &mut prng);
            assert_eq!(read(&written).is_ok(), depth == DEEPEST, "seed {seed}");
        }
    }
}

/// What the place says of the text's beginnings and of texts that go on
/// otherwise behind it.
#[test]
fn places_of_beginnings_and_of_other_endings() {
    let first = seed();
    let mut refused = 0;
    for seed in first..first + rounds(3_000) {
        let mut prng = Prng::new(seed);
        let names = Names::new(1 + prng.below(6) as usize, &mut prng);
        let whole = text(&names.tree(&mut prng), &mut prng);
        let same = prng.below(whole.len() as u64) as usize;
        let tail = changed(&whole[same..], &mut prng);
        let spoiled = [&whole[..same], tail.as_slice()].concat();
        let Err(place) = read(&spoiled) else {
            continue;
        };
        refused += 1;
        assert!(
            place >= same,
            "seed {seed}: a file begins with {same} bytes"
        );
        for cut in 0..=place {
            let beginning = read(&spoiled[..cut]);
            assert!(beginning.is_ok() || beginning == Err(cut), "seed {seed}");
        }
        if place < spoiled.len() {
            let other = &whole[prng.below(whole.len() as u64) as usize..];
            let ending = [&spoiled[..=place], other].concat();
            assert_eq!(read(&ending), Err(place), "seed {seed}");
            assert_eq!(read(&spoiled[..=place]), Err(place), "seed {seed}");
        }
    }
    println!("{refused} refused");
    assert!(refused * 3 > rounds(3_000), "{refused} refused");
}
