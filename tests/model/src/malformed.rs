//! Malformed script lines of every kind. Each is made from a well formed line,
//! or stands alone, and must print `bad-line` wherever it stands.

use crate::command::{Request, Width};
use crate::prng::Prng;

/// One way for a line to be malformed.
#[derive(Clone, Copy, Debug, PartialEq, Eq, PartialOrd, Ord)]
pub enum Fault {
    Empty,
    OnlySpaces,
    LeadingSpace,
    TrailingSpace,
    DoubleSpace,
    Tab,
    CarriageReturn,
    Nul,
    HighByte,
    PlusSign,
    MinusSign,
    LeadingZero,
    LetterInNumber,
    DecimalPoint,
    JustTooWide,
    FarTooWide,
    MissingField,
    ExtraField,
    UnknownWord,
    UpperCase,
    CutWord,
    LongerWord,
    Brackets,
    WordFirst,
    NumberAlone,
    OpenAfterCaller,
    LongLine,
}

impl Fault {
    /// Every kind once.
    pub const ALL: [Fault; 27] = [
        Fault::Empty,
        Fault::OnlySpaces,
        Fault::LeadingSpace,
        Fault::TrailingSpace,
        Fault::DoubleSpace,
        Fault::Tab,
        Fault::CarriageReturn,
        Fault::Nul,
        Fault::HighByte,
        Fault::PlusSign,
        Fault::MinusSign,
        Fault::LeadingZero,
        Fault::LetterInNumber,
        Fault::DecimalPoint,
        Fault::JustTooWide,
        Fault::FarTooWide,
        Fault::MissingField,
        Fault::ExtraField,
        Fault::UnknownWord,
        Fault::UpperCase,
        Fault::CutWord,
        Fault::LongerWord,
        Fault::Brackets,
        Fault::WordFirst,
        Fault::NumberAlone,
        Fault::OpenAfterCaller,
        Fault::LongLine,
    ];
}

/// A line with this fault, without its newline.
pub fn malformed(fault: Fault, request: &Request, prng: &mut Prng) -> Vec<u8> {
    let line = request.line();
    let fields: Vec<String> = line.split(' ').map(str::to_string).collect();
    match fault {
        Fault::Empty => Vec::new(),
        Fault::OnlySpaces => vec![b' '; 1 + prng.below(4) as usize],
        Fault::LeadingSpace => format!(" {line}").into_bytes(),
        Fault::TrailingSpace => format!("{line} ").into_bytes(),
        Fault::DoubleSpace => at_a_space(&line, b"  ", prng),
        Fault::Tab => at_a_space(&line, b"\t", prng),
        Fault::CarriageReturn => format!("{line}\r").into_bytes(),
        Fault::Nul => with_byte(&line, 0, prng),
        Fault::HighByte => with_byte(&line, 0x80 | prng.below(128) as u8, prng),
        Fault::PlusSign => with_number(request, prng, |digits, _| format!("+{digits}")),
        Fault::MinusSign => with_number(request, prng, |digits, _| format!("-{digits}")),
        Fault::LeadingZero => with_number(request, prng, |digits, _| format!("0{digits}")),
        Fault::LetterInNumber => with_number(request, prng, |digits, _| format!("{digits}x")),
        Fault::DecimalPoint => with_number(request, prng, |digits, _| format!("{digits}.0")),
        Fault::JustTooWide => with_number(request, prng, |_, width| {
            (u128::from(width.largest()) + 1).to_string()
        }),
        Fault::FarTooWide => far_too_wide(request, prng),
        Fault::MissingField => missing_field(request, &fields, prng),
        Fault::ExtraField => extra_field(request, fields, prng),
        Fault::UnknownWord => with_word(request, fields, prng, unknown_word),
        Fault::UpperCase => with_word(request, fields, prng, upper_case),
        Fault::CutWord => with_word(request, fields, prng, cut_word),
        Fault::LongerWord => with_word(request, fields, prng, |word, _| format!("{word}s")),
        Fault::Brackets => with_word(request, fields, prng, |word, _| format!("{word}()")),
        Fault::WordFirst => fields[1..].join(" ").into_bytes(),
        Fault::NumberAlone => prng.below(64).to_string().into_bytes(),
        Fault::OpenAfterCaller => format!("0 open {} 0", 1 + prng.below(64)).into_bytes(),
        Fault::LongLine => long_line(&line, prng),
    }
}

/// The line with one of its spaces replaced.
fn at_a_space(line: &str, instead: &[u8], prng: &mut Prng) -> Vec<u8> {
    let spaces: Vec<usize> = line.match_indices(' ').map(|(place, _)| place).collect();
    let place = prng.pick(&spaces);
    [
        &line.as_bytes()[..place],
        instead,
        &line.as_bytes()[place + 1..],
    ]
    .concat()
}

/// The line with a byte put in somewhere.
fn with_byte(line: &str, byte: u8, prng: &mut Prng) -> Vec<u8> {
    let mut bytes = line.as_bytes().to_vec();
    bytes.insert(prng.below(bytes.len() as u64 + 1) as usize, byte);
    bytes
}

/// The places of a line's numbers, with their widths.
fn numbers(request: &Request) -> Vec<(usize, Width)> {
    match request {
        Request::Open { .. } => vec![(1, Width::Number32), (2, Width::Set64)],
        Request::Call { command, .. } => {
            let arguments = command.form().widths().iter().copied();
            let mut all = vec![(0, Width::Number32)];
            all.extend(arguments.enumerate().map(|(i, width)| (i + 2, width)));
            all
        }
    }
}

/// The line with one of its numbers changed.
fn with_number(
    request: &Request,
    prng: &mut Prng,
    change: impl Fn(&str, Width) -> String,
) -> Vec<u8> {
    let line = request.line();
    let mut fields: Vec<String> = line.split(' ').map(str::to_string).collect();
    let (place, width) = prng.pick(&numbers(request));
    fields[place] = change(&fields[place], width);
    fields.join(" ").into_bytes()
}

/// The line with a number of more digits than any width has.
fn far_too_wide(request: &Request, prng: &mut Prng) -> Vec<u8> {
    let zeros = 21 + prng.below(20) as usize;
    with_number(request, prng, |_, _| format!("1{}", "0".repeat(zeros)))
}

/// The line with digits after it, longer than the longest.
fn long_line(line: &str, prng: &mut Prng) -> Vec<u8> {
    let length = 121 + prng.below(200) as usize;
    let mut long = format!("{line} ").into_bytes();
    long.resize(length, b'1');
    long
}

/// The line with its command word changed.
fn with_word(
    request: &Request,
    mut fields: Vec<String>,
    prng: &mut Prng,
    change: impl Fn(&str, &mut Prng) -> String,
) -> Vec<u8> {
    let place = match request {
        Request::Open { .. } => 0,
        Request::Call { .. } => 1,
    };
    fields[place] = change(&fields[place], prng);
    fields.join(" ").into_bytes()
}

fn unknown_word(_: &str, prng: &mut Prng) -> String {
    prng.pick(&["own_node", "register", "whereis", "close", "0", "_"])
        .to_string()
}

/// The word with its first letter or all letters in upper case.
fn upper_case(word: &str, prng: &mut Prng) -> String {
    let place = word.find(|c: char| c.is_ascii_lowercase()).unwrap_or(0);
    let some = word[place..=place].to_ascii_uppercase() + &word[place + 1..];
    prng.pick(&[word.to_ascii_uppercase(), some])
}

fn cut_word(word: &str, prng: &mut Prng) -> String {
    word[..prng.below(word.len() as u64) as usize].to_string()
}

/// The numbers of arguments that a line's word takes.
fn argument_counts(request: &Request) -> Vec<usize> {
    match request {
        Request::Open { .. } => vec![2],
        Request::Call { command, .. } => match command.form().word() {
            "whereis_name" => vec![2, 3],
            "send" => vec![1, 2, 3],
            _ => vec![command.form().widths().len()],
        },
    }
}

/// The line cut to fewer arguments than any form of its word has; a word that
/// needs none is cut off itself.
fn missing_field(request: &Request, fields: &[String], prng: &mut Prng) -> Vec<u8> {
    let before = fields.len() - numbers_after_word(request);
    let least = argument_counts(request)[0] as u64;
    let end = if least == 0 {
        before - 1
    } else {
        before + prng.below(least) as usize
    };
    fields[..end].join(" ").into_bytes()
}

/// The line with more arguments than any form of its word has.
fn extra_field(request: &Request, mut fields: Vec<String>, prng: &mut Prng) -> Vec<u8> {
    let most = argument_counts(request).pop().unwrap_or(0);
    let have = numbers_after_word(request);
    for _ in have..=most + prng.below(3) as usize {
        fields.push(prng.below(64).to_string());
    }
    fields.join(" ").into_bytes()
}

fn numbers_after_word(request: &Request) -> usize {
    match request {
        Request::Open { .. } => 2,
        Request::Call { command, .. } => command.form().widths().len(),
    }
}
