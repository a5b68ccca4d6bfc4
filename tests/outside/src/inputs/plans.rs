//! Runs of the program `plan`: all texts that the program `report` gets, in every way in which they come, and rates on
//! both sides of every border in time, arguments that are no rate, and outputs that can not be written.

use super::arguments::{self, NO_NUMBERS};
use super::files;
use super::gadgets;
use super::noted::broken_at_once;
use super::runs::{self, Expected};
use super::texts::sound;
use crate::child::{Call, Error, Input, Output};
use crate::model::isw;
use crate::model::plan::{in_all, MOST_DIGITS};
use crate::model::records::MAX_WIRES;
use crate::model::sets::MAX_SIZE;
use crate::model::sizes::Size;
use crate::passes::examples::A;
use crate::random::Random;
use std::path::PathBuf;

pub struct Case {
    pub call: Call,
    /// What standard input brings, or none where it can not be read.
    pub text: Option<Vec<u8>>,
}

const DRAWN: usize = 150;
/// From so many seconds on, a time is said in other words.
const BORDERS: [u64; 6] = [1, 2, 120, 7_200, 172_800, 63_072_000];
const RATES: [&str; 8] = [
    "1",
    "7",
    "9",
    "10000000",
    "4294967296",
    "4294967297",
    "100000000000000000",
    "999999999999999999",
];
/// Beside those that are no number at all.
const NO_RATES: [&str; 8] = [
    "0",
    "0000000000",
    "010000000",
    "1x",
    "1_000",
    "1,000",
    "18446744073709551617",
    "340282366920938463463374607431768211457",
];
const SEVERAL: [&[&str]; 7] = [
    &["1", "2"],
    &["1", ""],
    &["", "1"],
    &["--", "1"],
    &["1", "--"],
    &["0", "7"],
    &["10000000", "10000000", "10000000"],
];
/// By a bar.
pub const REFUSED: &str = "ORDER = 1\nMASKS = [r0]\ns00 r0\ns11 | r0\n";
/// A text that stands in a file, whose position tells whether it was read.
const FILE: &str = "gadgets/isw-1.txt";

pub fn all(random: &mut Random) -> Vec<Case> {
    let cases = [
        of_report(random),
        of_gadgets(),
        of_rates(),
        of_misuse(),
        of_ways(),
        drawn(random),
    ];
    cases.into_iter().flatten().collect()
}

/// Without an argument.
fn of_report(random: &mut Random) -> Vec<Case> {
    let case = |case: runs::Case| Case {
        call: case.call,
        text: match case.expected {
            Expected::Reason("standard input", _) => None,
            expected => Some(expected.text().to_vec()),
        },
    };
    runs::all(random).into_iter().map(case).collect()
}

fn of_gadgets() -> Vec<Case> {
    let case = |path: PathBuf| Case {
        text: Some(files::read(&path)),
        call: Call::on(Input::File(path)),
    };
    files::gadgets().into_iter().map(case).collect()
}

fn on(arguments: &[&[u8]], text: &[u8]) -> Case {
    Case {
        call: Call {
            arguments: arguments::of(arguments),
            ..Call::on(Input::Pieces(vec![text.to_vec()]))
        },
        text: Some(text.to_vec()),
    }
}

/// Each rate with texts of few sets and of many, and the rates at which a text takes just so many seconds as make the
/// time another word, and a little less.
fn of_rates() -> Vec<Case> {
    let isw = |order: usize| isw::RIGHT.text(order).into_bytes();
    let many = [3, 5, MAX_SIZE].map(|order| broken_at_once(order, MAX_WIRES));
    let too_many = broken_at_once(MAX_SIZE, MAX_WIRES + 1);
    let texts = [isw(1), isw(2), isw(4), isw(7), too_many, Vec::new()];
    let mut cases = Vec::new();
    for text in texts.iter().chain(&many) {
        let fixed = RATES.iter().map(|rate| String::from(*rate));
        let rates = fixed.chain(at_borders(text));
        cases.extend(rates.map(|rate| on(&[rate.as_bytes()], text)));
    }
    cases
}

/// The highest rate at which a text's sets take so many seconds, and the next one, at which they do not.
fn at_borders(text: &[u8]) -> Vec<String> {
    let Ok(size) = Size::of(text) else {
        return Vec::new();
    };
    let rates = BORDERS.iter().map(|seconds| 2 * in_all(&size) / seconds);
    let pairs = rates.filter(|rate| *rate > 0).flat_map(|rate| [rate, rate + 1]);
    pairs.map(|rate| rate.to_string()).collect()
}

/// Nothing is to be read, so what there would be to read is of no matter.
fn of_misuse() -> Vec<Case> {
    let digits = [MOST_DIGITS + 1, MOST_DIGITS + 2, 5_000];
    let mut long: Vec<String> = digits.iter().map(|digits| "1".repeat(*digits)).collect();
    long.push(format!("{}1", "0".repeat(MOST_DIGITS - 1)));
    long.push(format!("1{}", "0".repeat(MOST_DIGITS)));
    let single = NO_RATES.iter().copied().chain(long.iter().map(String::as_str));
    let single = single
        .map(str::as_bytes)
        .chain(NO_NUMBERS)
        .map(|argument| vec![argument]);
    let several = SEVERAL
        .iter()
        .map(|words| words.iter().map(|word| word.as_bytes()).collect());
    let mut cases: Vec<Case> = single.chain(several).map(|words: Vec<&[u8]>| on_file(&words)).collect();
    for words in [&[b"0".as_slice()][..], &[b"1", b"2"]] {
        let without_text = |input| Case {
            call: Call {
                arguments: arguments::of(words),
                ..Call::on(input)
            },
            text: None,
        };
        cases.push(on(words, REFUSED.as_bytes()));
        cases.push(without_text(Input::Closed));
        cases.push(without_text(Input::File(PathBuf::from("/"))));
        cases.push(without_text(Input::Endless(Vec::new())));
    }
    cases
}

fn on_file(arguments: &[&[u8]]) -> Case {
    let mut case = on(arguments, &files::read(&PathBuf::from(FILE)));
    case.call.input = Input::File(PathBuf::from(FILE));
    case
}

/// A plan at a rate, a refusal and a wrong argument, with outputs that can not be written, standard errors that take
/// nothing, and systems that are odd; a rate with inputs that can not be read, at all or to the end.
fn of_ways() -> Vec<Case> {
    let mut cases = Vec::new();
    for (argument, text) in [("7", A), ("7", REFUSED), ("07", A)] {
        let case = || on(&[argument.as_bytes()], text.as_bytes());
        for output in [Output::Full, Output::Closed] {
            let mut case = case();
            case.call.output = output;
            cases.push(case);
        }
        for error in [Error::Full, Error::Closed, Error::WithOutput] {
            let mut case = case();
            case.call.error = error;
            cases.push(case);
        }
        for odd in ["errno", "interrupted", "short", "ended", "leaves"] {
            let mut case = case();
            case.call.odd = Some(odd);
            cases.push(case);
        }
    }
    let breaking = Input::Pieces(vec![A.as_bytes().to_vec()]);
    let unread = [
        (Input::Closed, None),
        (Input::File(PathBuf::from("/")), None),
        (breaking, Some("breaks")),
    ];
    cases.extend(unread.map(|(input, odd)| Case {
        call: Call {
            odd,
            arguments: arguments::of(&[b"7"]),
            ..Call::on(input)
        },
        text: None,
    }));
    cases
}

/// Texts and rates drawn from the seed.
fn drawn(random: &mut Random) -> Vec<Case> {
    let mut cases = Vec::new();
    for _ in 0..DRAWN {
        let text = match random.chance(50) {
            true => sound(random, 4),
            false => gadgets::any(random, MAX_SIZE).text(),
        };
        let digits = random.between(1, MOST_DIGITS) as u32;
        let rate = 1 + random.next() % (10_u64.pow(digits) - 1);
        cases.push(on(&[rate.to_string().as_bytes()], &text));
    }
    cases
}
