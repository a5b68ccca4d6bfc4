//! Runs of the program `report`: texts in every way in which a text may come, inputs that can not be read, outputs that
//! can not be written, and texts for its notes, which standard error may not take.

use super::damage::damaged;
use super::far;
use super::files;
use super::gadgets::{self, End};
use super::noted::{self, broken_at_once};
use super::sums;
use super::texts::sound;
use super::words;
use crate::child::{Call, Error, Input, Output};
use crate::model::reading::MAX_TEXT_BYTES;
use crate::model::records::MAX_WIRES;
use crate::model::report::report;
use crate::model::sets::MAX_SIZE;
use crate::passes::examples::{A, B};
use crate::random::Random;
use std::collections::BTreeSet;
use std::ffi::OsString;
use std::path::PathBuf;

const DRAWN: usize = 400;
const MOST_SETS_OF_DRAWN: u64 = 20_000;

/// Orders of texts with a late break, each with the masks of its padding: enough for 50 wires, but only two at order 6,
/// so that the sets stay below 3 million of a size.
const LATE: [(usize, usize); 5] = [(6, 2), (5, 11), (4, 14), (3, 17), (2, 20)];

/// What the program has to print, and to say on standard error.
pub enum Expected {
    /// The report on this text, and its notes.
    Report(Vec<u8>),
    /// The report on this text, whose first breaking set has so many wires under either notion, and its notes.
    Late(Vec<u8>, usize),
    /// Nothing, and no end either: any verdict on this text, a directed one too, takes far longer than the program is
    /// given. One that ends has not looked. That it is long is said, and so is what the function is not.
    Long(Vec<u8>),
    /// Nothing, and on standard error a line that names this file, which can not be read or written. What there is to
    /// say on this text before its report stands before that.
    Reason(&'static str, Vec<u8>),
}

pub struct Case {
    pub call: Call,
    pub expected: Expected,
}

impl Expected {
    /// The text that the program is lent, of which it may not be able to read anything.
    pub fn text(&self) -> &[u8] {
        match self {
            Expected::Report(text) | Expected::Late(text, _) | Expected::Long(text) | Expected::Reason(_, text) => text,
        }
    }
}

pub fn all(random: &mut Random) -> Vec<Case> {
    let noted = [noted::texts(), sums::texts(), words::texts()].concat();
    let noted = noted.iter().map(|text| at_once(text)).collect();
    [
        late(),
        of_many_sets(random),
        of_files(),
        of_ways(),
        noted,
        of_failures(),
        of_errors(),
        drawn(random),
    ]
    .into_iter()
    .flatten()
    .collect()
}

/// Texts that break only by a set of as many wires as the order, and the same without a break. They come first: the
/// longest work of all cases is here.
fn late() -> Vec<Case> {
    let mut cases = Vec::new();
    for (order, padding) in LATE {
        for end in [End::Share, End::Mask] {
            let text = gadgets::late(order, end, padding).text();
            let mut case = at_once(&text);
            if end == End::Share {
                case.expected = Expected::Late(text, order);
            }
            cases.push(case);
        }
    }
    cases
}

/// Texts of so many sets that nobody looks at each.
fn of_many_sets(random: &mut Random) -> Vec<Case> {
    let late = far::late().into_iter().map(|(text, size)| Case {
        call: at_once(&text).call,
        expected: Expected::Late(text, size),
    });
    let others = far::texts(random).into_iter().map(|text| at_once(&text));
    let long = far::long(random).map(|text| Case {
        call: at_once(&text).call,
        expected: Expected::Long(text),
    });
    late.chain(others).chain(long).collect()
}

/// Every text of the list and every gadget that is not there, as a file.
fn of_files() -> Vec<Case> {
    let mut paths = files::listed();
    let names: BTreeSet<OsString> = paths.iter().filter_map(|path| Some(path.file_name()?.into())).collect();
    let is_listed = |path: &PathBuf| path.file_name().is_some_and(|name| names.contains(name));
    paths.extend(files::gadgets().into_iter().filter(|path| !is_listed(path)));
    let case = |path: PathBuf| Case {
        expected: Expected::Report(files::read(&path)),
        call: Call::on(Input::File(path)),
    };
    paths.into_iter().map(case).collect()
}

/// Texts around the limits of length and of bytes, at once, in pieces, without an end, and from a system that is odd.
fn of_ways() -> Vec<Case> {
    let a = A.as_bytes();
    let filled = |length: usize, byte: u8| [a, &vec![byte; length - a.len()]].concat();
    let lengths = [MAX_TEXT_BYTES - 1, MAX_TEXT_BYTES, MAX_TEXT_BYTES + 1];
    let mut texts = vec![Vec::new(), a.to_vec(), a[..a.len() - 1].to_vec()];
    texts.extend(lengths.map(|length| filled(length, b' ')));
    texts.extend(lengths.map(|length| filled(length, b'\n')));
    for byte in [0, b'\n', b'O', 255] {
        texts.push(vec![byte]);
        texts.extend([0, 9, 24, a.len()].map(|at| [&a[..at], &[byte], &a[at..]].concat()));
    }
    let mut cases: Vec<Case> = texts.iter().map(|text| at_once(text)).collect();
    cases.push(in_pieces(a, 1, None));
    for length in lengths {
        // The last piece of the longest is a single byte.
        cases.push(in_pieces(&filled(length, b' '), 512, None));
    }
    let endless = |input, text| Case {
        call: Call::on(input),
        expected: Expected::Report(text),
    };
    cases.push(endless(Input::Endless(a.to_vec()), filled(lengths[2], b' ')));
    cases.push(endless(Input::Endless(Vec::new()), vec![b' '; lengths[2]]));
    cases.push(endless(Input::File(PathBuf::from("/dev/zero")), vec![0; lengths[2]]));
    for odd in ["errno", "interrupted", "short", "ended", "leaves"] {
        for text in [
            a,
            B.as_bytes(),
            sums::ANOTHER.as_bytes(),
            b"",
            &filled(lengths[1], b' '),
            &filled(lengths[2], b' '),
        ] {
            cases.push(in_pieces(text, text.len().max(1), Some(odd)));
        }
    }
    cases
}

fn at_once(text: &[u8]) -> Case {
    in_pieces(text, text.len().max(1), None)
}

fn in_pieces(text: &[u8], length: usize, odd: Option<&'static str>) -> Case {
    let pieces = text.chunks(length).map(<[u8]>::to_vec).collect();
    Case {
        call: Call {
            odd,
            ..Call::on(Input::Pieces(pieces))
        },
        expected: Expected::Report(text.to_vec()),
    }
}

/// Inputs that can not be read, at all or to the end, and outputs that can not be written.
fn of_failures() -> Vec<Case> {
    let no_input = |input, odd| Case {
        call: Call { odd, ..Call::on(input) },
        expected: Expected::Reason("standard input", Vec::new()),
    };
    let mut cases = vec![
        no_input(Input::File(PathBuf::from("/")), None),
        no_input(Input::Closed, None),
        no_input(Input::Pieces(vec![A.as_bytes().to_vec()]), Some("breaks")),
    ];
    for text in of_every_note() {
        for output in [Output::Full, Output::Closed] {
            cases.push(Case {
                call: Call {
                    output,
                    ..at_once(&text).call
                },
                expected: Expected::Reason("standard output", text.clone()),
            });
        }
    }
    cases
}

/// Standard errors that take no notes, and one that goes the same way as the report.
fn of_errors() -> Vec<Case> {
    let mut cases = Vec::new();
    for text in of_every_note() {
        for error in [Error::Full, Error::Closed, Error::WithOutput] {
            let mut case = at_once(&text);
            case.call.error = error;
            cases.push(case);
        }
    }
    cases
}

/// A text without notes, one with notes on breaks, one with a note on the function, one with notes on its length and on
/// breaks, one with all of these, and one with a note on a refusal.
fn of_every_note() -> [Vec<u8>; 6] {
    [
        A.as_bytes().to_vec(),
        B.as_bytes().to_vec(),
        sums::ANOTHER.as_bytes().to_vec(),
        sums::long_product(),
        broken_at_once(MAX_SIZE, MAX_WIRES),
        Vec::new(),
    ]
}

/// Texts drawn from the seed. In the gate the seed is fixed, so every gate has the same ones, and a program could be
/// made to know them; another seed draws others (`tests/outside/run 7`).
fn drawn(random: &mut Random) -> Vec<Case> {
    let mut cases = Vec::new();
    while cases.len() < DRAWN {
        let mut text = match random.chance(40) {
            true => sound(random, 3),
            false => gadgets::any(random, 3).text(),
        };
        if random.chance(25) {
            text = damaged(random, &text);
        }
        if report(&text, MOST_SETS_OF_DRAWN).is_ok() {
            let pieces = random.between(1, 4);
            cases.push(in_pieces(&text, text.len() / pieces + 1, None));
        }
    }
    cases
}
