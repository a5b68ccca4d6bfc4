//! Wrong programs `plan`: each has to be told from the program on some text or on some arguments.

use super::notes::REFUSALS;
use super::plan_lines::{TABLES, TIMES};
use crate::model::notes::Way;
use crate::model::plan::{number, Outcome, Planner, MOST_DIGITS, RIGHT, USAGE, USUAL_RATE};
use crate::model::reading::MAX_TEXT_BYTES;
use crate::model::sizes::Size;
use crate::model::trees::Fault;
use crate::tally::Tally;

/// Puts something wrong into the right way of planning.
pub type Spoil = fn(&mut Planner);

const SAID: [(&str, Spoil); 8] = [
    ("plan prints its usage", |plan| {
        plan.misused = || [USAGE.as_bytes().to_vec(), Vec::new()]
    }),
    ("plan says nothing where its arguments are wrong", |plan| {
        plan.misused = || [Vec::new(), Vec::new()]
    }),
    ("plan prints a refusal", |plan| {
        plan.refused = |number, offset, notes| {
            let [nothing, said] = (RIGHT.refused)(number, offset, notes);
            [said, nothing]
        }
    }),
    ("plan prints a refusal's number, as report", |plan| {
        plan.refused = |number, offset, notes| [format!("refused {number} at {offset}\n").into_bytes(), notes]
    }),
    ("plan does not say a refusal's number", |plan| {
        plan.refused = |_, _, notes| [Vec::new(), notes]
    }),
    ("plan does not explain a refusal", |plan| {
        plan.refused = |number, offset, _| (RIGHT.refused)(number, offset, Vec::new())
    }),
    ("plan explains a refusal before it says the number", |plan| {
        plan.refused = |number, offset, notes| {
            let [nothing, line] = (RIGHT.refused)(number, offset, Vec::new());
            [nothing, [notes, line].concat()]
        }
    }),
    ("plan explains a refusal in report's name", |plan| {
        plan.notes.program = "report"
    }),
];

const ARGUMENTS: [(&str, Spoil); 12] = [
    ("plan takes leading zeros", |plan| {
        plan.rate = |arguments| trimmed(arguments, |argument| argument.strip_prefix(b"0"))
    }),
    ("plan takes a sign", |plan| {
        plan.rate = |arguments| trimmed(arguments, |argument| argument.strip_prefix(b"+"))
    }),
    ("plan takes spaces around a rate", |plan| {
        plan.rate = |arguments| trimmed(arguments, |argument| Some(argument.trim_ascii()))
    }),
    ("plan takes the digit at the start", |plan| {
        plan.rate = |arguments| trimmed(arguments, |argument| argument.get(..1))
    }),
    ("plan takes no argument for an empty one", |plan| {
        plan.rate = |arguments| match arguments {
            [b""] => Some(USUAL_RATE),
            _ => (RIGHT.rate)(arguments),
        }
    }),
    ("plan takes 0 for the usual rate", |plan| {
        plan.rate = |arguments| match arguments {
            [b"0"] => Some(USUAL_RATE),
            _ => (RIGHT.rate)(arguments),
        }
    }),
    ("plan takes the usual rate where its argument is wrong", |plan| {
        plan.rate = |arguments| (RIGHT.rate)(arguments).or(Some(USUAL_RATE))
    }),
    ("plan takes a rate of 19 digits", |plan| {
        plan.rate = |arguments| match arguments {
            [digits] if digits.len() == MOST_DIGITS + 1 => std::str::from_utf8(digits).ok()?.parse().ok(),
            _ => (RIGHT.rate)(arguments),
        }
    }),
    ("plan takes a rate of 17 digits at most", |plan| {
        plan.rate = |arguments| match arguments {
            [digits] if digits.len() >= MOST_DIGITS => None,
            _ => (RIGHT.rate)(arguments),
        }
    }),
    ("plan takes a rate in 32 bits", |plan| {
        plan.rate = |arguments| (RIGHT.rate)(arguments).map(|rate| (rate % (1 << 32)).max(1))
    }),
    ("plan takes the first of several arguments", |plan| {
        plan.rate = |arguments| (RIGHT.rate)(&arguments[..arguments.len().min(1)])
    }),
    ("plan takes the last of several arguments", |plan| {
        plan.rate = |arguments| (RIGHT.rate)(&arguments[arguments.len().saturating_sub(1)..])
    }),
];
const REFUSED_FIRST: &str = "plan refuses a text before it says its usage";
const FIRST_PIECE: &str = "plan takes the first piece for the text";

/// What is taken for the text.
type Taken = fn(&[u8]) -> &[u8];

const TEXTS: [(&str, Taken); 2] = [
    ("plan cuts a text off at 4,096 bytes", |text| {
        &text[..text.len().min(MAX_TEXT_BYTES)]
    }),
    ("plan ends a text at byte 0", |text| {
        let end = text.iter().position(|byte| *byte == 0);
        &text[..end.unwrap_or(text.len())]
    }),
];

fn planners() -> impl Iterator<Item = &'static (&'static str, Spoil)> {
    TABLES.iter().chain(&TIMES).chain(&SAID).chain(&ARGUMENTS)
}

/// The notes on a refusal are wrong in the same ways as those of `report`.
fn name_of_note(name: &str) -> String {
    format!("plan: {name}")
}

pub fn name_all(tally: &mut Tally) {
    planners().for_each(|(name, _)| tally.expect_fault(name));
    TEXTS.iter().for_each(|(name, _)| tally.expect_fault(name));
    tally.expect_fault(REFUSED_FIRST);
    tally.expect_fault(FIRST_PIECE);
    REFUSALS
        .iter()
        .for_each(|(name, _)| tally.expect_fault(&name_of_note(name)));
}

/// On a text that came in pieces, the first of so many bytes, the size of its check, and what the program printed and
/// said.
pub fn program(
    tally: &mut Tally,
    arguments: &[&[u8]],
    (text, first_piece): (&[u8], usize),
    size: &Result<Size, Fault>,
    arrived: &Outcome,
) {
    for (name, spoil) in planners() {
        let mut planner = RIGHT;
        spoil(&mut planner);
        tally.fault(name, planner.program(arguments, text, size) != *arrived);
    }
    for (name, way) in &REFUSALS {
        let mut planner = RIGHT;
        planner.notes = Way {
            program: "plan",
            ..*way
        };
        let differs = planner.program(arguments, text, size) != *arrived;
        tally.fault(&name_of_note(name), differs);
    }
    let on_another = |text: &[u8]| RIGHT.program(arguments, text, &Size::of(text)) != *arrived;
    for (name, taken) in TEXTS {
        tally.fault(name, on_another(taken(text)));
    }
    tally.fault(FIRST_PIECE, on_another(&text[..first_piece]));
    let arguments = if size.is_err() { &[] } else { arguments };
    tally.fault(REFUSED_FIRST, RIGHT.program(arguments, text, size) != *arrived);
}

/// The one argument is taken for another where it is no rate.
fn trimmed(arguments: &[&[u8]], trim: fn(&[u8]) -> Option<&[u8]>) -> Option<u64> {
    match arguments {
        [argument] => number(argument).or_else(|| number(trim(argument)?)),
        _ => (RIGHT.rate)(arguments),
    }
}
