//! The program `plan`, as it was built, on texts and rates, on arguments that are none, with inputs that can not be read
//! and outputs that can not be written. What it prints and what it says on standard error is compared byte for byte.

use super::programs::{show_some, LIMIT};
use crate::child::{run_all, Call, Error, Input, Outcome, Output};
use crate::faults;
use crate::inputs::calls::show_text;
use crate::inputs::plans::{self, Case, REFUSED};
use crate::model::isw;
use crate::model::plan::{self, RIGHT, USAGE};
use crate::model::reading::MAX_TEXT_BYTES;
use crate::model::sizes::Size;
use crate::model::trees::Fault;
use crate::random::Random;
use crate::tally::Tally;
use std::os::unix::ffi::OsStrExt;

const PROGRAM: &str = "crates/plan/out/plan";
/// So many children run at a time. They hardly do any work, and most of the time goes by in waiting for them.
const AT_A_TIME: usize = 4;

const KINDS: [&str; 8] = [
    "plan",
    "refused",
    "usage",
    "no input",
    "no output",
    "no output needed",
    "no standard error",
    "in one pipe",
];

/// Each kind of plan or refusal with what is printed or said of it, and of no other.
const WORDS: [(&str, &str); 33] = [
    ("less than a second", ", less than a second at "),
    ("1 second", ", 1 second at "),
    ("2 seconds", ", 2 seconds at "),
    ("119 seconds", ", 119 seconds at "),
    ("2 minutes", ", 2 minutes at "),
    ("119 minutes", ", 119 minutes at "),
    ("2 hours", ", 2 hours at "),
    ("47 hours", ", 47 hours at "),
    ("2 days", ", 2 days at "),
    ("729 days", ", 729 days at "),
    ("2 years", ", 2 years at "),
    ("113 million years", ", 112935773 years at 1 sets a second"),
    ("the lowest rate", " at 1 sets a second\n"),
    ("the highest", " at 999999999999999999 sets a second\n"),
    ("512 wires", "\nwires                                512\n"),
    ("size 7", "\nsets of size 7 "),
    ("1", ": refused 1 at 4096\n"),
    ("2", ": refused 2 at 0\n"),
    ("3", ": refused 3 at "),
    ("4", ": refused 4 at "),
    ("5", ": refused 5 at "),
    ("6 closed", ": a parenthesis is closed"),
    ("6 open", ": a parenthesis is still open"),
    ("7", ": refused 7 at "),
    ("8", ": refused 8 at "),
    ("9 many", ": a line too many"),
    ("9 few", ": too few lines"),
    ("10", ": refused 10 at "),
    ("cut before", "\n    .."),
    ("cut after", "..\n"),
    ("replaced", "plan: ? stands"),
    ("of line 1", ": line 1, byte "),
    ("of line 1000", ": line 1000, byte "),
];
const EMPTY_LINE: &str = "of an empty line";

/// As in tests/outside/NOTES.md, of ISW at order 2 with nine wires more.
const PLAN: &str = "\
order                                  2
shares                                 3
masks                                  3
wires                                 33
bytes of the table                   792
sets of size 1                        33
sets of size 2                       528
sets in all                          561

NI and SNI: up to 1122 sets, less than a second at 200000000 sets a second
";
const REFUSAL: &str = "\
plan: refused 7 at 34
plan: line 4, byte 5: a bar: registers can not be described yet
    s11 | r0
        ^
";

/// What is to come of a case.
enum Wanted {
    Said(plan::Outcome),
    /// Nothing is printed, and one line says that this file can not be read or written.
    Reason(&'static str),
}

pub fn run(random: &mut Random, tally: &mut Tally) {
    tally.expect("plan program", &KINDS);
    tally.expect("plan words", &WORDS.map(|(kind, _)| kind));
    tally.expect("plan words", &[EMPTY_LINE]);
    examples(tally);
    let cases = plans::all(random);
    let run = |case: &Case| case.call.run(PROGRAM, LIMIT);
    let hangs = |_: &Case, outcome: &Outcome| outcome.status.is_none();
    for (case, outcome) in run_all(&cases, AT_A_TIME, run, hangs) {
        let arguments: Vec<&[u8]> = case.call.arguments.iter().map(|word| word.as_bytes()).collect();
        let size = Size::of(case.text());
        let wanted = wanted(case, &arguments, &size);
        tally.occurs("plan program", kind(case, &wanted));
        if let Err(why) = judge(case, &wanted, &outcome) {
            tally.differs(|| format!("{PROGRAM}: {why}\n    {}", case.show()));
        }
        if let (Wanted::Said(said), Error::Pipe) = (&wanted, case.call.error) {
            count_words(tally, said);
            if let Some(arrived) = arrived(case, &outcome) {
                faults::plan::program(tally, &arguments, (case.text(), case.first_piece()), &size, &arrived);
            }
        }
    }
}

/// A plan and a refusal that were written by hand, whatever the model says.
fn examples(tally: &mut Tally) {
    let more = " s22".repeat(9);
    let plan = format!("{}{more}\n", isw::RIGHT.text(2).trim_end());
    for (text, printed, said) in [(plan.as_str(), PLAN, ""), (REFUSED, "", REFUSAL)] {
        let call = Call::on(Input::Pieces(vec![text.as_bytes().to_vec()]));
        let outcome = call.run(PROGRAM, LIMIT);
        if [&outcome.printed, &outcome.said] != [printed.as_bytes(), said.as_bytes()] {
            let arrived = [&outcome.printed, &outcome.said].map(|bytes| show_some(bytes));
            tally.differs(|| format!("{PROGRAM}: not as by hand: {}", arrived.join(", ")));
        }
    }
}

impl Case {
    fn text(&self) -> &[u8] {
        self.text.as_deref().unwrap_or_default()
    }

    /// How many bytes of the text come first.
    fn first_piece(&self) -> usize {
        match &self.call.input {
            Input::Pieces(pieces) => pieces.first().map_or(0, Vec::len),
            _ => self.text().len(),
        }
    }

    fn show(&self) -> String {
        let odd = self.call.odd.map_or(String::new(), |odd| format!(", odd: {odd}"));
        format!("arguments {:?}{odd}, {}", self.call.arguments, show_text(self.text()))
    }
}

fn wanted(case: &Case, arguments: &[&[u8]], size: &Result<Size, Fault>) -> Wanted {
    let outcome = RIGHT.program(arguments, case.text(), size);
    let [printed, said] = &outcome;
    if case.text.is_none() && said != USAGE.as_bytes() {
        return Wanted::Reason("standard input");
    }
    match case.call.output != Output::Pipe && !printed.is_empty() {
        true => Wanted::Reason("standard output"),
        false => Wanted::Said(outcome),
    }
}

fn kind(case: &Case, wanted: &Wanted) -> &'static str {
    match (wanted, case.call.output, case.call.error) {
        (Wanted::Reason("standard input"), _, _) => "no input",
        (Wanted::Reason(_), _, _) => "no output",
        (_, Output::Full | Output::Closed, _) => "no output needed",
        (_, _, Error::Full | Error::Closed) => "no standard error",
        (_, _, Error::WithOutput) => "in one pipe",
        (Wanted::Said([_, said]), _, _) if said.is_empty() => "plan",
        (Wanted::Said([_, said]), _, _) if said == USAGE.as_bytes() => "usage",
        _ => "refused",
    }
}

fn count_words(tally: &mut Tally, outcome: &plan::Outcome) {
    let [printed, said] = outcome.each_ref().map(|bytes| String::from_utf8_lossy(bytes));
    for (kind, mark) in WORDS {
        if printed.contains(mark) || said.contains(mark) {
            tally.occurs("plan words", kind);
        }
    }
    if said.contains(": refused ") && said.lines().count() == 2 {
        tally.occurs("plan words", EMPTY_LINE);
    }
}

/// What the program printed and said, without what the library says first that makes the system odd.
fn arrived(case: &Case, outcome: &Outcome) -> Option<plan::Outcome> {
    let witness = case.call.odd.map_or(String::new(), |odd| format!("odd: {odd}\n"));
    let said = outcome.said.strip_prefix(witness.as_bytes())?;
    Some([outcome.printed.clone(), said.to_vec()])
}

/// What is wrong with an outcome.
fn judge(case: &Case, wanted: &Wanted, outcome: &Outcome) -> Result<(), String> {
    let Some(arrived) = arrived(case, outcome) else {
        return Err(format!("something else is said first: {}", show_some(&outcome.said)));
    };
    let (right, wanted) = match wanted {
        Wanted::Said([printed, said]) => {
            let nothing = Vec::new();
            let wanted = match case.call.error {
                Error::Pipe => [printed.clone(), said.clone()],
                Error::WithOutput => [[printed.as_slice(), said].concat(), nothing],
                Error::Full | Error::Closed => [printed.clone(), nothing],
            };
            (arrived == wanted, wanted.map(|bytes| show_some(&bytes)).join(", "))
        }
        Wanted::Reason(file) => (
            arrived[0].is_empty() && is_reason(&arrived[1], file),
            format!("nothing, and why there is no {file}"),
        ),
    };
    if !right || !outcome.status.is_some_and(|status| status.success()) {
        let end = outcome
            .status
            .map_or(String::from("stopped"), |status| status.to_string());
        let arrived = arrived.map(|bytes| show_some(&bytes)).join(", ");
        return Err(format!("prints and says {arrived}, {end}; the model: {wanted}"));
    }
    takes_no_more(outcome, arrived[1] == USAGE.as_bytes())
}

/// Of its input the program takes what tells that a text is too long, and nothing where its arguments are wrong.
fn takes_no_more(outcome: &Outcome, misused: bool) -> Result<(), String> {
    let most = if misused { 0 } else { MAX_TEXT_BYTES as u64 + 1 };
    match outcome.taken > most {
        true => Err(format!(
            "takes {} bytes of its input, and not {most} at most",
            outcome.taken
        )),
        false => Ok(()),
    }
}

/// Whether nothing is said but one line, with the file that can not be read or written and some reason.
fn is_reason(said: &[u8], file: &str) -> bool {
    let reason = said.strip_prefix(format!("plan: {file}: ").as_bytes());
    let line = reason.and_then(|reason| reason.strip_suffix(b"\n"));
    line.is_some_and(|line| !line.is_empty() && !line.contains(&b'\n'))
}
