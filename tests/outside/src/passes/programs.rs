//! The program `report`, as it was built, on texts that come in every way in which a text may come, with inputs that
//! can not be read and outputs that can not be written. What a program reads and writes is not proved; so what this one
//! prints is compared with the model's report, and what it says on standard error with the model's notes, byte for
//! byte.

use super::{noted, words};
use crate::child::{run_all, Error, Input, Outcome};
use crate::faults;
use crate::inputs::calls::show_text;
use crate::inputs::far::report_or_far;
use crate::inputs::runs::{self, Case, Expected};
use crate::model::notes::{Notes, RIGHT};
use crate::model::reading::MAX_TEXT_BYTES;
use crate::random::Random;
use crate::tally::Tally;
use std::time::Duration;

pub const PROGRAM: &str = "crates/report/out/report";
/// So many children run at a time.
const AT_A_TIME: usize = 2;
/// A child that takes longer hangs. The longest verdicts here are a matter of seconds, on a slow machine too.
pub const LIMIT: Duration = Duration::from_secs(60);
/// A child whose verdicts would take too long is stopped after this, and must not have ended before. It has said by
/// then that they will, on a slow machine too.
const LIMIT_OF_LONG: Duration = Duration::from_secs(1);

/// So many bytes of what a child printed or said are shown where it is wrong.
const MOST_SHOWN: usize = 600;

const KINDS: [&str; 14] = [
    "holds",
    "holds, far",
    "broken",
    "broken late",
    "broken late, far",
    "refused",
    "long",
    "long, two notes",
    "no input",
    "no output",
    "no output, two notes",
    "no standard error",
    "in one pipe",
    "in one pipe, two notes and more",
];

/// What the model says of a case: the report, or nothing where there is to be none, and the notes.
struct Model {
    report: String,
    /// Whether a verdict is the directed search's, since the sets before its first breaking one are too many.
    is_far: bool,
    notes: Notes,
}

pub fn run(random: &mut Random, tally: &mut Tally) {
    tally.expect("program", &KINDS);
    noted::expect(tally);
    words::expect(tally);
    let cases = runs::all(random);
    for (case, (model, outcome)) in run_all(&cases, AT_A_TIME, Case::run, Case::hangs) {
        tally.occurs("program", kind(case, &model));
        if let Expected::Late(_, size) = case.expected {
            assert_eq!(
                sizes_of_breaks(&model.report),
                [size, size],
                "a late break: {}",
                case.show()
            );
        }
        if let Err(why) = judge(case, &model, &outcome) {
            tally.differs(|| format!("{PROGRAM}: {why}\n    {}", case.show()));
        }
        if let Expected::Report(text) | Expected::Late(text, _) = &case.expected {
            compare_with_faults(tally, case, text, &model.report, &outcome);
            if case.call.error == Error::Pipe {
                noted::count(tally, &model.notes);
                words::count(tally, &model.report);
            }
        }
    }
}

fn compare_with_faults(tally: &mut Tally, case: &Case, text: &[u8], report: &str, outcome: &Outcome) {
    let first_piece = match &case.call.input {
        Input::Pieces(pieces) => pieces.first().map_or(0, Vec::len),
        _ => text.len(),
    };
    let error = case.call.error;
    if error == Error::Pipe {
        faults::program(tally, text, first_piece, report, &outcome.printed);
    }
    // Notes that arrive in one pipe with the report are compared too: only there it shows what was written first.
    if let Some(said) = outcome.said.strip_prefix(case.witness().as_bytes()) {
        let arrived = [outcome.printed.as_slice(), said];
        faults::notes::program(tally, text, report, |notes| wanted(error, report, notes) != arrived);
    }
}

impl Case {
    /// What the model says, and what came of it.
    fn run(&self) -> (Model, Outcome) {
        let outcome = self.call.run(PROGRAM, self.limit());
        (self.model(), outcome)
    }

    fn hangs(&self, (_, outcome): &(Model, Outcome)) -> bool {
        outcome.status.is_none() && self.limit() == LIMIT
    }

    fn limit(&self) -> Duration {
        match self.expected {
            Expected::Long(_) => LIMIT_OF_LONG,
            _ => LIMIT,
        }
    }

    fn model(&self) -> Model {
        let text = self.expected.text();
        let (report, is_far) = match self.expected {
            Expected::Report(_) | Expected::Late(..) => report_or_far(text, u64::MAX).unwrap_or_default(),
            Expected::Long(_) | Expected::Reason(..) => (String::new(), false),
        };
        let notes = RIGHT.notes(text, &report);
        if let Expected::Long(_) = self.expected {
            let says = String::from_utf8_lossy(&notes.before).contains(" sets to look at");
            assert!(says, "a long check is said to be one: {}", self.show());
        }
        Model { report, is_far, notes }
    }

    /// The library that makes the system odd says first that it is there.
    fn witness(&self) -> String {
        self.call.odd.map_or(String::new(), |odd| format!("odd: {odd}\n"))
    }

    fn show(&self) -> String {
        let odd = self.call.odd.map_or(String::new(), |odd| format!(", odd: {odd}"));
        match &self.call.input {
            Input::File(path) => format!("{}{odd}", path.display()),
            Input::Pieces(pieces) => format!("{} pieces{odd}, {}", pieces.len(), show_text(&pieces.concat())),
            Input::Endless(start) => format!("endless{odd}, {}", show_text(start)),
            Input::Closed => format!("closed{odd}"),
        }
    }
}

fn kind(case: &Case, Model { report, is_far, notes }: &Model) -> &'static str {
    let two_before = notes.before.split_inclusive(|byte| *byte == b'\n').count() == 2;
    match (&case.expected, case.call.error) {
        (_, Error::Full | Error::Closed) => "no standard error",
        (_, Error::WithOutput) if two_before && !notes.after.is_empty() => "in one pipe, two notes and more",
        (_, Error::WithOutput) => "in one pipe",
        (Expected::Reason("standard input", _), _) => "no input",
        (Expected::Reason(..), _) if two_before => "no output, two notes",
        (Expected::Reason(..), _) => "no output",
        (Expected::Long(_), _) if two_before => "long, two notes",
        (Expected::Long(_), _) => "long",
        (Expected::Late(..), _) if *is_far => "broken late, far",
        (Expected::Late(..), _) => "broken late",
        (Expected::Report(_), _) if report.starts_with("refused") => "refused",
        (Expected::Report(_), _) if report.contains("broken") => "broken",
        (Expected::Report(_), _) if *is_far => "holds, far",
        (Expected::Report(_), _) => "holds",
    }
}

/// How many wires a report shows for each notion that is broken.
fn sizes_of_breaks(report: &str) -> Vec<usize> {
    let sets = report.lines().filter_map(|line| line.split_once(" broken "));
    let sets = sets.filter_map(|(_, set)| set.split_once(" by "));
    sets.map(|(set, _)| set.split(' ').count()).collect()
}

/// What has to arrive from standard output and from standard error, where there is a report.
fn wanted(error: Error, report: &str, notes: &Notes) -> [Vec<u8>; 2] {
    let (report, before, after) = (report.as_bytes(), notes.before.as_slice(), notes.after.as_slice());
    match error {
        Error::Pipe => [report.to_vec(), [before, after].concat()],
        Error::WithOutput => [[before, report, after].concat(), Vec::new()],
        Error::Full | Error::Closed => [report.to_vec(), Vec::new()],
    }
}

/// Whether nothing is said but one line, with the file that can not be read or written and some reason.
fn is_reason(said: &[u8], file: &str) -> bool {
    let reason = said.strip_prefix(format!("report: {file}: ").as_bytes());
    let line = reason.and_then(|reason| reason.strip_suffix(b"\n"));
    line.is_some_and(|line| !line.is_empty() && !line.contains(&b'\n'))
}

/// What is wrong with an outcome.
fn judge(case: &Case, model: &Model, outcome: &Outcome) -> Result<(), String> {
    let ended = outcome.status.is_some_and(|status| status.success());
    let witness = case.witness();
    let Some(said) = outcome.said.strip_prefix(witness.as_bytes()) else {
        let said = show_some(&outcome.said);
        return Err(format!("without {witness:?} on standard error: {said}"));
    };
    let [printed, notes] = wanted(case.call.error, &model.report, &model.notes);
    let before = model.notes.before.as_slice();
    let (right, wanted) = match &case.expected {
        Expected::Report(_) | Expected::Late(..) => (
            ended && outcome.printed == printed && said == notes,
            format!("{}, {}", show_some(&printed), show_some(&notes)),
        ),
        Expected::Long(_) => (
            outcome.status.is_none() && outcome.printed.is_empty() && said == before,
            format!("nothing, {}, and no end in {LIMIT_OF_LONG:?}", show_some(before)),
        ),
        Expected::Reason(file, _) => (
            ended && outcome.printed.is_empty() && said.strip_prefix(before).is_some_and(|said| is_reason(said, file)),
            format!("nothing, {}, and why there is no {file}", show_some(before)),
        ),
    };
    if !right {
        let end = outcome
            .status
            .map_or(String::from("stopped"), |status| status.to_string());
        let [printed, said] = [&outcome.printed, said].map(show_some);
        return Err(format!("prints {printed}, says {said}, {end}; the model: {wanted}"));
    }
    match outcome.taken > MAX_TEXT_BYTES as u64 + 1 {
        true => Err(format!("takes {} bytes of its input", outcome.taken)),
        false => Ok(()),
    }
}

pub fn show_some(bytes: &[u8]) -> String {
    let some = &bytes[..bytes.len().min(MOST_SHOWN)];
    format!("\"{}\"", some.escape_ascii())
}
