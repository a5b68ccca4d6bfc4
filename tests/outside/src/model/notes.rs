//! The notes on a report: what the program `report` says on standard error, before the report and after it. They follow
//! from the text and the report alone. Those on a refusal are the program `plan`'s too.

use super::breaking::{shares_of_a, shares_of_b, NI, SNI};
use super::functions::{own_sum, sum_of_outputs, COPY, PRODUCT, SUM};
use super::lines::{byte, line, line_of, view, View};
use super::reading::{read, Reading, MAX_TEXT_BYTES};
use super::records::{Record, MAX_TABLE_BYTES};
use super::report::function;
use super::sets::count;
use super::symbols::names;
use super::trees::{Cause, Fault};

pub const SETS_IN_A_SECOND: u64 = 200_000_000;
const REPLACED: &str = "? stands for a byte that is no printing ASCII character: a tab is no space here, and byte 13 \
    (carriage return) no line end";

pub struct Notes {
    /// That the check is long, where it is, and then also in what the function differs, where it is another one.
    pub before: Vec<u8>,
    pub after: Vec<u8>,
}

/// The wires of a breaking set, where a notion is broken.
pub type Shown = Option<Vec<usize>>;

/// How notes are written. The right way is `RIGHT`; the faults of the self-check put one wrong thing in its place.
pub struct Way {
    /// The program that writes them.
    pub program: &'static str,
    /// No more bytes than these are taken for the text.
    pub most_bytes: usize,
    /// What the output lines add up to, which function that is compared with where it is none, that function's own sum
    /// for so many shares, and what is told of the two sums.
    pub outputs: fn(&[Record]) -> Record,
    pub target: fn(Record) -> usize,
    pub own: fn(usize, usize) -> Record,
    pub difference: fn(Record, Record) -> Record,
    /// The sets of both verdicts, of so many wires and at an order; from how many on the check is long; and its time,
    /// from seconds.
    pub sets: fn(usize, usize) -> u64,
    pub long_from: u64,
    pub time: fn(u64) -> String,
    /// The number of the line that an offset of the text lies on, and that of the byte there in its line.
    pub line: fn(&[u8], usize) -> usize,
    pub byte: fn(&[u8], usize) -> usize,
    pub meaning: fn(Cause) -> &'static str,
    /// A line with the mark at one of its bytes, or at its end.
    pub view: fn(&[u8], usize) -> View,
    /// What is shown for NI and for SNI, from the sets of the report.
    pub shown: fn([Shown; 2]) -> [Shown; 2],
    pub kind: fn(Record) -> &'static str,
    /// The wire whose part is shown for a wire.
    pub part: fn(&[Record], usize) -> Record,
    /// What the wires of a set add up to.
    pub together: fn(&[Record], &[usize]) -> Record,
    pub names: fn(Record) -> Vec<String>,
    /// On how many shares of a and of b the sum of a set depends, how many a notion allows the set, and the line on it.
    pub counts: fn(Record) -> [usize; 2],
    pub allowed: fn(&[Record], &[usize], usize) -> usize,
    pub dependence: fn([usize; 2], usize) -> String,
    /// The note on the function, that on the length, and those on a refusal or on breaks, as they are written.
    pub arranged: fn([Vec<u8>; 3]) -> Notes,
}

pub const RIGHT: Way = Way {
    program: "report",
    // One more than a text may have, which tells that it is too long.
    most_bytes: MAX_TEXT_BYTES + 1,
    outputs: sum_of_outputs,
    target,
    own: own_sum,
    difference: Record::plus,
    sets,
    long_from: 1_000_000_000,
    time,
    line,
    byte,
    meaning,
    view,
    shown: |sets| sets,
    kind: |wire| if wire.is_outer() { "outer" } else { "inner" },
    part: |wires, wire| wires[wire],
    together: |wires, set| set.iter().fold(Record::default(), |sum, wire| sum.plus(wires[*wire])),
    names,
    counts,
    allowed,
    dependence,
    arranged: |[function, length, after]| match length.is_empty() {
        true => Notes {
            before: Vec::new(),
            after: [function, after].concat(),
        },
        false => Notes {
            before: [function, length].concat(),
            after,
        },
    },
};

impl Way {
    /// The notes for a text and its report. Without the report there is no note on a break.
    pub fn notes(&self, text: &[u8], report: &str) -> Notes {
        let text = &text[..text.len().min(self.most_bytes)];
        (self.arranged)(match read(text, MAX_TABLE_BYTES) {
            Err(fault) => [Vec::new(), Vec::new(), self.on_refusal(text, fault)],
            Ok(reading) => [
                self.on_function(&reading),
                self.on_length(&reading),
                self.on_breaks(text, &reading.wires, report),
            ],
        })
    }

    fn on_function(&self, reading: &Reading) -> Vec<u8> {
        if function(reading) != "other" {
            return Vec::new();
        }
        let sum = (self.outputs)(&reading.wires);
        let target = (self.target)(sum);
        let wanted = match target {
            PRODUCT => "the product of a and b",
            SUM => "the sum of a and b",
            _ => "a copy of a",
        };
        let difference = (self.difference)(sum, (self.own)(reading.shares(), target));
        let symbols = (self.names)(difference).join(" ");
        format!("report: function other: the output lines differ from {wanted} in {symbols}\n").into_bytes()
    }

    fn on_length(&self, reading: &Reading) -> Vec<u8> {
        let sets = (self.sets)(reading.wires.len(), reading.order);
        if sets < self.long_from {
            return Vec::new();
        }
        let time = (self.time)(sets / SETS_IN_A_SECOND);
        let mostly = "if each is visited, mostly far less";
        let advice = "docs/GUIDE.md tells how to divide them over machines";
        format!("report: up to {sets} sets to look at, some {time} {mostly}; {advice}\n").into_bytes()
    }

    pub fn on_refusal(&self, text: &[u8], Fault { offset, cause }: Fault) -> Vec<u8> {
        let (line, byte) = ((self.line)(text, offset), (self.byte)(text, offset));
        let (program, meaning) = (self.program, (self.meaning)(cause));
        let mut notes = format!("{program}: line {line}, byte {byte}: {meaning}\n").into_bytes();
        let around = line_of(text, offset);
        if !around.is_empty() {
            let view = (self.view)(&text[around.clone()], offset - around.start);
            notes.extend(b"    ");
            notes.extend(view.shown);
            notes.extend(format!("\n    {}^\n", " ".repeat(view.mark)).bytes());
            if view.replaced {
                notes.extend(format!("{program}: {REPLACED}\n").bytes());
            }
        }
        notes
    }

    fn on_breaks(&self, text: &[u8], wires: &[Record], report: &str) -> Vec<u8> {
        let mut notes = Vec::new();
        let sets = (self.shown)(["NI", "SNI"].map(|notion| set_of(report, notion)));
        let notions = [(NI, "NI", "wires"), (SNI, "SNI", "inner wires")];
        for ((notion, name, counted), set) in notions.into_iter().zip(sets) {
            let Some(set) = set else {
                continue;
            };
            let sum = "these wires add up to a sum without masks that depends on more shares of a, or of b,";
            notes.extend(format!("report: {name} is broken: {sum} than there are {counted}\n").bytes());
            for wire in &set {
                let part = (self.part)(wires, *wire);
                let (from, length) = (usize::from(part.offset), usize::from(part.length));
                let (line, kind) = ((self.line)(text, from), (self.kind)(wires[*wire]));
                notes.extend(format!("    wire {wire}, line {line}, {kind}: ").bytes());
                notes.extend(&text[from..from + length]);
                notes.push(b'\n');
            }
            let sum = (self.together)(wires, &set);
            let symbols = (self.names)(sum).join(" ");
            notes.extend(format!("    together: {symbols}\n").bytes());
            let allowed = (self.allowed)(wires, &set, notion);
            notes.extend((self.dependence)((self.counts)(sum), allowed).bytes());
        }
        notes
    }
}

fn target(sum: Record) -> usize {
    match (sum.products, sum.b) {
        (0, 0) => COPY,
        (0, _) => SUM,
        _ => PRODUCT,
    }
}

pub fn sets(wires: usize, order: usize) -> u64 {
    2 * (1..=order).map(|size| count(wires, size)).sum::<u64>()
}

/// Of `report` no check is said to be long that takes less than five seconds.
pub fn time(seconds: u64) -> String {
    match seconds {
        0 => String::from("less than a second"),
        1 => String::from("1 second"),
        ..120 => format!("{seconds} seconds"),
        ..7_200 => format!("{} minutes", seconds / 60),
        ..172_800 => format!("{} hours", seconds / 3_600),
        ..63_072_000 => format!("{} days", seconds / 86_400),
        _ => format!("{} years", seconds / 31_536_000),
    }
}

pub fn counts(sum: Record) -> [usize; 2] {
    [shares_of_a(sum), shares_of_b(sum)]
}

/// Under SNI the outer wires of a set allow nothing.
pub fn allowed(wires: &[Record], set: &[usize], notion: usize) -> usize {
    let pays = |wire: &&usize| notion == NI || !wires[**wire].is_outer();
    set.iter().filter(pays).count()
}

pub fn dependence([of_a, of_b]: [usize; 2], allowed: usize) -> String {
    format!("    depends on {of_a} of a's shares and {of_b} of b's, {allowed} of each allowed\n")
}

/// The wires of a break, which stand before its operands.
fn set_of(report: &str, notion: &str) -> Shown {
    let start = format!("{notion} broken ");
    let set = report.lines().find_map(|line| line.strip_prefix(start.as_str()))?;
    let (set, _) = set.split_once(" by ")?;
    let wires = set.split(' ').map(|wire| wire.parse().expect("a set is of numbers"));
    Some(wires.collect())
}

pub fn meaning(cause: Cause) -> &'static str {
    match cause {
        Cause::TextTooLong => "the text is longer than 4096 bytes",
        Cause::FirstLine => "the first line has to be \"ORDER = \" and one digit from 1 to 7, and nothing else",
        Cause::SecondLine => {
            "the second line has to be as \"MASKS = []\" or \"MASKS = [r0, r1]\", masks from r0 to r63, none twice, \
             and nothing else"
        }
        Cause::NoSymbol => {
            "no such symbol: products are as s01, shares as a0 and b0, masks as r0 (to r63), share numbers up to the \
             order; there are no operators and no comments"
        }
        Cause::UndeclaredMask => "this mask is not named in the second line",
        Cause::NoneOpen | Cause::NothingInside => {
            "a parenthesis is closed that was not opened, or that has nothing inside"
        }
        Cause::StillOpen => "a parenthesis is still open where the line ends",
        Cause::Bar => "a bar: registers can not be described yet",
        Cause::TooDeep => "a parenthesis is opened inside 16 others",
        Cause::LineTooMany => "a line too many: each share has one output line, and shares are one more than the order",
        Cause::LinesTooFew => "too few lines: each share has one output line, and shares are one more than the order",
        // The program lends a table for as many wires as may be.
        Cause::TooManyWires | Cause::TableTooShort => "the gadget has more than 512 wires",
    }
}
