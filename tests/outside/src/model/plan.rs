//! The program `plan`: what it prints for a text, the size of its check and the time that takes at a rate, and what it
//! says on standard error where there is no plan.

use super::notes::{self, time, Way};
use super::sizes::Size;
use super::trees::Fault;

pub const USAGE: &str = "plan: usage: plan [RATE]    (RATE: sets a second, a number from 1 on of at most 18 digits, \
    without leading zeros; the text comes from standard input)\n";

/// Sets a second, where no rate is given.
pub const USUAL_RATE: u64 = 200_000_000;

/// Digits that are more than these are no rate.
pub const MOST_DIGITS: usize = 18;

/// What the program prints, and what it says on standard error.
pub type Outcome = [Vec<u8>; 2];

/// How a plan is written. The right way is `RIGHT`; the faults of the self-check put one wrong thing in its place.
pub struct Planner {
    /// The rate that the arguments give, none where they are wrong; and what comes of these.
    pub rate: fn(&[&[u8]]) -> Option<u64>,
    pub misused: fn() -> Outcome,
    /// The lines of the table, each a name and a figure, and how one is written.
    pub figures: fn(&Size) -> Vec<(String, u64)>,
    pub line: fn(&str, u64) -> String,
    /// The sets of both verdicts, how many seconds so many take at a rate, and a time in words.
    pub sets: fn(&Size) -> u64,
    pub seconds: fn(u64, u64) -> u64,
    pub time: fn(u64) -> String,
    /// The last line, from the sets, the time and the rate; and the table with it.
    pub last: fn(u64, &str, u64) -> String,
    pub whole: fn(String, String) -> String,
    /// What comes of a refused text, from its number and offset and from the notes on it.
    pub refused: fn(u64, usize, Vec<u8>) -> Outcome,
    pub notes: Way,
}

pub const RIGHT: Planner = Planner {
    rate,
    misused: || [Vec::new(), USAGE.as_bytes().to_vec()],
    figures,
    line: |name, figure| format!("{name:20}{figure:>20}\n"),
    sets: |size| 2 * in_all(size),
    seconds: |sets, rate| sets / rate,
    time,
    last: |sets, time, rate| format!("NI and SNI: up to {sets} sets, {time} at {rate} sets a second\n"),
    whole: |table, last| format!("{table}\n{last}"),
    refused: |number, offset, notes| {
        let line = format!("plan: refused {number} at {offset}\n");
        [Vec::new(), [line.as_bytes(), &notes].concat()]
    },
    notes: Way {
        program: "plan",
        ..notes::RIGHT
    },
};

impl Planner {
    /// What comes of the arguments and a text, from the size of its check.
    pub fn program(&self, arguments: &[&[u8]], text: &[u8], size: &Result<Size, Fault>) -> Outcome {
        let Some(rate) = (self.rate)(arguments) else {
            return (self.misused)();
        };
        match size {
            Ok(size) => [self.plan(size, rate).into_bytes(), Vec::new()],
            Err(fault) => {
                let text = &text[..text.len().min(self.notes.most_bytes)];
                let notes = self.notes.on_refusal(text, *fault);
                (self.refused)(fault.cause.number_and_word().0, fault.offset, notes)
            }
        }
    }

    fn plan(&self, size: &Size, rate: u64) -> String {
        let lines = (self.figures)(size).into_iter();
        let table = lines.map(|(name, figure)| (self.line)(&name, figure)).collect();
        let sets = (self.sets)(size);
        let time = (self.time)((self.seconds)(sets, rate));
        (self.whole)(table, (self.last)(sets, &time, rate))
    }
}

/// Of at most one argument, which is digits, the first no 0.
fn rate(arguments: &[&[u8]]) -> Option<u64> {
    match arguments {
        [] => Some(USUAL_RATE),
        [argument] => number(argument),
        _ => None,
    }
}

pub fn number(argument: &[u8]) -> Option<u64> {
    let form = matches!(argument, [b'1'..=b'9', ..]) && argument.len() <= MOST_DIGITS;
    if !form || !argument.iter().all(u8::is_ascii_digit) {
        return None;
    }
    // Digits are ASCII, and 18 of them are below 2 to the 60th.
    std::str::from_utf8(argument).ok()?.parse().ok()
}

pub fn figures(size: &Size) -> Vec<(String, u64)> {
    let of_reading = [
        ("order", size.order),
        ("shares", size.shares),
        ("masks", size.masks),
        ("wires", size.wires),
        ("bytes of the table", size.bytes),
    ];
    let mut figures: Vec<(String, u64)> = of_reading
        .iter()
        .map(|(name, figure)| (String::from(*name), *figure as u64))
        .collect();
    let sizes = (1..=size.order).zip(&size.sets);
    figures.extend(sizes.map(|(of, sets)| (format!("sets of size {of}"), *sets)));
    figures.push((String::from("sets in all"), in_all(size)));
    figures
}

pub fn in_all(size: &Size) -> u64 {
    size.sets.iter().sum()
}
