//! Wrong programs that name other operands after a break than those whose count exceeds what the notion allows the set.

use crate::model::breaking::{allowed, exceeding, shares_of_a, shares_of_b, sum, NI, SNI};
use crate::model::records::Record;
use crate::model::report::{opening, operands};
use crate::tally::Tally;

/// What stands after the wire numbers, from the wires, the set that is shown, the notion and the order.
type After = fn(&[Record], &[u16], usize, usize) -> String;

const AFTERS: [(&str, After); 14] = [
    ("a program has the words a and b exchanged", |wires, set, notion, _| {
        let [a, b] = right(wires, set, notion);
        by([b, a])
    }),
    ("a program says by both always", |_, _, _, _| by([true, true])),
    (
        "a program adds the counts of a and b before it compares",
        |wires, set, notion, _| {
            let sum = sum(wires, set);
            let counts = [shares_of_a(sum), shares_of_b(sum)];
            let exceed = counts[0] + counts[1] > allowed(wires, set, notion);
            by(counts.map(|count| count > 0 && exceed))
        },
    ),
    ("a program says by and nothing after it", |_, _, _, _| {
        String::from(" by")
    }),
    (
        "a program says by whom for NI alone",
        |wires, set, notion, _| match notion {
            SNI => String::new(),
            _ => by(right(wires, set, notion)),
        },
    ),
    ("a program does not say by whom", |_, _, _, _| String::new()),
    (
        "a program lets an outer wire pay for the word under SNI",
        |wires, set, notion, _| by_or_right(exceeding(sum(wires, set), set.len()), wires, set, notion),
    ),
    (
        "a program names a alone where both leak",
        |wires, set, notion, _| match right(wires, set, notion) {
            [true, _] => by([true, false]),
            other => by(other),
        },
    ),
    (
        "a program names b alone where both leak",
        |wires, set, notion, _| match right(wires, set, notion) {
            [_, true] => by([false, true]),
            other => by(other),
        },
    ),
    (
        "a program names an operand with as many shares as are allowed",
        |wires, set, notion, _| match allowed(wires, set, notion) {
            0 => by(right(wires, set, notion)),
            allowed => by(exceeding(sum(wires, set), allowed - 1)),
        },
    ),
    (
        "a program names an operand only with more shares than the order",
        |wires, set, notion, order| by_or_right(exceeding(sum(wires, set), order), wires, set, notion),
    ),
    (
        "a program names an operand whose uses cancelled",
        |wires, set, notion, _| {
            let seen = set.iter().map(|wire| wires[usize::from(*wire)]);
            let seen = seen.fold(Record::default(), |seen, wire| seen.plus(wire).plus(seen.common(wire)));
            by(exceeding(seen, allowed(wires, set, notion)))
        },
    ),
    ("a program counts products for a alone", |wires, set, notion, _| {
        let sum = sum(wires, set);
        let allowed = allowed(wires, set, notion);
        let of_b = sum.b.count_ones() as usize;
        by_or_right([shares_of_a(sum) > allowed, of_b > allowed], wires, set, notion)
    }),
    ("a program counts products for b alone", |wires, set, notion, _| {
        let sum = sum(wires, set);
        let allowed = allowed(wires, set, notion);
        let of_a = sum.a.count_ones() as usize;
        by_or_right([of_a > allowed, shares_of_b(sum) > allowed], wires, set, notion)
    }),
];
const OF_NI: &str = "a program has NI's word for SNI too";
const BEFORE: &str = "a program says by whom before the wires";

pub fn name_all(tally: &mut Tally) {
    AFTERS.iter().for_each(|(name, _)| tally.expect_fault(name));
    tally.expect_fault(OF_NI);
    tally.expect_fault(BEFORE);
}

/// On a text whose report is given too.
pub fn program(tally: &mut Tally, text: &[u8], report: &str, printed: &[u8]) {
    let Some(reading) = opening(text).1 else {
        return;
    };
    for (name, after) in &AFTERS {
        let wrong = with_breaks(report, |notion, numbers, set| {
            format!("{numbers}{}", after(&reading.wires, set, notion, reading.order))
        });
        tally.fault(name, wrong.as_bytes() != printed);
    }
    let of_ni = report
        .lines()
        .find_map(|line| line.strip_prefix("NI broken ")?.split_once(" by "));
    let ni_word = with_breaks(report, |notion, numbers, set| {
        let word = of_ni.map_or(operands(&reading.wires, set, notion), |(_, word)| word);
        format!("{numbers} by {word}")
    });
    tally.fault(OF_NI, ni_word.as_bytes() != printed);
    let before = with_breaks(report, |notion, numbers, set| {
        format!("by {} {numbers}", operands(&reading.wires, set, notion))
    });
    tally.fault(BEFORE, before.as_bytes() != printed);
}

/// The report with something else after `broken`, from the notion and the wires that are shown.
fn with_breaks(report: &str, after: impl Fn(usize, &str, &[u16]) -> String) -> String {
    let line = |line: &str| match line.split_once(" broken ") {
        None => format!("{line}\n"),
        Some((name, shown)) => {
            let (numbers, _) = shown.split_once(" by ").unwrap_or((shown, ""));
            let set: Vec<u16> = numbers.split(' ').filter_map(|wire| wire.parse().ok()).collect();
            let notion = if name == "NI" { NI } else { SNI };
            format!("{name} broken {}\n", after(notion, numbers, &set))
        }
    };
    report.lines().map(line).collect()
}

fn right(wires: &[Record], set: &[u16], notion: usize) -> [bool; 2] {
    exceeding(sum(wires, set), allowed(wires, set, notion))
}

fn by(operands: [bool; 2]) -> String {
    String::from(match operands {
        [true, true] => " by both",
        [true, false] => " by a",
        [false, true] => " by b",
        [false, false] => "",
    })
}

/// Where no operand is named the right word, so that a fault is noticed by another word only and by none that lacks.
fn by_or_right(operands: [bool; 2], wires: &[Record], set: &[u16], notion: usize) -> String {
    match operands {
        [false, false] => by(right(wires, set, notion)),
        operands => by(operands),
    }
}
