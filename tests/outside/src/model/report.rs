//! The text of a report.

use super::breaking::{allowed, exceeding, sum, TooMany, NI, SCOPE, SNI};
use super::directed;
use super::functions::{computes, COPY, PRODUCT, SUM};
use super::reading::{read, Reading};
use super::records::{Record, MAX_TABLE_BYTES};
use super::sets::MAX_SIZE;
use super::trees::Fault;

/// The whole report, line ends included; `most` bounds the sets that either verdict looks at.
pub fn report(text: &[u8], most: u64) -> Result<String, TooMany> {
    report_up_to(MAX_SIZE, text, most)
}

/// The report by verdicts that look at no set of more wires than `size`. No order is above `MAX_SIZE`; with less than
/// the order it is that of a wrong program.
pub fn report_up_to(size: usize, text: &[u8], most: u64) -> Result<String, TooMany> {
    report_by(text, |wires, notion, order| {
        let found = SCOPE.first(wires, notion, order.min(size), most)?;
        Ok(found.map(|found| found.set))
    })
}

/// The report by directed searches, which are for texts of more sets than anybody can look at.
pub fn directed_report(text: &[u8], most: u64) -> Result<String, TooMany> {
    report_by(text, |wires, notion, order| {
        directed::RIGHT.first(wires, notion, order, most)
    })
}

/// From the wires, the notion and the order, `first` tells the first breaking set.
fn report_by(
    text: &[u8],
    first: impl Fn(&[Record], usize, usize) -> Result<Option<Vec<u16>>, TooMany>,
) -> Result<String, TooMany> {
    let (mut report, reading) = opening(text);
    let Some(reading) = reading else {
        return Ok(report);
    };
    for (notion, name) in [(NI, "NI"), (SNI, "SNI")] {
        let found = first(&reading.wires, notion, reading.order)?;
        report += &format!("{name}{}\n", verdict(&reading.wires, notion, found.as_deref()));
    }
    Ok(report)
}

/// What stands in a report behind a notion, with its first breaking set.
pub fn verdict(wires: &[Record], notion: usize, first: Option<&[u16]>) -> String {
    let Some(set) = first else {
        return String::from(" holds");
    };
    let numbers = set.iter().map(|wire| format!(" {wire}")).collect::<String>();
    format!(" broken{numbers} by {}", operands(wires, set, notion))
}

/// The operands whose count exceeds what the notion allows a set that breaks it.
pub fn operands(wires: &[Record], set: &[u16], notion: usize) -> &'static str {
    match exceeding(sum(wires, set), allowed(wires, set, notion)) {
        [true, true] => "both",
        [true, false] => "a",
        [false, true] => "b",
        [false, false] => unreachable!("a set that is shown breaks"),
    }
}

/// The lines before the verdicts, or the only one of a refused text, and what was read.
pub fn opening(text: &[u8]) -> (String, Option<Reading>) {
    let reading = match read(text, MAX_TABLE_BYTES) {
        Ok(reading) => reading,
        Err(Fault { cause, offset }) => return (format!("refused {} at {offset}\n", cause.number_and_word().0), None),
    };
    let (order, shares, masks, wires) = (reading.order, reading.shares(), reading.masks, reading.wires.len());
    let function = function(&reading);
    let lines = format!("order {order} shares {shares} masks {masks} wires {wires}\nfunction {function}\n");
    (lines, Some(reading))
}

pub fn function(reading: &Reading) -> &'static str {
    let named = [(PRODUCT, "product"), (SUM, "sum"), (COPY, "copy")];
    let computed = named
        .iter()
        .find(|(number, _)| computes(&reading.wires, reading.shares(), reading.masks, *number));
    computed.map_or("other", |(_, name)| name)
}
