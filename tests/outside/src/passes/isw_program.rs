//! The program `isw`, as it was built, on orders, on arguments that are none, and with outputs that can not be written.
//! What it prints and what it says on standard error is compared byte for byte.

use super::programs::{show_some, LIMIT};
use crate::child::{Call, Error, Input, Outcome, Output};
use crate::faults;
use crate::inputs::arguments::{self, NO_NUMBERS};
use crate::model::isw::{program, MAX_ISW_ORDER, MOST_DIGITS, REFUSED, USAGE};
use crate::random::Random;
use crate::tally::Tally;
use std::ffi::OsString;
use std::os::unix::ffi::OsStrExt;

const PROGRAM: &str = "crates/isw/out/isw";

/// Numbers outside 1 to 7. Most would be inside if only their low bits, or their first digits, were read.
const OUTSIDE: [&str; 14] = [
    "0",
    "8",
    "9",
    "10",
    "17",
    "71",
    "255",
    "256",
    "257",
    "65537",
    "4294967297",
    "9223372036854775809",
    "18446744073709551617",
    "340282366920938463463374607431",
];

const SEVERAL: [&[&str]; 6] = [&[], &["1", "2"], &["1", ""], &["", "1"], &["--", "1"], &["1", "2", "3"]];

const KINDS: [&str; 7] = [
    "text",
    "refused",
    "usage",
    "no output",
    "no output needed",
    "no standard error",
    "in one pipe",
];

pub fn run(_: &mut Random, tally: &mut Tally) {
    tally.expect("isw program", &KINDS);
    for call in calls() {
        let outcome = call.run(PROGRAM, LIMIT);
        let arguments: Vec<&[u8]> = call.arguments.iter().map(|argument| argument.as_bytes()).collect();
        let model = program(&arguments);
        tally.occurs("isw program", kind(&call, &model));
        if let Err(why) = judge(&call, &model, &outcome) {
            tally.differs(|| format!("{PROGRAM}: {why}\n    arguments {:?}", call.arguments));
        }
        if call.output == Output::Pipe && call.error == Error::Pipe && call.odd.is_none() {
            faults::isw::isw_program(tally, &arguments, [&outcome.printed, &outcome.said]);
        }
        if outcome.status.is_none() {
            // It hangs, and the others would too.
            return;
        }
    }
}

fn calls() -> Vec<Call> {
    let orders = (1..=MAX_ISW_ORDER).map(|order| order.to_string());
    let mut numbers: Vec<String> = orders.chain(OUTSIDE.map(String::from)).collect();
    // As many digits as a number may have, and one more.
    for digits in [MOST_DIGITS, MOST_DIGITS + 1, 5_000] {
        numbers.push("1".repeat(digits));
        numbers.push(format!("1{}", "0".repeat(digits - 1)));
        numbers.push(format!("{}1", "0".repeat(digits - 1)));
    }
    let mut calls: Vec<Call> = numbers.iter().map(|number| on(&[number])).collect();
    calls.extend(NO_NUMBERS.map(|bytes| Call {
        arguments: arguments::of(&[bytes]),
        ..on(&[])
    }));
    calls.extend(SEVERAL.map(on));
    for arguments in [&["1"][..], &["7"], &["8"], &["07"], &[]] {
        calls.extend(ways(arguments));
    }
    calls
}

fn on(arguments: &[&str]) -> Call {
    Call {
        arguments: arguments.iter().map(OsString::from).collect(),
        ..Call::on(Input::Pieces(Vec::new()))
    }
}

/// Outputs that can not be written, standard errors that take nothing, systems that are odd, and an input that is not
/// there or has no end: the program has no business with it.
fn ways(arguments: &[&str]) -> Vec<Call> {
    let call = || on(arguments);
    let with_output = |output| Call { output, ..call() };
    let with_error = |error| Call { error, ..call() };
    let with_input = |input| Call { input, ..call() };
    let odd = |odd| Call {
        odd: Some(odd),
        ..call()
    };
    vec![
        with_output(Output::Full),
        with_output(Output::Closed),
        with_error(Error::Full),
        with_error(Error::Closed),
        with_error(Error::WithOutput),
        with_input(Input::Closed),
        with_input(Input::Endless(b"2\n".to_vec())),
        odd("errno"),
        odd("short"),
        odd("leaves"),
    ]
}

fn kind(call: &Call, [printed, said]: &[String; 2]) -> &'static str {
    match (call.output, call.error) {
        (Output::Full | Output::Closed, _) if printed.is_empty() => "no output needed",
        (Output::Full | Output::Closed, _) => "no output",
        (_, Error::Full | Error::Closed) => "no standard error",
        (_, Error::WithOutput) => "in one pipe",
        _ if said == USAGE => "usage",
        _ if said == REFUSED => "refused",
        _ => "text",
    }
}

/// What is wrong with an outcome.
fn judge(call: &Call, [printed, said]: &[String; 2], outcome: &Outcome) -> Result<(), String> {
    let witness = call.odd.map_or(String::new(), |odd| format!("odd: {odd}\n"));
    let no_output = call.output != Output::Pipe && !printed.is_empty();
    let wanted = match call.error {
        Error::Pipe => [printed.clone(), witness.clone() + said],
        Error::WithOutput => [format!("{printed}{said}"), String::new()],
        Error::Full | Error::Closed => [printed.clone(), String::new()],
    };
    let right = match no_output {
        true => outcome.printed.is_empty() && is_reason(&outcome.said),
        false => [&outcome.printed, &outcome.said].map(Vec::as_slice) == [wanted[0].as_bytes(), wanted[1].as_bytes()],
    };
    if right && outcome.status.is_some_and(|status| status.success()) {
        return Ok(());
    }
    let end = outcome
        .status
        .map_or(String::from("stopped"), |status| status.to_string());
    let arrived = [&outcome.printed, &outcome.said].map(|bytes| show_some(bytes));
    let wanted = match no_output {
        true => String::from("nothing, and why there is no standard output"),
        false => wanted.map(|bytes| show_some(bytes.as_bytes())).join(", "),
    };
    Err(format!(
        "prints and says {}, {end}; the model: {wanted}",
        arrived.join(", ")
    ))
}

/// Whether nothing is said but one line, which names standard output.
fn is_reason(said: &[u8]) -> bool {
    let line = said.strip_suffix(b"\n");
    line.is_some_and(|line| line.starts_with(b"isw: standard output") && !line.contains(&b'\n'))
}
