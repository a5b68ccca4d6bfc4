//! Wrong writers of the multiplication of Ishai, Sahai and Wagner, and wrong programs `isw`: each has to be told from the
//! engine, or from the program, on some order.

use crate::model;
use crate::model::isw::{number, program, Writer, MAX_ISW_ORDER, MOST_DIGITS, REFUSED, RIGHT, USAGE};
use crate::passes::examples::A;
use crate::reply::Reply;
use crate::tally::Tally;

/// What is written for an order.
type Text = fn(usize) -> String;

const TEXTS: [(&str, Text); 16] = [
    ("an ISW text with the two products of a pair exchanged", |order| {
        let below = |mask, i, j| format!("((r{mask} s{i}{j}) s{j}{i})");
        Writer { below, ..RIGHT }.text(order)
    }),
    ("an ISW text with a pair's products before its mask", |order| {
        let below = |mask, i, j| format!("((s{j}{i} s{i}{j}) r{mask})");
        Writer { below, ..RIGHT }.text(order)
    }),
    ("an ISW text with the inner parentheses left out", |order| {
        let below = |mask, i, j| format!("(r{mask} s{j}{i} s{i}{j})");
        Writer { below, ..RIGHT }.text(order)
    }),
    ("an ISW text without a pair's mask at its products", |order| {
        let below = |_, i, j| format!("(s{j}{i} s{i}{j})");
        Writer { below, ..RIGHT }.text(order)
    }),
    ("an ISW text without a pair's mask where it stands alone", |order| {
        let above = |_, _, _| String::new();
        Writer { above, ..RIGHT }.text(order)
    }),
    ("an ISW text with a pair's products on its other line", |order| {
        let Writer { above, below, .. } = RIGHT;
        let exchanged = Writer {
            above: below,
            below: above,
            ..RIGHT
        };
        exchanged.text(order)
    }),
    ("an ISW text with a share's own product forgotten", |order| {
        let own = |_| String::new();
        Writer { own, ..RIGHT }.text(order)
    }),
    ("an ISW text with the other shares falling", |order| {
        let others = |order, i| (0..=order).rev().filter(|j| *j != i).collect();
        Writer { others, ..RIGHT }.text(order)
    }),
    ("an ISW text with masks numbered by columns", |order| {
        let pairs = |order| (0..=order).flat_map(|j| (0..j).map(move |i| (i, j))).collect();
        Writer { pairs, ..RIGHT }.text(order)
    }),
    ("an ISW text with masks from r1 on", |order| {
        Writer { first: 1, ..RIGHT }.text(order)
    }),
    ("an ISW text with a space at a line's end", |order| {
        let line = |items: Vec<String>| items.join(" ") + " \n";
        Writer { line, ..RIGHT }.text(order)
    }),
    ("an ISW text with lines that end in bytes 13 and 10", |order| {
        RIGHT.text(order).replace('\n', "\r\n")
    }),
    ("an ISW text without the last line's end", |order| {
        String::from(RIGHT.text(order).trim_end())
    }),
    ("an ISW text with a byte 0 behind it counted", |order| {
        RIGHT.text(order) + "\0"
    }),
    ("an ISW text with masks' names parted by a comma alone", |order| {
        RIGHT.text(order).replace(", ", ",")
    }),
    ("an ISW text of order 1 always", |_| String::from(A)),
];

/// From the order, the text that is or would be written for it, and the buffer's length.
type Answer = fn(usize, &str, usize) -> Reply;

const ANSWERS: [(&str, Answer); 9] = [
    ("24 before 23", |order, text, length| match length < text.len() {
        true => Reply::refused(24),
        false => model::isw_text(order, length),
    }),
    ("an ISW text with a byte past it", |order, text, length| {
        let mut reply = model::isw_text(order, length);
        if length > text.len() && reply.status == 0 {
            reply.written.push(0);
        }
        reply
    }),
    ("an ISW text cut off where it does not fit", |order, text, length| {
        let right = model::isw_text(order, length);
        match right.status {
            24 => model::written_to(&text[..length], length),
            _ => right,
        }
    }),
    ("an ISW text begun where it does not fit", |order, text, length| {
        let mut reply = model::isw_text(order, length);
        if reply.status == 24 {
            reply.written = text[..length].bytes().map(u16::from).collect();
        }
        reply
    }),
    ("the length of an ISW text that does not fit", |order, text, length| {
        let mut reply = model::isw_text(order, length);
        if reply.status == 24 {
            reply.numbers[0] = Some(text.len() as u64);
        }
        reply
    }),
    (
        "24 for a buffer of just an ISW text's length",
        |order, text, length| match length <= text.len() && (1..=MAX_ISW_ORDER).contains(&order) {
            true => Reply::refused(24),
            false => model::isw_text(order, length),
        },
    ),
    ("an ISW text of order 0", |order, text, length| match order {
        0 => model::written_to(text, length),
        _ => model::isw_text(order, length),
    }),
    ("an ISW text of order 8", |order, text, length| match order {
        8 => model::written_to(text, length),
        _ => model::isw_text(order, length),
    }),
    ("the order of an ISW text taken in 32 bits", |order, _, length| {
        model::isw_text(order & 0xFFFF_FFFF, length)
    }),
];

/// What a wrong program makes of its arguments: what it prints, and what it says on standard error.
type Printed = fn(&[&[u8]]) -> [String; 2];

const PROGRAMS: [(&str, Printed); 13] = [
    ("isw takes an order in 64 bits", |arguments| in_bits(arguments, 64)),
    ("isw takes an order in 32 bits", |arguments| in_bits(arguments, 32)),
    ("isw takes an order in 8 bits", |arguments| in_bits(arguments, 8)),
    ("isw takes a number of any length", |arguments| match arguments {
        [digits] if digits.len() > MOST_DIGITS && digits.iter().all(u8::is_ascii_digit) => said(REFUSED),
        _ => program(arguments),
    }),
    ("isw takes a number of 31 digits at most", |arguments| match arguments {
        [digits] if digits.len() == MOST_DIGITS => said(USAGE),
        _ => program(arguments),
    }),
    ("isw takes leading zeros", |arguments| {
        trimmed(arguments, |argument| argument.strip_prefix(b"0"))
    }),
    ("isw takes a sign", |arguments| {
        trimmed(arguments, |argument| argument.strip_prefix(b"+"))
    }),
    ("isw takes spaces around a number", |arguments| {
        trimmed(arguments, |argument| Some(argument.trim_ascii()))
    }),
    ("isw takes the digit at the start", |arguments| {
        trimmed(arguments, |argument| argument.get(..1))
    }),
    ("isw takes the first of several arguments", |arguments| {
        program(&arguments[..arguments.len().min(1)])
    }),
    ("isw says usage for an order that is none", |arguments| {
        program(arguments).map(|line| line.replace(REFUSED, USAGE))
    }),
    ("isw refuses what is no number", |arguments| {
        program(arguments).map(|line| line.replace(USAGE, REFUSED))
    }),
    ("isw prints what it has to say", |arguments| {
        let [printed, said] = program(arguments);
        [printed + &said, String::new()]
    }),
];

pub fn name_all(tally: &mut Tally) {
    TEXTS.iter().for_each(|(name, _)| tally.expect_fault(name));
    ANSWERS.iter().for_each(|(name, _)| tally.expect_fault(name));
    PROGRAMS.iter().for_each(|(name, _)| tally.expect_fault(name));
}

/// On an order, with the text that is or would be written for it, and the engine's reply for each length of the buffer.
pub fn isw_text(tally: &mut Tally, order: usize, text: &str, replies: &[(usize, Reply)]) {
    if (1..=MAX_ISW_ORDER).contains(&order) {
        for (name, wrong) in &TEXTS {
            let wrong = wrong(order);
            for (length, engine) in replies {
                tally.fault(name, model::written_to(&wrong, *length) != *engine);
            }
        }
    }
    for (name, wrong) in &ANSWERS {
        for (length, engine) in replies {
            tally.fault(name, wrong(order, text, *length) != *engine);
        }
    }
}

/// On what the program printed and said.
pub fn isw_program(tally: &mut Tally, arguments: &[&[u8]], arrived: [&[u8]; 2]) {
    for (name, wrong) in &PROGRAMS {
        let wrong = wrong(arguments);
        tally.fault(name, [wrong[0].as_bytes(), wrong[1].as_bytes()] != arrived);
    }
}

fn said(line: &str) -> [String; 2] {
    [String::new(), String::from(line)]
}

/// Of a number that has more bits the lowest are taken.
fn in_bits(arguments: &[&[u8]], bits: u32) -> [String; 2] {
    match arguments {
        [argument] => match number(argument) {
            Some(number) => program(&[(number % (1 << bits)).to_string().as_bytes()]),
            None => program(arguments),
        },
        _ => program(arguments),
    }
}

/// The one argument is taken for another where it is no number.
fn trimmed(arguments: &[&[u8]], trim: fn(&[u8]) -> Option<&[u8]>) -> [String; 2] {
    match arguments {
        [argument] if number(argument).is_none() => program(&[trim(argument).unwrap_or(argument)]),
        _ => program(arguments),
    }
}
