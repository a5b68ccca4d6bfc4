//! Reports on gadgets, on texts of the grammar and on refused texts, into buffers of every length.

use crate::answers::Entry;
use crate::engine;
use crate::inputs::calls::show_text;
use crate::inputs::damage::damaged;
use crate::inputs::gadgets::{self, multiplication, Cross};
use crate::inputs::texts::sound;
use crate::model;
use crate::model::report::report;
use crate::random::Random;
use crate::tally::Tally;

const TEXTS: usize = 1_500;
const MOST_SETS: u64 = 2_000;
const GADGETS: usize = 60;
const MOST_SETS_OF_GADGETS: u64 = 60_000;
/// A buffer of so many bytes is always long enough, by the header.
const ALWAYS_ENOUGH: usize = 512;

pub fn run(random: &mut Random, tally: &mut Tally) {
    for _ in 0..TEXTS {
        let mut text = if random.chance(50) {
            sound(random, 3)
        } else {
            gadgets::any(random, 3).text()
        };
        if random.chance(30) {
            text = damaged(random, &text);
        }
        if let Ok(report) = report(&text, MOST_SETS) {
            let enough = report.len();
            for length in [0, 1, enough / 2, enough - 1, enough, enough + 1, ALWAYS_ENOUGH] {
                ask(tally, &text, &report, length);
            }
        }
    }
    for _ in 0..GADGETS {
        let text = gadgets::any(random, 4).text();
        if let Ok(report) = report(&text, MOST_SETS_OF_GADGETS) {
            ask(tally, &text, &report, ALWAYS_ENOUGH);
        }
    }
    for order in 3..=4 {
        let text = multiplication(order, |_, _| Cross::MaskFirst).text();
        let Ok(report) = report(&text, u64::MAX) else {
            unreachable!("any number may be searched")
        };
        ask(tally, &text, &report, ALWAYS_ENOUGH);
    }
    every_length(tally, b"");
    for order in 1..=2 {
        every_length(tally, &multiplication(order, |_, _| Cross::MaskFirst).text());
        every_length(tally, &multiplication(order, |_, _| Cross::MaskLast).text());
    }
}

/// Every length of the buffer from 0 to past the report's.
fn every_length(tally: &mut Tally, text: &[u8]) {
    let Ok(report) = report(text, MOST_SETS_OF_GADGETS) else {
        unreachable!("gadgets of order 2 are small")
    };
    for length in 0..report.len() + 10 {
        ask(tally, text, &report, length);
    }
}

fn ask(tally: &mut Tally, text: &[u8], report: &str, buffer_length: usize) {
    let reply = engine::report_text(text, buffer_length);
    let model = model::report_text(report, buffer_length);
    let word = if report.starts_with("refused") {
        "of a refusal"
    } else {
        "of a gadget"
    };
    let input = || format!("buffer_length {buffer_length} {}, report {report:?}", show_text(text));
    tally.compare(Entry::ReportText, word, &model, &reply, input);
}
