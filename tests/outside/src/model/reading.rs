//! The reader of texts: all faults of a text are collected, and the least by offset and order is the refusal.

use super::records::{Record, MAX_WIRES, RECORD_BYTES};
use super::symbols::{masks_of, order_of, Heading};
use super::trees::{read_line, Cause, Fault, Item};
use super::wires;

pub const MAX_TEXT_BYTES: usize = 4096;

pub struct Reading {
    pub order: usize,
    pub masks: usize,
    pub wires: Vec<Record>,
}

impl Reading {
    pub fn shares(&self) -> usize {
        self.order + 1
    }
}

/// What a text describes, where a table of `table_length` bytes is lent.
pub fn read(text: &[u8], table_length: usize) -> Result<Reading, Fault> {
    if text.len() > MAX_TEXT_BYTES {
        return Err(Fault {
            offset: MAX_TEXT_BYTES,
            cause: Cause::TextTooLong,
        });
    }
    let mut faults = Vec::new();
    let lines = lines_of(text);
    let heading = read_heading(text, &lines, &mut faults);
    let trees = read_outputs(text, lines.get(2..).unwrap_or(&[]), &heading, &mut faults);
    if let Some(first) = faults.into_iter().min() {
        return Err(first);
    }
    let wires = wires::of_lines(&trees);
    let refused = |cause| {
        Err(Fault {
            offset: text.len(),
            cause,
        })
    };
    if wires.len() > MAX_WIRES {
        return refused(Cause::TooManyWires);
    }
    if wires.len() * RECORD_BYTES > table_length {
        return refused(Cause::TableTooShort);
    }
    Ok(Reading {
        order: heading.order,
        masks: heading.mask_count(),
        wires,
    })
}

/// First byte and end, without the line end, of each line. What follows the last line end is a line only if there is
/// something.
fn lines_of(text: &[u8]) -> Vec<(usize, usize)> {
    let mut lines = Vec::new();
    let mut start = 0;
    for line in text.split_inclusive(|byte| *byte == b'\n') {
        let ended = line.last() == Some(&b'\n');
        lines.push((start, start + line.len() - usize::from(ended)));
        start += line.len();
    }
    lines
}

/// A wrong line is taken for one that allows all: its fault stands before every other, whatever follows.
fn read_heading(text: &[u8], lines: &[(usize, usize)], faults: &mut Vec<Fault>) -> Heading {
    let line = |number: usize| lines.get(number).map(|(from, to)| &text[*from..*to]);
    let order = line(0).and_then(order_of);
    if order.is_none() {
        faults.push(Fault {
            offset: 0,
            cause: Cause::FirstLine,
        });
    }
    let declared = line(1).and_then(masks_of);
    if declared.is_none() {
        let offset = lines.get(1).map_or(text.len(), |(from, _)| *from);
        faults.push(Fault {
            offset,
            cause: Cause::SecondLine,
        });
    }
    Heading {
        order: order.unwrap_or(7),
        declared: declared.unwrap_or(u64::MAX),
    }
}

fn read_outputs(text: &[u8], lines: &[(usize, usize)], heading: &Heading, faults: &mut Vec<Fault>) -> Vec<Vec<Item>> {
    let mut trees = Vec::new();
    for (from, to) in lines {
        let Some(first) = (*from..*to).find(|at| text[*at] != b' ') else {
            continue;
        };
        if trees.len() > heading.order {
            faults.push(Fault {
                offset: first,
                cause: Cause::LineTooMany,
            });
        } else {
            trees.push(read_line(text, *from, *to, heading, faults));
        }
    }
    if trees.len() <= heading.order {
        faults.push(Fault {
            offset: text.len(),
            cause: Cause::LinesTooFew,
        });
    }
    trees
}

/// The sum that a part of a text stands for, where the part is a group; a wire's part has to be one.
pub fn sum_of_part(part: &[u8], order: usize) -> Option<Record> {
    let heading = Heading {
        order,
        declared: u64::MAX,
    };
    let mut faults = Vec::new();
    let items = read_line(part, 0, part.len(), &heading, &mut faults);
    (faults.is_empty() && !items.is_empty()).then(|| wires::sum_of_items(&items))
}
