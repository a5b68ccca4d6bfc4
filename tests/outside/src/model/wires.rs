//! From the trees of the output lines to the list of wires.

use super::records::Record;
use super::trees::{Item, Kind};

/// The wires of all lines, in the order in which they are worked out.
pub fn of_lines(lines: &[Vec<Item>]) -> Vec<Record> {
    let mut wires = Vec::new();
    let mut seen = Vec::new();
    for (number, line) in lines.iter().enumerate() {
        list_group(line, &mut seen, &mut wires);
        if !has_addition(line) {
            let symbol = only_symbol(line);
            wires.push(wire_of(sum_of(symbol), symbol.from, symbol.to));
        }
        // The last addition takes all other items of the line, so it is the last that is listed.
        let last = wires.last_mut().expect("a line makes a wire at least");
        last.outer = 1;
        last.line = number as u8;
    }
    wires
}

/// The sum that an item stands for, from its symbols alone.
fn sum_of(item: &Item) -> Record {
    match &item.kind {
        Kind::Symbol(symbol) => *symbol,
        Kind::Group(items) => sum_of_items(items),
    }
}

pub fn sum_of_items(items: &[Item]) -> Record {
    items.iter().fold(Record::default(), |sum, item| sum.plus(sum_of(item)))
}

fn list_group(items: &[Item], seen: &mut Vec<Record>, wires: &mut Vec<Record>) {
    for (place, item) in items.iter().enumerate() {
        match &item.kind {
            Kind::Group(inside) => list_group(inside, seen, wires),
            Kind::Symbol(symbol) if !seen.contains(symbol) => {
                seen.push(*symbol);
                wires.push(wire_of(*symbol, item.from, item.to));
            }
            Kind::Symbol(_) => {}
        }
        if place > 0 {
            wires.push(wire_of(sum_of_items(&items[..=place]), items[0].from, item.to));
        }
    }
}

fn wire_of(sum: Record, from: usize, to: usize) -> Record {
    Record {
        offset: from as u16,
        length: (to - from) as u16,
        ..sum
    }
}

fn has_addition(items: &[Item]) -> bool {
    let inside = |item: &Item| matches!(&item.kind, Kind::Group(items) if has_addition(items));
    items.len() > 1 || items.iter().any(inside)
}

/// The symbol of a group without additions, out of all its parentheses.
fn only_symbol(items: &[Item]) -> &Item {
    match &items[0].kind {
        Kind::Symbol(_) => &items[0],
        Kind::Group(inside) => only_symbol(inside),
    }
}
