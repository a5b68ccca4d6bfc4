//! Texts by the scope's grammar: every order, nesting, blank lines, masks in any order, symbols used again, spaces
//! wherever they may stand, and texts brought to the limits of bytes, wires and depth.

use crate::model::reading::read;
use crate::model::records::MAX_TABLE_BYTES;
use crate::random::Random;

/// Writes one text, item by item.
struct Writer<'a> {
    random: &'a mut Random,
    text: Vec<u8>,
    symbols: Vec<String>,
    /// Spaces only where there have to be some.
    tight: bool,
}

/// A sound text. `items` is how many items a group may have.
pub fn sound(random: &mut Random, items: usize) -> Vec<u8> {
    let order = random.between(1, 7);
    let depth = random.pick(&[0, 1, 2, 3, 5]);
    let masks = mask_names(random);
    let symbols = symbols(random, order, &masks);
    let text = format!("ORDER = {order}\nMASKS = [{}]\n", masks.join(", ")).into_bytes();
    let tight = random.chance(50);
    let mut writer = Writer {
        random,
        text,
        symbols,
        tight,
    };
    for _ in 0..=order {
        writer.blank_lines();
        writer.spaces();
        writer.group(items, depth);
        writer.spaces();
        writer.text.push(b'\n');
    }
    writer.blank_lines();
    let mut text = writer.text;
    if random.chance(30) {
        text.pop();
    }
    text
}

fn mask_names(random: &mut Random) -> Vec<String> {
    let how_many = random.pick(&[0, 0, 1, 1, 2, 3, 5, 10, 64]);
    let mut numbers: Vec<usize> = (0..64).collect();
    random.shuffle(&mut numbers);
    numbers.truncate(how_many);
    if random.chance(50) {
        numbers.sort_unstable();
    }
    numbers.iter().map(|k| format!("r{k}")).collect()
}

/// The symbols a text draws from: few, so that they come again, or all. Two products that meet come up often.
fn symbols(random: &mut Random, order: usize, masks: &[String]) -> Vec<String> {
    let mut symbols = masks.to_vec();
    for i in 0..=order {
        symbols.extend((0..=order).map(|j| format!("s{i}{j}")));
        symbols.extend([format!("a{i}"), format!("b{i}")]);
    }
    random.shuffle(&mut symbols);
    symbols.truncate(random.pick(&[1, 3, 6, 12, 200]));
    if random.chance(30) {
        symbols.extend([String::from("s01"), String::from("s10")]);
    }
    symbols
}

impl Writer<'_> {
    fn blank_lines(&mut self) {
        while self.random.chance(15) {
            self.spaces();
            self.text.push(b'\n');
        }
    }

    fn spaces(&mut self) {
        if !self.tight {
            let spaces = self.random.pick(&[0, 0, 1, 3]);
            self.text.resize(self.text.len() + spaces, b' ');
        }
    }

    fn group(&mut self, items: usize, depth: usize) {
        let most = if self.random.chance(25) { 1 } else { items };
        for _ in 0..self.random.between(1, most) {
            self.spaces();
            self.item(items, depth);
        }
    }

    fn item(&mut self, items: usize, depth: usize) {
        if depth > 0 && self.random.chance(40) {
            self.text.push(b'(');
            self.group(items, depth - 1);
            self.spaces();
            self.text.push(b')');
            return;
        }
        if self.text.last().is_some_and(u8::is_ascii_alphanumeric) {
            self.text.push(b' ');
        }
        let symbol = self.random.below(self.symbols.len());
        self.text.extend(self.symbols[symbol].bytes());
    }
}

/// A sound text whose last line is made longer until there are `wires` wires, if there were fewer.
pub fn with_wires(random: &mut Random, wires: usize) -> Vec<u8> {
    let mut text = sound(random, 6);
    while matches!(text.last(), Some(b'\n' | b' ')) {
        text.pop();
    }
    let Ok(reading) = read(&text, MAX_TABLE_BYTES) else {
        return text;
    };
    // The last symbol is known by then: each further use of it makes one wire, the addition.
    let start = text
        .iter()
        .rposition(u8::is_ascii_lowercase)
        .expect("a line has a symbol");
    let symbol: Vec<u8> = text[start..]
        .iter()
        .copied()
        .take_while(u8::is_ascii_alphanumeric)
        .collect();
    // A line of one symbol has its outer wire already: the first addition takes that one's place.
    let lacking = wires.saturating_sub(reading.wires.len());
    for _ in 0..lacking {
        text.push(b' ');
        text.extend(&symbol);
    }
    text
}

/// A sound text brought to `length` bytes by spaces or empty lines at its end, if it was shorter.
pub fn with_length(random: &mut Random, length: usize) -> Vec<u8> {
    let wires = random.pick(&[10, 100, 400]);
    let mut text = with_wires(random, wires);
    let filling = random.pick(b" \n");
    text.resize(length.max(text.len()), filling);
    text
}

/// A text at order 1 whose first line is `depth` deep, with symbols on some levels.
pub fn with_depth(random: &mut Random, depth: usize) -> Vec<u8> {
    let mut line = String::from("a0");
    for _ in 0..depth {
        let (before, after) = (random.pick(&["", "b0 ", " "]), random.pick(&["", " b1", " "]));
        line = format!("({before}{line}{after})");
    }
    let sides = random.pick(&[["", ""], ["a1", ""], ["", "(a1)"], ["((a0))", ""]]);
    format!("ORDER = 1\nMASKS = []\n{}{line}{}\na0 b0\n", sides[0], sides[1]).into_bytes()
}
