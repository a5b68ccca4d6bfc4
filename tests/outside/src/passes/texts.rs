//! Reading and parts: texts of the grammar, at the limits, damaged and made up, with lent tables of every length that
//! matters, and the part of every wire that was read.

use crate::answers::Entry;
use crate::engine;
use crate::faults;
use crate::inputs::calls::{hex, show_text};
use crate::inputs::damage::{damaged, random_bytes, wrong_lines};
use crate::inputs::gadgets;
use crate::inputs::texts::{sound, with_depth, with_length, with_wires};
use crate::inputs::HUGE;
use crate::model;
use crate::model::reading::{read, sum_of_part, Reading};
use crate::model::records::{to_bytes, Record, MAX_TABLE_BYTES, RECORD_BYTES};
use crate::random::Random;
use crate::tally::Tally;

const SOUND_TEXTS: usize = 6_000;
const DAMAGED_TEXTS: usize = 50_000;
const RANDOM_TEXTS: usize = 20_000;
const TEXTS_AT_LIMITS: usize = 120;
/// All parts are asked for in tables of up to so many wires, and some in larger ones.
const MOST_PARTS: usize = 40;

pub fn run(random: &mut Random, tally: &mut Tally) {
    for text in wrong_lines() {
        ask_read(tally, &text, MAX_TABLE_BYTES);
    }
    for _ in 0..SOUND_TEXTS {
        let items = random.pick(&[2, 3, 4]);
        let text = if random.chance(80) {
            sound(random, items)
        } else {
            gadgets::any(random, 7).text()
        };
        every_length(random, tally, &text);
    }
    for _ in 0..DAMAGED_TEXTS {
        let text = if random.chance(70) {
            sound(random, 3)
        } else {
            gadgets::any(random, 4).text()
        };
        let text = damaged(random, &text);
        let table_length = random.pick(&[MAX_TABLE_BYTES, MAX_TABLE_BYTES, 240, 24, 0]);
        ask_read(tally, &text, table_length);
    }
    for _ in 0..RANDOM_TEXTS {
        ask_read(tally, &random_bytes(random), MAX_TABLE_BYTES);
    }
    at_limits(random, tally);
    beyond_all_limits(tally);
}

fn at_limits(random: &mut Random, tally: &mut Tally) {
    for _ in 0..TEXTS_AT_LIMITS {
        let wires = random.between(508, 516);
        let text = with_wires(random, wires);
        every_length(random, tally, &text);
        ask_read(tally, &damaged(random, &text), MAX_TABLE_BYTES);
        let length = random.between(4_094, 4_098);
        let text = with_length(random, length);
        every_length(random, tally, &text);
        let depth = random.between(14, 18);
        let text = with_depth(random, depth);
        every_length(random, tally, &text);
        ask_read(tally, &damaged(random, &text), MAX_TABLE_BYTES);
    }
}

/// Texts of a length that needs more than 16 bits, and one that is empty.
fn beyond_all_limits(tally: &mut Tally) {
    for length in [0, 5_000, 65_535, 65_536, 65_550, 200_000] {
        for byte in [b' ', b'\n', b'a'] {
            ask_read(tally, &vec![byte; length], MAX_TABLE_BYTES);
        }
    }
}

/// The text with tables that are long enough by far, exactly, by a byte, not by a byte, and of any small length.
pub fn every_length(random: &mut Random, tally: &mut Tally, text: &[u8]) {
    let Some(reading) = ask_read(tally, text, MAX_TABLE_BYTES) else {
        return;
    };
    let exact = reading.wires.len() * RECORD_BYTES;
    for length in [
        0,
        exact,
        exact - 1,
        exact + 1,
        exact - RECORD_BYTES,
        MAX_TABLE_BYTES + 1,
        random.below(exact),
    ] {
        ask_read(tally, text, length);
    }
    let table = to_bytes(&reading.wires);
    let wires = reading.wires.len();
    for wire in (0..wires).filter(|wire| wires <= MOST_PARTS || wire % 37 == 0 || wire + 2 > wires) {
        ask_part(tally, text, &table, wire);
        part_computes_wire(tally, text, &reading, wire);
    }
    for _ in 0..4 {
        damaged_part(random, tally, text, &table);
    }
}

pub fn ask_read(tally: &mut Tally, text: &[u8], table_length: usize) -> Option<Reading> {
    let reading = read(text, table_length);
    let reply = engine::read_text(text, table_length);
    let word = reading
        .as_ref()
        .map_or_else(|fault| fault.cause.number_and_word().1, |_| "read");
    let input = || format!("table_length {table_length} {}", show_text(text));
    tally.compare(Entry::ReadText, word, &model::read_text(&reading), &reply, input);
    faults::read_text(tally, text, &reply);
    reading.ok()
}

fn ask_part(tally: &mut Tally, text: &[u8], table: &[u8], wire: usize) {
    let reply = engine::text_part(text, table, wire);
    let model = model::text_part(text, table, wire);
    let input = || format!("wire {wire} table {} {}", hex(table), show_text(text));
    tally.compare(Entry::TextPart, "answered", &model, &reply, input);
}

/// The part that the engine gives for a wire, read by itself, makes the wire's sum.
fn part_computes_wire(tally: &mut Tally, text: &[u8], reading: &Reading, wire: usize) {
    let [Some(offset), Some(length), ..] = engine::text_part(text, &to_bytes(&reading.wires), wire).numbers else {
        return;
    };
    let part = text.get(offset as usize..offset.saturating_add(length) as usize);
    let sum = part.and_then(|part| sum_of_part(part, reading.order));
    if sum != Some(reading.wires[wire].plus(Record::default())) {
        tally.differs(|| {
            format!(
                "TextPart: the part of wire {wire} does not compute it, {}",
                show_text(text)
            )
        });
    }
}

/// The part of any wire, with a table or a text that is not as it was read.
fn damaged_part(random: &mut Random, tally: &mut Tally, text: &[u8], table: &[u8]) {
    let (mut text, mut table) = (text.to_vec(), table.to_vec());
    let wires = table.len() / RECORD_BYTES;
    let huge = random.pick(&HUGE);
    let wire = if random.chance(80) {
        random.below(wires)
    } else {
        random.pick(&[wires, wires + 1, huge])
    };
    let record = RECORD_BYTES * random.below(wires);
    match random.below(7) {
        0 => table.truncate(random.below(table.len())),
        1 => table.resize(
            random.pick(&[MAX_TABLE_BYTES, MAX_TABLE_BYTES + 24, MAX_TABLE_BYTES + 1]),
            0,
        ),
        2 => table[record..record + RECORD_BYTES].fill_with(|| random.next() as u8),
        3 => text.truncate(random.below(text.len())),
        4 => text.resize(random.pick(&[65_535, 65_536, 131_070, 131_071]), b' '),
        5 => place_at_end(random, &mut table[RECORD_BYTES * wire.min(wires - 1)..], text.len()),
        _ => table.clear(),
    }
    ask_part(tally, &text, &table, wire);
}

/// Gives a record a part that ends at the text's end, a byte before or a byte after.
fn place_at_end(random: &mut Random, record: &mut [u8], text_length: usize) {
    let length = random.below(4).min(text_length - 1);
    let offset = text_length - length + random.below(3) - 1;
    record[20..22].copy_from_slice(&(offset as u16).to_le_bytes());
    record[22..24].copy_from_slice(&(length as u16).to_le_bytes());
}
