//! Calls on tables: the bytes and numbers that an entry gets, sound ones and such as the scope turns down, often with
//! several wrong things at once so that the order of the tests shows.

use super::tables::Table;
use super::HUGE;
use crate::model::records::{to_bytes, MAX_TABLE_BYTES, RECORD_BYTES};
use crate::random::Random;
use std::fmt::Write;

/// A table as it is lent.
#[derive(Clone)]
pub struct TableCall {
    pub table: Vec<u8>,
    pub shares: usize,
    pub masks: usize,
}

impl TableCall {
    /// The table's bytes, with random bytes where nothing is judged.
    pub fn new(random: &mut Random, table: &Table) -> TableCall {
        let mut bytes = to_bytes(&table.records);
        for record in bytes.chunks_exact_mut(RECORD_BYTES) {
            record[19..].fill_with(|| random.next() as u8);
        }
        TableCall {
            table: bytes,
            shares: table.shares,
            masks: table.masks,
        }
    }

    /// One change that one of the tests 11, 12 and 13 may meet, or that leaves the call sound.
    pub fn injure(&mut self, random: &mut Random) {
        let wires = self.table.len() / RECORD_BYTES;
        let huge = random.pick(&HUGE);
        match random.below(if wires > 0 { 9 } else { 5 }) {
            0 => self.shares = random.pick(&[0, 1, 9, 10, huge]),
            1 => self.masks = random.pick(&[65, 66, huge]),
            2 => self.shares = random.between(0, 10),
            3 => self.masks = random.between(0, 66),
            4 => self.change_length(random),
            5 => self.table[RECORD_BYTES * random.below(wires) + 18] = random.pick(&[2, 3, 128, 255]),
            _ => {
                let bit = random.below(18 * 8);
                self.table[RECORD_BYTES * random.below(wires) + bit / 8] ^= 1 << (bit % 8);
            }
        }
    }

    fn change_length(&mut self, random: &mut Random) {
        let length = match random.below(3) {
            0 => self.table.len() + random.between(1, 25),
            1 => self.table.len().saturating_sub(random.between(1, 25)),
            _ => MAX_TABLE_BYTES + random.pick(&[1, 23, 24, 25, 48, 12_288]),
        };
        self.table.resize(length, 0);
    }

    /// In a form from which the table can be made again.
    pub fn show(&self) -> String {
        format!("shares {} masks {} table {}", self.shares, self.masks, hex(&self.table))
    }
}

pub fn hex(bytes: &[u8]) -> String {
    bytes.iter().fold(String::new(), |mut digits, byte| {
        let _ = write!(digits, "{byte:02x}");
        digits
    })
}

pub fn show_text(text: &[u8]) -> String {
    format!("text b\"{}\"", text.escape_ascii())
}

/// A notion, mostly one of the two.
pub fn notion(random: &mut Random) -> usize {
    let huge = random.pick(&HUGE);
    match random.chance(94) {
        true => random.between(1, 2),
        false => random.pick(&[0, 3, huge]),
    }
}

/// A buffer's length: mostly enough, sometimes any.
pub fn set_length(random: &mut Random, least: usize) -> usize {
    match random.chance(85) {
        true => least.min(9) + random.pick(&[0, 0, 1, 2]),
        false => random.below(10),
    }
}
