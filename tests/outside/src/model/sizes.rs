//! The size of a check, told from a text alone: what reading tells, the bytes of its table, and the sets of each size.

use super::reading::read;
use super::records::{MAX_TABLE_BYTES, RECORD_BYTES};
use super::sets::count;
use super::trees::Fault;

pub struct Size {
    pub order: usize,
    pub shares: usize,
    pub masks: usize,
    pub wires: usize,
    /// Of a table that has just enough room.
    pub bytes: usize,
    /// How many sets there are of each size from 1 to the order.
    pub sets: Vec<u64>,
}

impl Size {
    pub fn of(text: &[u8]) -> Result<Size, Fault> {
        // No table is lent: one with room for as many wires as there may be is never too short.
        let reading = read(text, MAX_TABLE_BYTES)?;
        let wires = reading.wires.len();
        Ok(Size {
            order: reading.order,
            shares: reading.shares(),
            masks: reading.masks,
            wires,
            bytes: RECORD_BYTES * wires,
            sets: (1..=reading.order).map(|size| count(wires, size)).collect(),
        })
    }
}
