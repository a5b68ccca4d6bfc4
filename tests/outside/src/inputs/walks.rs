//! Tables for walks from set to set: such in which one set alone can break, such in which some sets do and some do not,
//! and such in which none does because a mask is left in every sum.

use super::tables::{circuit, loose, record, ring, Table};
use crate::model::records::{Record, MAX_SHARES};
use crate::random::Random;

/// What the one set breaks that can break at all.
#[derive(Clone, Copy)]
pub enum Breaks {
    Both,
    /// NI allows it just as many shares as it has wires, or more than it depends on.
    SniAlone,
}

/// Tables of so many wires in which any number of sets may break.
pub const KINDS: [fn(&mut Random, usize) -> Table; 3] = [few_masks, no_masks, always_masked];

/// Of all sets this one alone has no mask in its sum: its wires are a ring, and each other wire has a mask of its own.
pub fn only(random: &mut Random, wires: usize, set: &[u16], breaks: Breaks) -> Table {
    let size = set.len();
    let shares = random.between(size + 1, MAX_SHARES);
    let (outer, seen) = match breaks {
        Breaks::Both => (random.below(size + 1), random.between(size + 1, shares)),
        Breaks::SniAlone => {
            let outer = random.between(1, size);
            (outer, random.between(size - outer + 1, size))
        }
    };
    let mut records: Vec<Record> = (0..wires)
        .map(|wire| Record {
            outer: u8::from(random.chance(30)),
            ..record(random, shares, 0, 3).plus(Record::mask(size + wire))
        })
        .collect();
    let mut marks: Vec<u8> = (0..size).map(|place| u8::from(place < outer)).collect();
    random.shuffle(&mut marks);
    for ((wire, record), outer) in set.iter().zip(ring(random, shares, size, seen)).zip(marks) {
        records[usize::from(*wire)] = Record { outer, ..record };
    }
    Table {
        records,
        shares,
        masks: size + wires,
    }
}

/// Masks that often cancel.
fn few_masks(random: &mut Random, wires: usize) -> Table {
    let (shares, masks) = (random.between(2, MAX_SHARES), random.between(1, 3));
    match wires > 0 && random.chance(50) {
        true => circuit(random, shares, masks, wires),
        false => loose(random, shares, masks, wires),
    }
}

fn no_masks(random: &mut Random, wires: usize) -> Table {
    let shares = random.between(2, MAX_SHARES);
    loose(random, shares, 0, wires)
}

/// Each wire has a mask that no wire before it has, so that of the highest wire of a set is left in the set's sum.
fn always_masked(random: &mut Random, wires: usize) -> Table {
    let mut table = no_masks(random, wires);
    for (wire, record) in table.records.iter_mut().enumerate() {
        record.masks = 1 << wire | random.next() & ((1 << wire) - 1);
    }
    table.masks = wires;
    table
}
