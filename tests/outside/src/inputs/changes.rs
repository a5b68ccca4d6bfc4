//! Tables of gadgets that were changed, cut or put together.

use super::gadgets::{self, Description};
use super::searches::any_wires;
use super::tables::{record, Table};
use crate::model::reading::read;
use crate::model::records::{Record, MAX_TABLE_BYTES, MAX_WIRES};
use crate::random::Random;

/// A gadget with one to three changes.
pub fn changed(random: &mut Random, gadgets: &[Table]) -> Table {
    let mut table = gadgets[random.below(gadgets.len())].clone();
    for _ in 0..random.between(1, 3) {
        change(random, &mut table);
    }
    table
}

/// Some wires of a gadget, side by side or not, few enough for its highest order; and perhaps changes.
pub fn part(random: &mut Random, gadgets: &[Table]) -> Table {
    let mut table = gadgets[random.below(gadgets.len())].clone();
    let wires = table.records.len();
    let keep = any_wires(random, table.shares).clamp(1, wires);
    match random.chance(50) {
        true => {
            let from = random.below(wires - keep + 1);
            table.records = table.records[from..from + keep].to_vec();
        }
        false => {
            while table.records.len() > keep {
                table.records.remove(random.below(table.records.len()));
            }
        }
    }
    for _ in 0..random.below(4) {
        change(random, &mut table);
    }
    table
}

/// A record is changed, dropped or doubled, or one of its mask bits, or its byte 18, is flipped.
fn change(random: &mut Random, table: &mut Table) {
    let (shares, masks, wires) = (table.shares, table.masks, table.records.len());
    let wire = random.below(wires);
    let old = table.records[wire];
    match random.below(6) {
        0 => {
            let outer = old.outer;
            table.records[wire] = Record {
                outer,
                ..old.plus(record(random, shares, masks, 2))
            };
        }
        1 if wires > 1 => {
            table.records.remove(wire);
        }
        2 if wires < MAX_WIRES => table.records.insert(random.below(wires + 1), old),
        3 | 4 if masks > 0 => table.records[wire].masks ^= 1 << random.below(masks),
        _ => table.records[wire].outer ^= 1,
    }
}

/// A gadget and then a refresh of what it gives out, with masks of its own or with the same: all wires of both. What the
/// first gives out is inner in the whole, mostly.
pub fn composed(random: &mut Random, _: &[Table]) -> Table {
    let order = random.pick(&[1, 2, 2, 3]);
    let first = loop {
        let gadget = gadgets::any(random, order);
        if gadget.order == order {
            break gadget;
        }
    };
    let second = refresh(random, order);
    let fresh = random.chance(60);
    let shift = if fresh { first.masks } else { 0 };
    let masks = first.masks.max(shift + second.masks);
    let (first, second) = (wires_of(&first), wires_of(&second));
    let outputs: Vec<Record> = first.iter().copied().filter(|wire| wire.is_outer()).collect();
    let percent = random.pick(&[0, 0, 50, 100]);
    let mut records: Vec<Record> = first
        .iter()
        .map(|wire| Record {
            outer: wire.outer & u8::from(random.chance(percent)),
            ..*wire
        })
        .collect();
    records.extend(second.iter().map(|wire| {
        let shares = (0..=order).filter(|share| wire.a >> share & 1 == 1);
        let given = shares.fold(Record::default(), |sum, share| sum.plus(outputs[share]));
        Record {
            outer: wire.outer,
            masks: given.masks ^ wire.masks << shift,
            ..given
        }
    }));
    let mut table = Table {
        records,
        shares: order + 1,
        masks,
    };
    for _ in 0..random.pick(&[0, 0, 1, 2]) {
        change(random, &mut table);
    }
    table
}

/// A copy of a: with a mask for each share and the next one, with one for each pair of shares, or with none.
fn refresh(random: &mut Random, order: usize) -> Description {
    let pair = |i: usize, j: usize| i.max(j) * (i.max(j) - 1) / 2 + i.min(j);
    let kind = random.below(5);
    let line = |i: usize| match kind {
        0 => format!("a{i}"),
        1 | 2 => format!("a{i} r{i} r{}", (i + 1) % (order + 1)),
        _ => {
            let others = (0..=order).filter(|j| *j != i);
            format!(
                "a{i}{}",
                others.map(|j| format!(" r{}", pair(i, j))).collect::<String>()
            )
        }
    };
    Description {
        order,
        masks: [0, order + 1, order + 1, pair(0, order + 1), pair(0, order + 1)][kind],
        lines: (0..=order).map(line).collect(),
    }
}

fn wires_of(gadget: &Description) -> Vec<Record> {
    let Ok(reading) = read(&gadget.text(), MAX_TABLE_BYTES) else {
        unreachable!("a gadget can be read")
    };
    reading.wires
}
