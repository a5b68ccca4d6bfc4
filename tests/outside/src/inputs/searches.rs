//! Tables on which two ways to search for the first breaking set may part: with few masks and with many, with none, with
//! one in all wires, with wires that cancel, with planted breaks of every size, and of gadgets that were changed, cut or
//! put together.

use super::changes::{changed, composed, part};
use super::tables::{circuit, loose, record, ring, Table};
use crate::model::records::{Record, MAX_MASKS, MAX_SHARES, MAX_WIRES};
use crate::model::sets::count;
use crate::random::Random;

/// A table has at most so many wires that a verdict at its highest order looks at no more sets than this, unless it is
/// that of a whole gadget. So there are up to 14 wires at order 7.
const MOST_SETS: u64 = 10_000;

/// Tables are made from those of the gadgets, or without.
type Make = fn(&mut Random, &[Table]) -> Table;

/// With how many tables of each kind come in a turn.
pub const KINDS: [(&str, usize, Make); 10] = [
    ("few masks", 1, few_masks),
    ("many masks", 1, many_masks),
    ("many masks in few sums", 1, few_sums),
    ("a planted break", 4, planted),
    ("wires twice", 1, twice),
    ("no masks", 1, no_masks),
    ("one mask in all wires", 1, one_mask),
    (CHANGED, 1, changed),
    ("a part of a gadget", 1, part),
    ("gadgets put together", 1, composed),
];
pub const CHANGED: &str = "a changed gadget";

/// How many sets a verdict at an order looks at where it holds.
pub fn sets_up_to(wires: usize, order: usize) -> u64 {
    (1..=order).map(|size| count(wires, size)).sum()
}

/// A number of wires, not too many for the highest order that so many shares have.
pub fn any_wires(random: &mut Random, shares: usize) -> usize {
    let most = (1..=MAX_WIRES)
        .rev()
        .find(|wires| sets_up_to(*wires, shares - 1) <= MOST_SETS);
    let most = most.expect("one wire makes few sets");
    match random.chance(30) {
        true => random.between(most.min(10), most),
        false => random.between(1, most.min(24)),
    }
}

fn few_masks(random: &mut Random, _: &[Table]) -> Table {
    let (shares, masks) = (random.between(2, MAX_SHARES), random.between(1, 3));
    any_table(random, shares, masks)
}

fn many_masks(random: &mut Random, _: &[Table]) -> Table {
    let (shares, masks) = (random.between(2, MAX_SHARES), random.pick(&[8, 16, 33, 63, 64]));
    any_table(random, shares, masks)
}

fn no_masks(random: &mut Random, _: &[Table]) -> Table {
    let shares = random.between(2, MAX_SHARES);
    any_table(random, shares, 0)
}

fn any_table(random: &mut Random, shares: usize, masks: usize) -> Table {
    let wires = any_wires(random, shares);
    match random.chance(60) {
        true => circuit(random, shares, masks, wires),
        false => loose(random, shares, masks, wires),
    }
}

/// Every wire is the sum of some of a few sums of many masks, and of a symbol or two. So each has many masks, and they
/// often cancel all at once.
fn few_sums(random: &mut Random, _: &[Table]) -> Table {
    let shares = random.between(2, MAX_SHARES);
    let (wires, masks) = (any_wires(random, shares), random.between(4, MAX_MASKS));
    let within = u64::MAX >> (MAX_MASKS - masks);
    let sums = random.between(1, 6);
    let sums: Vec<u64> = (0..sums).map(|_| random.next() & random.next() & within).collect();
    let terms = random.between(1, 3);
    let percent = random.pick(&[0, 20, 50]);
    let records = (0..wires).map(|_| {
        let some = sums.iter().filter(|_| random.chance(50));
        let masks = some.fold(0, |masks, sum| masks ^ sum);
        Record {
            masks,
            outer: u8::from(random.chance(percent)),
            ..record(random, shares, 0, terms)
        }
    });
    let records = records.collect();
    Table { records, shares, masks }
}

/// Rings of one size, which break or just do not, among wires that can not break alone: such as have no mask and one
/// share, such as have a mask of their own beside those of a ring's wire, and copies of a ring's wires.
fn planted(random: &mut Random, _: &[Table]) -> Table {
    let size = random.between(1, MAX_SHARES - 1);
    let shares = random.between(size + 1, MAX_SHARES);
    let most = any_wires(random, shares).max(size);
    let mut places: Vec<usize> = (0..MAX_MASKS).collect();
    random.shuffle(&mut places);
    let rings = random.pick(&[1, 1, 2, 3]).min(most / size);
    let mut records = Vec::new();
    for places in places.chunks(size).take(rings) {
        records.extend(placed_ring(random, shares, places));
    }
    let ringed = records.len();
    while records.len() < most && random.chance(85) {
        let bystander = match random.below(4) {
            0 => random.pick(&records[..ringed]),
            1 | 2 => one_share(random, shares),
            _ => Record {
                // The rings have 21 masks at most.
                masks: random.pick(&records[..ringed]).masks | 1 << places[MAX_MASKS - 1 - records.len() % 20],
                ..record(random, shares, 0, 2)
            },
        };
        records.push(bystander);
    }
    random.shuffle(&mut records);
    Table {
        records,
        shares,
        masks: MAX_MASKS,
    }
}

/// A ring on these masks, as many as it has wires. Mostly it breaks.
fn placed_ring(random: &mut Random, shares: usize, places: &[usize]) -> Vec<Record> {
    let size = places.len();
    let seen = match random.chance(80) {
        true => random.between(size + 1, shares),
        false => random.between(size.saturating_sub(1).max(1), size),
    };
    let percent = random.pick(&[0, 0, 30, 60]);
    let mut wires = ring(random, shares, size, seen);
    for wire in &mut wires {
        *wire = moved(*wire, places);
        wire.outer = u8::from(random.chance(percent));
    }
    wires
}

/// The wire with other masks in the place of its first ones.
pub fn moved(wire: Record, places: &[usize]) -> Record {
    let named = (0..places.len()).filter(|mask| wire.masks >> mask & 1 == 1);
    let masks = named.fold(0, |masks, mask| masks | 1 << places[mask]);
    Record { masks, ..wire }
}

/// A wire that depends on one share of each operand at most, and has no mask.
pub fn one_share(random: &mut Random, shares: usize) -> Record {
    let (i, j) = (random.below(shares), random.below(shares));
    match random.below(3) {
        0 => Record::product(i, j),
        1 => Record::share_of_a(i),
        _ => Record::share_of_b(j),
    }
}

/// Some wires of another table twice or more, at any places, sometimes once inner and once outer.
fn twice(random: &mut Random, gadgets: &[Table]) -> Table {
    let make = random.pick(&[few_masks, many_masks, few_sums, planted, part]);
    let mut table = make(random, gadgets);
    let keep = random.between(1, table.records.len());
    let wires = table.records.len();
    table.records.truncate(keep);
    while table.records.len() < wires.max(2) {
        let mut again = random.pick(&table.records);
        again.outer ^= u8::from(random.chance(10));
        table.records.insert(random.below(table.records.len() + 1), again);
    }
    table
}

/// The same mask in all wires, or in nearly all, and no other.
fn one_mask(random: &mut Random, _: &[Table]) -> Table {
    let shares = random.between(2, MAX_SHARES);
    let (wires, masks) = (any_wires(random, shares), random.pick(&[1, 1, 2, 64]));
    let mut table = any_table(random, shares, 0);
    let mask = 1 << random.below(masks);
    let percent = random.pick(&[100, 100, 95]);
    for record in &mut table.records {
        record.masks = if random.chance(percent) { mask } else { 0 };
    }
    table.records.truncate(wires);
    Table { masks, ..table }
}
