//! Sound tables: of random bits, of small circuits, of gadgets with injuries, and tables made so that a set of a given
//! size breaks while its parts do not.

use super::gadgets;
use crate::model::reading::read;
use crate::model::records::{Record, MAX_MASKS, MAX_SHARES, MAX_TABLE_BYTES, MAX_WIRES};
use crate::random::Random;

#[derive(Clone)]
pub struct Table {
    pub records: Vec<Record>,
    pub shares: usize,
    pub masks: usize,
}

/// One of the symbols that may stand at these shares and masks.
fn symbol(random: &mut Random, shares: usize, masks: usize) -> Record {
    let (i, j) = (random.below(shares), random.below(shares));
    match random.below(if masks > 0 { 5 } else { 3 }) {
        0 => Record::product(i, j),
        1 => Record::share_of_a(i),
        2 => Record::share_of_b(j),
        _ => Record::mask(random.below(masks)),
    }
}

/// A sum of up to `terms` symbols.
pub fn record(random: &mut Random, shares: usize, masks: usize, terms: usize) -> Record {
    let terms = random.between(0, terms);
    (0..terms).fold(Record::default(), |sum, _| sum.plus(symbol(random, shares, masks)))
}

fn mark_outer(random: &mut Random, records: &mut [Record]) {
    let percent = random.pick(&[0, 20, 50, 100]);
    for record in records {
        record.outer = u8::from(random.chance(percent));
    }
}

/// Wires that have nothing to do with each other.
pub fn loose(random: &mut Random, shares: usize, masks: usize, wires: usize) -> Table {
    let terms = random.pick(&[1, 2, 3, 3, 6, 40]);
    let mut records: Vec<Record> = (0..wires).map(|_| record(random, shares, masks, terms)).collect();
    mark_outer(random, &mut records);
    Table { records, shares, masks }
}

/// Symbols, and sums of wires that were there before: as a gadget makes them.
pub fn circuit(random: &mut Random, shares: usize, masks: usize, wires: usize) -> Table {
    let symbols = random.between(1, wires);
    let mut records: Vec<Record> = (0..symbols).map(|_| symbol(random, shares, masks)).collect();
    while records.len() < wires {
        let (one, other) = (random.pick(&records), random.pick(&records));
        records.push(one.plus(other));
    }
    mark_outer(random, &mut records);
    Table { records, shares, masks }
}

/// A gadget's table with up to two injuries.
pub fn gadget(random: &mut Random, most_order: usize) -> Table {
    let text = gadgets::any(random, most_order).text();
    let Ok(reading) = read(&text, MAX_TABLE_BYTES) else {
        unreachable!("a gadget can be read")
    };
    let mut table = Table {
        shares: reading.shares(),
        masks: reading.masks,
        records: reading.wires,
    };
    for _ in 0..random.pick(&[0, 0, 1, 2]) {
        injure(random, &mut table);
    }
    table
}

fn injure(random: &mut Random, table: &mut Table) {
    let (one, other) = (random.below(table.records.len()), random.below(table.records.len()));
    let added = symbol(random, table.shares, table.masks);
    let (old, another) = (table.records[one], table.records[other]);
    match random.below(5) {
        0 => {
            table.records[one] = Record {
                outer: old.outer,
                ..old.plus(added)
            }
        }
        1 => table.records[one].outer ^= 1,
        2 => table.records.swap(one, other),
        3 => {
            table.records[one] = Record {
                outer: old.outer,
                ..old.plus(another)
            }
        }
        _ => {
            table.records.remove(one);
            table.records.push(another);
        }
    }
}

/// Wires of one ring of masks: only all `size` of them together have no mask. Their sum names `seen` shares of an
/// operand, and the wires name more shares that cancel in it.
pub fn ring(random: &mut Random, shares: usize, size: usize, seen: usize) -> Vec<Record> {
    let mut wires: Vec<Record> = (0..size).map(|_| record(random, shares, 0, 3)).collect();
    let others = wires[1..].iter().fold(Record::default(), |sum, wire| sum.plus(*wire));
    wires[0] = sum_that_names(random, shares, seen).plus(others);
    for place in 0..size {
        let masks = Record::mask(place).plus(Record::mask((place + 1) % size));
        wires[place] = wires[place].plus(masks);
    }
    wires
}

/// A sum that depends on `seen` shares of one operand, by products or by themselves.
fn sum_that_names(random: &mut Random, shares: usize, seen: usize) -> Record {
    let mut named: Vec<usize> = (0..shares).collect();
    random.shuffle(&mut named);
    let (of_a, as_products, other) = (random.chance(50), random.chance(50), random.below(shares));
    named[..seen].iter().fold(Record::default(), |sum, share| {
        sum.plus(match (of_a, as_products) {
            (true, true) => Record::product(*share, other),
            (false, true) => Record::product(other, *share),
            (true, false) => Record::share_of_a(*share),
            (false, false) => Record::share_of_b(*share),
        })
    })
}

/// A table in which a set of `size` wires breaks, or just does not, and no part of the set does.
pub fn ringed(random: &mut Random, size: usize) -> Table {
    let shares = random.between(size + 1, MAX_SHARES);
    let seen = random.between(size.saturating_sub(1).max(1), shares.min(size + 2));
    let mut records = ring(random, shares, size, seen);
    let masks = size + random.below(6);
    let percent = random.pick(&[0, 0, 30, 60]);
    records
        .iter_mut()
        .for_each(|record| record.outer = u8::from(random.chance(percent)));
    for _ in 0..random.below(6) {
        let mut more = symbol(random, shares, masks);
        more.outer = u8::from(more.masks != 0 && random.chance(30));
        records.push(more);
    }
    random.shuffle(&mut records);
    Table { records, shares, masks }
}

/// Many wires with masks that hardly ever cancel, so that small sets hold; the wires of `set` are a ring of their own.
pub fn planted(random: &mut Random, wires: usize, set: &[u16], shares: usize) -> Table {
    let bystander = |random: &mut Random| {
        let masks = (random.next() | 1 << (MAX_MASKS - 1)) >> set.len() << set.len();
        Record {
            masks,
            ..record(random, shares, 0, 2)
        }
    };
    let mut records: Vec<Record> = (0..wires).map(|_| bystander(random)).collect();
    let seen = random.between(set.len(), shares);
    for (wire, record) in set.iter().zip(ring(random, shares, set.len(), seen)) {
        records[usize::from(*wire)] = Record {
            outer: u8::from(random.chance(20)),
            ..record
        };
    }
    Table {
        records,
        shares,
        masks: MAX_MASKS,
    }
}

/// As many wires as a table may have, or nearly, of which one or two may break.
pub fn largest(random: &mut Random) -> Table {
    let wires = random.pick(&[MAX_WIRES, MAX_WIRES, MAX_WIRES - 1, 300]);
    let shares = random.between(3, MAX_SHARES);
    let first = random.below(wires - 1);
    let second = random.between(first + 1, wires - 1);
    let set = if random.chance(30) {
        vec![first as u16]
    } else {
        vec![first as u16, second as u16]
    };
    planted(random, wires, &set, shares)
}
