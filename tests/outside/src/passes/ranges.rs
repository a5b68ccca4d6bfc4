//! Range check on small tables: every kind of range, and all that is turned down.

use crate::answers::Entry;
use crate::engine;
use crate::faults;
use crate::inputs::calls::{notion, set_length, TableCall};
use crate::inputs::HUGE;
use crate::model;
use crate::model::records::{MAX_TABLE_BYTES, RECORD_BYTES};
use crate::model::sets::{count, MAX_SIZE};
use crate::passes::verdicts::any_table;
use crate::random::Random;
use crate::tally::Tally;

const TABLES: usize = 20_000;
const WIDEST: u64 = 3_000;

pub fn run(random: &mut Random, tally: &mut Tally) {
    for _ in 0..TABLES {
        let table = any_table(random);
        let mut call = TableCall::new(random, &table);
        for notion in 1..=2 {
            let size = random.between(0, MAX_SIZE);
            let range = any_range(random, count(table.records.len(), size));
            ask(tally, &call, [notion, size, size + random.below(3)], range);
        }
        for _ in 0..random.below(3) {
            call.injure(random);
        }
        let huge = random.pick(&HUGE);
        let size = if random.chance(85) {
            random.between(0, MAX_SIZE)
        } else {
            random.pick(&[8, 9, huge])
        };
        let wires = call.table.len().min(MAX_TABLE_BYTES) / RECORD_BYTES;
        let range = any_range(random, count(wires, size.min(MAX_SIZE)));
        let numbers = [notion(random), size, set_length(random, size)];
        ask(tally, &call, numbers, range);
    }
}

/// Rising or not, within the count or not, empty, whole, of one rank. A sound range keeps its start, or its end where
/// that is the count, and loses what would take too long.
fn any_range(random: &mut Random, sets: u64) -> [u64; 2] {
    let mut rank = || random.next() % (sets + 1);
    let (one, other) = (rank(), rank());
    let [from, to] = match random.below(14) {
        0..=2 => [0, sets],
        3 => [sets.saturating_sub(WIDEST), sets],
        4..=6 => [one.min(other), one.max(other)],
        7 => [one, one],
        8 => [one, (one + 1).min(sets)],
        9 => [sets, sets],
        10 => [one, one.saturating_sub(1)],
        11 => random.pick(&[[0, sets + 1], [sets, sets + 1], [sets + 1, sets + 1], [sets + 1, sets]]),
        12 => random.pick(&[
            [0, u64::MAX],
            [u64::MAX, u64::MAX],
            [u64::MAX, 0],
            [u64::MAX - 1, u64::MAX],
        ]),
        _ => [0, one],
    };
    match to <= sets && to > from && to - from > WIDEST {
        true => [from, from + WIDEST],
        false => [from, to],
    }
}

pub fn ask(tally: &mut Tally, call: &TableCall, [notion, size, set_length]: [usize; 3], range: [u64; 2]) {
    let numbers = [call.shares, call.masks, notion, size, set_length];
    let reply = engine::range_check(&call.table, numbers, range);
    let model = model::range_check(&call.table, numbers, range);
    let word = if model.numbers[0] == Some(1) { "clean" } else { "found" };
    let [from, to] = range;
    let input = || {
        format!(
            "notion {notion} size {size} from {from} to {to} set_length {set_length} {}",
            call.show()
        )
    };
    tally.compare(Entry::RangeCheck, word, &model, &reply, input);
    faults::range_check(tally, &reply);
}
