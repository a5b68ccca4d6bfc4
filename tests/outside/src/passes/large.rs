//! Tables of up to 512 wires: verdicts at orders 1 and 2, and range checks of every size around one planted set.

use crate::inputs::calls::TableCall;
use crate::inputs::tables::{largest, planted};
use crate::model::records::{MAX_SHARES, MAX_WIRES};
use crate::model::sets::{count, from_rank, MAX_SIZE};
use crate::passes::{ranges, verdicts};
use crate::random::Random;
use crate::tally::Tally;

const VERDICTS: usize = 60;
const PLANTED_SETS: usize = 2_000;

pub fn run(random: &mut Random, tally: &mut Tally) {
    for _ in 0..VERDICTS {
        let table = largest(random);
        let call = TableCall::new(random, &table);
        let order = random.between(1, 2);
        for notion in 1..=2 {
            verdicts::ask_verdict(tally, &call, [notion, order, random.between(order, 9)]);
        }
    }
    (0..PLANTED_SETS).for_each(|_| around_planted_set(random, tally));
}

/// A set is made to break at a rank drawn beforehand; the ranges reach it, just miss it on either side, or start at it.
fn around_planted_set(random: &mut Random, tally: &mut Tally) {
    let size = random.between(1, MAX_SIZE);
    let wires = random.pick(&[MAX_WIRES, MAX_WIRES - 1, 100, 30, 8]);
    let sets = count(wires, size);
    let rank = match random.below(5) {
        0 => 0,
        1 => sets - 1,
        _ => random.next() % sets,
    };
    let set = from_rank(wires, size, rank);
    let table = planted(random, wires, &set, MAX_SHARES);
    let call = TableCall::new(random, &table);
    let before = rank.saturating_sub(random.below(30) as u64);
    let after = (rank + 1 + random.below(30) as u64).min(sets);
    let notion = random.between(1, 2);
    for range in [
        [before, rank],
        [before, after],
        [rank, rank + 1],
        [rank + 1, after],
        [before, rank + 1],
    ] {
        ranges::ask(tally, &call, [notion, size, size + random.below(2)], range);
    }
}
