//! Set count, set from rank and rank from set: every small set against the list of the definition, and large ones.

use crate::answers::Entry;
use crate::engine;
use crate::faults;
use crate::inputs::HUGE;
use crate::model;
use crate::model::records::MAX_WIRES;
use crate::model::sets::{count, from_rank, list, rank, MAX_SIZE};
use crate::random::Random;
use crate::tally::Tally;

const LARGE_SETS: usize = 40_000;
const DAMAGED_SETS: usize = 40_000;

pub fn run(random: &mut Random, tally: &mut Tally) {
    counts(tally);
    for wires in 0..=12 {
        (0..=MAX_SIZE).for_each(|size| whole_list(tally, wires, size));
    }
    for wires in [13, 20, 33] {
        (0..=3).for_each(|size| whole_list(tally, wires, size));
    }
    (0..LARGE_SETS).for_each(|_| large_set(random, tally));
    (0..DAMAGED_SETS).for_each(|_| damaged_set(random, tally));
}

fn counts(tally: &mut Tally) {
    let sizes: Vec<usize> = (0..=9).chain(HUGE).collect();
    for wires in (0..=514).chain(HUGE) {
        for &size in &sizes {
            let reply = engine::set_count(wires, size);
            let model = model::set_count(wires, size);
            tally.compare(Entry::SetCount, "answered", &model, &reply, || {
                format!("wires {wires} size {size}")
            });
            faults::set_count(tally, wires, size, &reply);
        }
    }
}

/// Every rank of one list and some beyond, every length of the buffer, and the way back.
fn whole_list(tally: &mut Tally, wires: usize, size: usize) {
    let list = list(wires, size);
    let sets = list.len() as u64;
    assert_eq!(sets, count(wires, size), "the model contradicts itself");
    for (number, set) in list.iter().enumerate() {
        let number = number as u64;
        assert!(
            from_rank(wires, size, number) == *set && rank(set) == number,
            "the model contradicts itself"
        );
        ask_set(tally, wires, size, number, size + number as usize % 3);
        ask_rank(tally, wires, set);
    }
    for set_length in 0..=9 {
        for rank in [0, 1, sets / 2, sets, sets + 1, u64::MAX] {
            ask_set(tally, wires, size, rank, set_length);
        }
    }
}

fn ask_set(tally: &mut Tally, wires: usize, size: usize, rank: u64, set_length: usize) {
    let reply = engine::set_from_rank(wires, size, rank, set_length);
    let model = model::set_from_rank(wires, size, rank, set_length);
    let input = || format!("wires {wires} size {size} rank {rank} set_length {set_length}");
    tally.compare(Entry::SetFromRank, "answered", &model, &reply, input);
    faults::set_from_rank(tally, wires, size, rank, &reply);
}

fn ask_rank(tally: &mut Tally, wires: usize, set: &[u16]) {
    let reply = engine::rank_from_set(wires, set);
    let model = model::rank_from_set(wires, set);
    tally.compare(Entry::RankFromSet, "answered", &model, &reply, || {
        format!("wires {wires} set {set:?}")
    });
    faults::rank_from_set(tally, set, &reply);
}

/// A rank anywhere, or at an end, of a list too long to write down; sizes and counts beyond the limits too.
fn large_set(random: &mut Random, tally: &mut Tally) {
    let huge = random.pick(&HUGE);
    let wires = match random.below(20) {
        0..=9 => MAX_WIRES - random.below(3),
        10..=18 => random.below(MAX_WIRES + 1),
        _ => random.pick(&[MAX_WIRES + 1, MAX_WIRES + 2, huge]),
    };
    let size = match random.below(20) {
        0 => random.pick(&[8, 9, huge]),
        _ => random.between(0, MAX_SIZE),
    };
    let within = wires <= MAX_WIRES && size <= MAX_SIZE;
    let sets = if within { count(wires, size) } else { 1 };
    let rank = match random.below(10) {
        0 => random.pick(&[sets, sets + 1, u64::MAX, 1 << 63]),
        1 => sets.saturating_sub(1),
        2 => random.below(4) as u64,
        _ => random.next() % sets.max(1),
    };
    let set_length = if random.chance(90) {
        size.min(9)
    } else {
        random.below(10)
    };
    ask_set(tally, wires, size, rank, set_length);
    if within && rank < sets {
        ask_rank(tally, wires, &from_rank(wires, size, rank));
    }
}

/// A rising set with some wires altered, in a table that may be too small for it.
fn damaged_set(random: &mut Random, tally: &mut Tally) {
    let size = random.between(0, 9);
    let highest = random.between(10, MAX_WIRES);
    let mut set: Vec<u16> = (0..highest as u16).collect();
    random.shuffle(&mut set);
    set.truncate(size);
    set.sort_unstable();
    if size > 0 {
        let (one, other) = (random.below(size), random.below(size));
        match random.below(6) {
            0 => set[one] = set[other],
            1 => set.swap(one, other),
            2 => set[one] = random.pick(&[65_535, 512, 513, 32_768, 256]),
            3 => set.reverse(),
            4 => set[one] = random.next() as u16,
            _ => {}
        }
    }
    let last = usize::from(set.last().copied().unwrap_or(0));
    let huge = random.pick(&HUGE);
    let wires = random.pick(&[last, last + 1, highest, 512, 512, 513, 0, huge]);
    ask_rank(tally, wires, &set);
}
