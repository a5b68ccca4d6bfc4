//! Long walks, and walks over the seams of the order. At a seam the highest wire changes: there a walk goes over from the
//! first half of the order's definition to the second, and what it keeps has to go with it.

use super::walks::{ask, between};
use crate::faults;
use crate::inputs::calls::TableCall;
use crate::inputs::tables::{planted, Table};
use crate::inputs::walks::{only, Breaks, KINDS};
use crate::model::breaking::{NI, SNI};
use crate::model::records::{MAX_SHARES, MAX_WIRES};
use crate::model::sets::{count, from_rank, MAX_SIZE};
use crate::model::stretch::{Judged, Stretch};
use crate::random::Random;
use crate::tally::Tally;

/// Wires and a size, whose sets are all written down.
const LONG: [(usize, usize); 4] = [(20, 4), (12, 6), (30, 3), (14, 7)];
/// Beside those at the ends and the seams.
const DRAWN: usize = 20;
/// So many tables of each kind, for each of the long walks.
const TABLES: usize = 4;
/// Wrong walks are tried on one long table of so many.
const FAULTS_ON: usize = 8;
/// Of sets that are too many to be written down, so many before a seam and after it are.
const REACH: u64 = 6;

pub fn run(random: &mut Random, tally: &mut Tally) {
    let (mut long, mut over) = (0, 0);
    for (wires, size) in LONG {
        let stretch = Stretch::whole(wires, size);
        long += around_one_set(random, tally, wires, &stretch);
        for kind in KINDS {
            for _ in 0..TABLES {
                let table = kind(random, wires);
                let ranges = from_every_seam(random, &stretch);
                long += walk(random, tally, &table, &stretch, &ranges, false);
            }
        }
    }
    for size in 1..=MAX_SIZE {
        for wires in [MAX_WIRES, random.between(258, MAX_WIRES - 1)] {
            for highest in [wires - 1, wires - 2, 256, 255, random.between(size, wires - 1)] {
                over += over_seam(random, tally, [wires, size, highest]);
            }
        }
    }
    tally.say(format!(
        "seams           {long} calls of long walks, {over} of walks over a seam of up to {MAX_WIRES} wires"
    ));
}

/// One set breaks: the first, the last, one at a seam or any. Walks start and end at it, beside it and at seams.
fn around_one_set(random: &mut Random, tally: &mut Tally, wires: usize, stretch: &Stretch) -> usize {
    let (sets, seams) = (stretch.end(), stretch.seams());
    let mut ranks = beside(&seams);
    ranks.extend([0, 1, sets - 2, sets - 1]);
    ranks.extend((0..DRAWN).map(|_| random.next() % sets));
    ranks.retain(|rank| *rank < sets);
    let mut calls = 0;
    for (number, rank) in ranks.iter().enumerate() {
        let breaks = random.pick(&[Breaks::Both, Breaks::SniAlone]);
        let table = only(random, wires, &stretch.sets[*rank as usize], breaks);
        let ranges = ranges_around(*rank, &seams, sets);
        calls += walk(random, tally, &table, stretch, &ranges, number % FAULTS_ON == 0);
    }
    calls
}

/// The ranks at seams and on both sides of them.
fn beside(seams: &[u64]) -> Vec<u64> {
    seams.iter().flat_map(|seam| [seam - 1, *seam, seam + 1]).collect()
}

/// Between the ranks around one, the seams before and after it, and the ends of the order.
fn ranges_around(rank: u64, seams: &[u64], sets: u64) -> Vec<[u64; 2]> {
    let after = seams.partition_point(|seam| *seam <= rank);
    let mut bounds = beside(&seams[after.saturating_sub(1)..seams.len().min(after + 1)]);
    bounds.extend(rank.saturating_sub(2)..=sets.min(rank + 2));
    bounds.extend([0, sets]);
    bounds.sort();
    bounds.dedup();
    between(&bounds)
}

/// From the seams, the ranks beside them and some others, to the end and to any rank.
fn from_every_seam(random: &mut Random, stretch: &Stretch) -> Vec<[u64; 2]> {
    let sets = stretch.end();
    let mut starts = beside(&stretch.seams());
    starts.extend((0..DRAWN).map(|_| random.next() % sets));
    starts.push(0);
    let ranges = |from: &u64| [[*from, sets], [*from, from + random.next() % (sets - from + 1)]];
    starts.iter().flat_map(ranges).collect()
}

/// Around the first set that has this highest wire. One set there is a ring; as the wires are too many for masks of their
/// own, it is left to the model whether another one breaks.
fn over_seam(random: &mut Random, tally: &mut Tally, [wires, size, highest]: [usize; 3]) -> usize {
    let (seam, sets) = (count(highest, size), count(wires, size));
    let stretch = Stretch::between(wires, size, [seam.saturating_sub(REACH), sets.min(seam + REACH)]);
    let ranges = between(&(stretch.start..=stretch.end()).collect::<Vec<_>>());
    let mut calls = 0;
    for rank in seam.saturating_sub(2)..sets.min(seam + 2) {
        let table = planted(random, wires, &from_rank(wires, size, rank), MAX_SHARES);
        calls += walk(random, tally, &table, &stretch, &ranges, true);
    }
    calls
}

/// How many calls are made on a table: for both notions all these ranges.
fn walk(
    random: &mut Random,
    tally: &mut Tally,
    table: &Table,
    stretch: &Stretch,
    ranges: &[[u64; 2]],
    faults: bool,
) -> usize {
    let call = TableCall::new(random, table);
    for notion in [NI, SNI] {
        let judged = Judged::new(stretch, &table.records, notion);
        let reply = |range: &[u64; 2]| (*range, ask(tally, &call, &judged, notion, *range));
        let replies: Vec<_> = ranges.iter().map(reply).collect();
        if faults {
            faults::walks::range_checks(tally, stretch, &table.records, notion, &replies);
        }
    }
    2 * ranges.len()
}
