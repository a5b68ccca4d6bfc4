//! The pool on lists of many kinds: all lists of few ranges, tables with fewer wires than the order, and drawn lists on
//! drawn tables.

use super::pools::{ask, compare, three_wires};
use super::verdicts::any_table;
use crate::inputs::calls::{notion, TableCall};
use crate::inputs::pools::{injure, Says, Searched};
use crate::inputs::searches::sets_up_to;
use crate::inputs::tables::{circuit, loose, Table};
use crate::inputs::HUGE;
use crate::model::breaking::{NI, SNI};
use crate::model::pool::{list_of, Filed, CLEAN};
use crate::model::records::MAX_SHARES;
use crate::model::sets::count;
use crate::random::Random;
use crate::tally::Tally;

const TABLES: usize = 1_500;
const LISTS_OF_TABLE: usize = 4;
const MOST_SETS: u64 = 300;

const MOST_RANGES: usize = 3;
/// All ranks of a size of three wires at order 2, which has three sets of each.
const WHOLE: &[[u64; 2]] = &[[0, 3]];
const OF_OTHER_SIZE: [&[[u64; 2]]; 6] = [&[], WHOLE, &[[0, 2]], &[[1, 3]], &[[0, 1], [2, 3]], &[[2, 3], [0, 2]]];

/// Bounds and found ranks for a size that has no sets; of these a pool takes the first alone.
const OF_NO_SETS: [([u64; 2], u64); 6] = [
    ([0, 0], CLEAN),
    ([0, 0], 0),
    ([0, 1], CLEAN),
    ([1, 1], CLEAN),
    ([1, 0], CLEAN),
    ([0, 1], 0),
];

pub fn run(random: &mut Random, tally: &mut Tally) {
    for notion in [NI, SNI] {
        let searched = three_wires(random, notion);
        few_ranges(random, tally, &searched);
        without_sets(random, tally, notion);
    }
    for _ in 0..TABLES {
        drawn(random, tally);
    }
}

/// All lists of up to three ranges of one size, beside some of the other size; those of three beside a whole one alone.
fn few_ranges(random: &mut Random, tally: &mut Tally, searched: &Searched) {
    let call = TableCall::new(random, &searched.table);
    let lists = lists_of_ranges();
    for size in 1..=2 {
        for (ranges, other) in lists.iter().flat_map(|list| OF_OTHER_SIZE.map(|other| (list, other))) {
            if ranges.len() == MOST_RANGES && other != WHOLE {
                continue;
            }
            let reports = ranges.iter().map(|range| searched.report(size, *range, CLEAN));
            let others = other.iter().map(|range| searched.report(3 - size, *range, CLEAN));
            let mut reports: Vec<Filed> = reports.chain(others).collect();
            if random.chance(50) {
                reports.reverse();
            }
            ask(tally, &call, [searched.notion, searched.order], &list_of(&reports));
        }
    }
}

/// All lists of up to so many of the ten ranges that three ranks have.
fn lists_of_ranges() -> Vec<Vec<[u64; 2]>> {
    let ranges: Vec<[u64; 2]> = (0..=3).flat_map(|from| (from..=3).map(move |to| [from, to])).collect();
    let (mut lists, mut longest) = (vec![vec![]], vec![vec![]]);
    for _ in 0..MOST_RANGES {
        let longer = |list: &Vec<[u64; 2]>| {
            ranges
                .iter()
                .map(|range| [list.as_slice(), &[*range]].concat())
                .collect()
        };
        longest = longest.iter().flat_map::<Vec<Vec<[u64; 2]>>, _>(longer).collect();
        lists.extend(longest.clone());
    }
    lists
}

/// Tables of fewer wires than the order, down to none: sizes that have no sets take the bounds 0 and 0 alone.
fn without_sets(random: &mut Random, tally: &mut Tally, notion: usize) {
    for wires in 0..=2 {
        for order in [1, 2, 7] {
            let table = loose(random, MAX_SHARES, 2, wires);
            let call = TableCall::new(random, &table);
            let all: Vec<Filed> = (1..=wires.min(order))
                .map(|size| Filed::new([notion, size], [0, count(wires, size)], CLEAN))
                .collect();
            ask(tally, &call, [notion, order], &[]);
            ask(tally, &call, [notion, order], &list_of(&all));
            for (size, (range, found)) in (1..=order).flat_map(|size| OF_NO_SETS.map(|one| (size, one))) {
                let report = Filed::new([notion, size], range, found);
                let list = list_of(&[all.as_slice(), &[report]].concat());
                ask(tally, &call, [notion, order], &list);
            }
        }
    }
}

/// Lists on a drawn table: sound ones, such with one or two fields changed, and calls that are wrong elsewhere too.
fn drawn(random: &mut Random, tally: &mut Tally) {
    let table = any_small(random);
    let mut call = TableCall::new(random, &table);
    let order = any_order(random, &table);
    let searched = Searched::new(table, random.between(NI, SNI), order);
    let numbers = [searched.notion, order];
    for _ in 0..LISTS_OF_TABLE {
        let says = random.pick(&[Says::Clean, Says::Clean, Says::First, Says::Any, Says::Wrong]);
        let mut reports = searched.list(random, says);
        ask(tally, &call, numbers, &list_of(&reports));
        for _ in 0..random.between(1, 2) {
            if !reports.is_empty() {
                let place = random.below(reports.len());
                let size = usize::from(reports[place].size).clamp(1, order);
                injure(random, &mut reports[place], searched.sets(size));
            }
        }
        ask(tally, &call, numbers, &list_of(&reports));
    }
    for _ in 0..random.between(1, 2) {
        call.injure(random);
    }
    let huge = random.pick(&HUGE);
    let other = random.pick(&[0, call.shares, 8, huge]);
    let order = random.pick(&[order, order, other]);
    let numbers = [notion(random), order];
    compare(tally, &call, numbers, &list_of(&searched.list(random, Says::First)));
}

fn any_small(random: &mut Random) -> Table {
    let (shares, masks, wires) = (
        random.between(2, MAX_SHARES),
        random.between(0, 3),
        random.between(1, 7),
    );
    match random.below(3) {
        0 => any_table(random),
        1 => circuit(random, shares, masks, wires),
        _ => loose(random, shares, masks, wires),
    }
}

/// The highest that has not too many sets, or one below.
fn any_order(random: &mut Random, table: &Table) -> usize {
    let mut order = random
        .pick(&[table.shares - 1, table.shares - 1, 1, 2])
        .min(table.shares - 1);
    while order > 1 && sets_up_to(table.records.len(), order) > MOST_SETS {
        order -= 1;
    }
    order
}
