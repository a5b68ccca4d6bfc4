//! The pool on three wires: lists of every length, and every value of a report's fields.

use crate::answers::Entry;
use crate::engine;
use crate::faults;
use crate::inputs::calls::{hex, TableCall};
use crate::inputs::pools::Searched;
use crate::inputs::tables::loose;
use crate::model;
use crate::model::breaking::{NI, SNI};
use crate::model::pool::{list_of, Asked, Filed, BROKEN, CLEAN, FILED_REPORT_BYTES, HOLDS};
use crate::model::records::parse;
use crate::random::Random;
use crate::reply::Reply;
use crate::tally::Tally;

/// A list of more reports is shown by its first ones.
const MOST_SHOWN: usize = 100;
/// Ranks of a table of three wires at order 2, which has three sets of each size, and ranks far beyond.
const RANKS: [u64; 10] = [0, 1, 2, 3, 4, 1 << 32, 1 << 63, (1 << 63) - 1, u64::MAX - 1, u64::MAX];
/// Of the calls that differ in one field, one in so many is held against the wrong pools too.
const ONE_IN: usize = 7;

pub fn run(random: &mut Random, tally: &mut Tally) {
    for notion in [NI, SNI] {
        let searched = three_wires(random, notion);
        every_length(random, tally, &searched);
        every_byte(random, tally, &searched);
        every_field(random, tally, &searched);
        every_bit_of_found(random, tally, &searched);
    }
}

/// The model's answer and the engine's, on a list for a table.
pub fn compare(tally: &mut Tally, call: &TableCall, [notion, order]: [usize; 2], list: &[u8]) -> [Reply; 2] {
    let numbers = [call.shares, call.masks, notion, order];
    let model = model::pool(&call.table, numbers, list);
    let reply = engine::pool(&call.table, numbers, list);
    let input = || {
        let shown = list.len().min(MOST_SHOWN * FILED_REPORT_BYTES);
        let (length, list) = (list.len(), hex(&list[..shown]));
        format!(
            "notion {notion} order {order} reports of {length} bytes {list} {}",
            call.show()
        )
    };
    tally.compare(Entry::Pool, word(&model), &model, &reply, input);
    [model, reply]
}

pub fn word(model: &Reply) -> &'static str {
    match model.numbers[0] {
        Some(HOLDS) => "holds",
        Some(BROKEN) => "broken",
        _ => "uncovered",
    }
}

/// The same, and the wrong pools on the list too.
pub fn ask(tally: &mut Tally, call: &TableCall, [notion, order]: [usize; 2], list: &[u8]) -> Reply {
    let [model, reply] = compare(tally, call, [notion, order], list);
    if matches!(model.status, 0 | 25 | 26) {
        let asked = Asked {
            records: &parse(&call.table),
            notion,
            order,
            list,
        };
        faults::pool::pool(tally, &asked, &model, &reply);
    }
    reply
}

/// Three wires at order 2, of which some sets of each size break and some do not.
pub fn three_wires(random: &mut Random, notion: usize) -> Searched {
    loop {
        let searched = Searched::new(loose(random, 3, 1, 3), notion, 2);
        let both = |size| [true, false].map(|breaks| !searched.ranks(size, [0, 3], breaks).is_empty()) == [true; 2];
        if both(1) && both(2) {
            return searched;
        }
    }
}

/// A list that covers all, with a find of each size.
fn whole(searched: &Searched) -> Vec<Filed> {
    let found = |size| searched.ranks(size, [0, 3], true)[0];
    vec![
        searched.report(1, [0, 3], found(1)),
        searched.report(2, [0, 2], CLEAN),
        searched.report(2, [0, 3], found(2)),
    ]
}

fn every_length(random: &mut Random, tally: &mut Tally, searched: &Searched) {
    let call = TableCall::new(random, &searched.table);
    let list = list_of(&[whole(searched), whole(searched)].concat());
    for length in 0..=list.len() {
        ask(tally, &call, [searched.notion, searched.order], &list[..length]);
    }
}

/// Every value of the first eight bytes of a report, at each place of a list.
fn every_byte(random: &mut Random, tally: &mut Tally, searched: &Searched) {
    let call = TableCall::new(random, &searched.table);
    let numbers = [searched.notion, searched.order];
    for place in 0..3 {
        for byte in 0..8 {
            for value in 0..=255 {
                let mut list = list_of(&whole(searched));
                list[place * FILED_REPORT_BYTES + byte] = value;
                match value % 16 {
                    0 | 1 | 15 => drop(ask(tally, &call, numbers, &list)),
                    _ => drop(compare(tally, &call, numbers, &list)),
                }
            }
        }
    }
}

/// Every lower bound with every upper one and every found rank, of each size, alone or behind reports that cover all.
fn every_field(random: &mut Random, tally: &mut Tally, searched: &Searched) {
    let call = TableCall::new(random, &searched.table);
    let numbers = [searched.notion, searched.order];
    let clean = [1, 2].map(|size| searched.report(size, [0, 3], CLEAN));
    let mut calls = 0;
    for size in 1..=2 {
        for (from, to) in RANKS.iter().flat_map(|from| RANKS.map(|to| (*from, to))) {
            for found in RANKS {
                let report = searched.report(size, [from, to], found);
                let covered = [clean[0], clean[1], report];
                calls += 1;
                for list in [list_of(&[report]), list_of(&covered)] {
                    match calls % ONE_IN {
                        0 => drop(ask(tally, &call, numbers, &list)),
                        _ => drop(compare(tally, &call, numbers, &list)),
                    }
                }
            }
        }
    }
}

/// A found rank of one bit, and one of all bits but one: the clean mark is all 64 of them and nothing less.
fn every_bit_of_found(random: &mut Random, tally: &mut Tally, searched: &Searched) {
    let call = TableCall::new(random, &searched.table);
    for bit in 0..64 {
        for found in [1 << bit, !(1 << bit)] {
            let mut reports = whole(searched);
            reports[random.below(3)].found = found;
            ask(tally, &call, [searched.notion, searched.order], &list_of(&reports));
        }
    }
}
