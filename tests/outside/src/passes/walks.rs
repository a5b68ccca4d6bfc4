//! Walks from set to set: range checks that start and end at every rank of small orders, and verdicts on the same
//! tables. A search that goes on from a set to the next one, and keeps what they add up to, can be right from rank 0 on
//! and wrong from another rank on; so every rank is a start here, and an end.

use crate::answers::Entry;
use crate::engine;
use crate::faults;
use crate::inputs::calls::TableCall;
use crate::inputs::tables::Table;
use crate::inputs::walks::{only, Breaks, KINDS};
use crate::model;
use crate::model::breaking::{NI, SNI};
use crate::model::sets::MAX_SIZE;
use crate::model::stretch::{self, Judged, Stretch};
use crate::random::Random;
use crate::reply::Reply;
use crate::tally::Tally;
use std::ops::RangeInclusive;

const MOST_WIRES: usize = 8;
/// So many tables of each kind for each number of wires.
const TABLES: usize = 12;
/// Wrong walks are tried where a size has no more sets than this.
const MOST_SETS_OF_FAULTS: usize = 15;

/// How many sets of a size break, and of which sizes some do.
const SETS: [&str; 4] = ["no set breaks", "one", "several", "all"];
const SIZES: [&str; MAX_SIZE + 1] = ["sets of 0 wires", "some of 1 break", "2", "3", "4", "5", "6", "7"];

pub fn run(random: &mut Random, tally: &mut Tally) {
    tally.expect("walks", &SETS);
    tally.expect("walks", &SIZES);
    let (mut tables, mut calls) = (0, 0);
    for wires in 0..=MOST_WIRES {
        let sizes: Vec<Stretch> = (0..=MAX_SIZE).map(|size| Stretch::whole(wires, size)).collect();
        for (table, walked) in any_tables(random, &sizes, wires) {
            let call = TableCall::new(random, &table);
            for notion in [NI, SNI] {
                calls += walk_all(tally, &sizes, &call, &table, notion, walked.clone());
            }
            tables += 1;
        }
    }
    tally.say(format!(
        "walks           {calls} calls on {tables} tables of up to {MOST_WIRES} wires, from every rank to every rank"
    ));
}

/// Tables of so many wires, each with the sizes of which every range is to be walked: for every set two in which it
/// breaks alone, and some of each other kind.
fn any_tables(random: &mut Random, sizes: &[Stretch], wires: usize) -> Vec<(Table, RangeInclusive<usize>)> {
    let mut tables = Vec::new();
    for Stretch { size, sets, .. } in &sizes[1..] {
        for set in sets {
            for breaks in [Breaks::Both, Breaks::SniAlone] {
                let table = only(random, wires, set, breaks);
                assert!(breaks_alone(&table, sizes, set, breaks), "one set breaks, and no other");
                tables.push((table, *size..=*size));
            }
        }
    }
    for kind in KINDS {
        tables.extend((0..TABLES).map(|_| (kind(random, wires), 0..=MAX_SIZE)));
    }
    tables
}

fn breaks_alone(table: &Table, sizes: &[Stretch], set: &Vec<u16>, breaks: Breaks) -> bool {
    let breaking = |notion: usize| {
        let all = sizes.iter().flat_map(|stretch| &stretch.sets);
        let breaking = all.filter(|set| model::breaking::breaks(&table.records, set, notion));
        breaking.collect::<Vec<_>>()
    };
    let by_ni = match breaks {
        Breaks::Both => vec![set],
        Breaks::SniAlone => Vec::new(),
    };
    breaking(NI) == by_ni && breaking(SNI) == [set]
}

/// How many calls are made on a table: every range of the sizes that are to be walked, the whole of each size, and
/// the two verdicts at each order.
fn walk_all(
    tally: &mut Tally,
    sizes: &[Stretch],
    call: &TableCall,
    table: &Table,
    notion: usize,
    walked: RangeInclusive<usize>,
) -> usize {
    let judge = |stretch| Judged::new(stretch, &table.records, notion);
    let judged: Vec<Judged> = sizes.iter().map(judge).collect();
    let ranges = judged[walked]
        .iter()
        .map(|size| every_range(tally, call, table, size, notion));
    let ranges: usize = ranges.sum();
    let whole = judged
        .iter()
        .map(|size| ask(tally, call, size, notion, [0, size.stretch.end()]));
    let whole: Vec<Reply> = whole.collect();
    for order in 1..table.shares {
        for reply in ask_verdicts(tally, call, &judged, [notion, order]) {
            if reply != put_together(&whole[1..=order]) {
                let what = format!("Verdict notion {notion} order {order}: not as its ranges");
                tally.differs(|| format!("{what} {}", call.show()));
            }
            faults::walks::verdict(tally, &sizes[1..=order], &table.records, notion, &reply);
        }
    }
    ranges + whole.len() + engine::VERDICTS.len() * (table.shares - 1)
}

/// How many ranges a size has.
fn every_range(tally: &mut Tally, call: &TableCall, table: &Table, judged: &Judged, notion: usize) -> usize {
    note_kind(tally, judged);
    let ranges = between(&(0..=judged.stretch.end()).collect::<Vec<_>>());
    let reply = |range: &[u64; 2]| (*range, ask(tally, call, judged, notion, *range));
    let replies: Vec<_> = ranges.iter().map(reply).collect();
    if judged.stretch.sets.len() <= MOST_SETS_OF_FAULTS {
        faults::walks::range_checks(tally, judged.stretch, &table.records, notion, &replies);
    }
    replies.len()
}

/// All ranges from one of these bounds, which rise, to the same or a later one.
pub fn between(bounds: &[u64]) -> Vec<[u64; 2]> {
    let from_one = |(number, from): (usize, &u64)| {
        let ends = bounds[number..].iter();
        ends.map(|to| [*from, *to]).collect::<Vec<_>>()
    };
    bounds.iter().enumerate().flat_map(from_one).collect()
}

fn note_kind(tally: &mut Tally, judged: &Judged) {
    let breaking = judged.breaking.iter().filter(|breaks| **breaks).count();
    let kind = match breaking {
        0 => SETS[0],
        1 => SETS[1],
        _ if breaking < judged.breaking.len() => SETS[2],
        _ => SETS[3],
    };
    tally.occurs("walks", kind);
    // The empty set never breaks.
    if breaking > 0 || judged.stretch.size == 0 {
        tally.occurs("walks", SIZES[judged.stretch.size]);
    }
}

/// A range check of some ranks of a stretch. The buffer has just enough room, or more.
pub fn ask(tally: &mut Tally, call: &TableCall, judged: &Judged, notion: usize, range: [u64; 2]) -> Reply {
    let [from, to] = range;
    let size = judged.stretch.size;
    let set_length = size + (from + to) as usize % 3;
    let reply = engine::range_check(&call.table, [call.shares, call.masks, notion, size, set_length], range);
    let model = judged.range_check(range);
    let word = if model.numbers[0] == Some(1) { "clean" } else { "found" };
    let input = || {
        format!(
            "notion {notion} size {size} from {from} to {to} set_length {set_length} {}",
            call.show()
        )
    };
    tally.compare(Entry::RangeCheck, word, &model, &reply, input);
    reply
}

/// The replies of both entries that give a verdict.
fn ask_verdicts(tally: &mut Tally, call: &TableCall, judged: &[Judged], [notion, order]: [usize; 2]) -> [Reply; 2] {
    let numbers = [call.shares, call.masks, notion, order, order + order % 3];
    let model = stretch::verdict(&judged[1..=order]);
    let agrees = model::verdict(&call.table, numbers, u64::MAX).is_ok_and(|searched| searched == model);
    assert!(agrees, "the model contradicts itself");
    let word = if model.numbers[0] == Some(1) { "holds" } else { "broken" };
    let input = || format!("notion {notion} order {order} {}", call.show());
    engine::VERDICTS.map(|(entry, ask)| {
        let reply = ask(&call.table, numbers);
        tally.compare(entry, word, &model, &reply, input);
        reply
    })
}

/// The verdict that follows from range checks of all sets of each size, which rise.
fn put_together(whole: &[Reply]) -> Reply {
    let found = whole.iter().find(|reply| reply.numbers[0] == Some(0));
    model::found_by_verdict(found.map(|reply| reply.written.clone()))
}
