//! Function check and both entries for a verdict on tables of every kind, sound and turned down.

use crate::answers::Entry;
use crate::engine;
use crate::faults;
use crate::inputs::calls::{notion, set_length, TableCall};
use crate::inputs::tables::{circuit, gadget, loose, ringed, Table};
use crate::inputs::HUGE;
use crate::model;
use crate::model::breaking::{inner, sum, NI, SNI};
use crate::model::records::{parse, Record, MAX_SHARES, RECORD_BYTES};
use crate::model::sets::count;
use crate::random::Random;
use crate::reply::Reply;
use crate::tally::Tally;

const TABLES: usize = 30_000;
const MOST_SETS: u64 = 4_000;
const GADGETS: usize = 100;
const MOST_SETS_OF_GADGETS: u64 = 100_000;
const LARGE_GADGETS: usize = 300;

/// So often every choice of conditions that are not met is made, of those of the refusals from 11 to 16.
const TURNS: usize = 30;
const CONDITIONS: u32 = 6;
const FIRST_REFUSAL: u32 = 11;

const HOLDS: &str = "holds";
const SIZES: [&str; 7] = ["broken by 1 wire", "by 2", "by 3", "by 4", "by 5", "by 6", "by 7"];
const YES: [&str; 7] = ["yes of 2 shares", "3", "4", "5", "6", "7", "8"];
const NI_ONLY: &str = "NI holds and SNI is broken";
const OUTER_WIRE: &str = "SNI is broken by a set with an outer wire";
const CANCELLED: &str = "products cancel in the set shown";

pub fn run(random: &mut Random, tally: &mut Tally) {
    for notion in ["  NI", "  SNI"] {
        tally.expect(notion, &[HOLDS]);
        tally.expect(notion, &SIZES);
    }
    tally.expect("  both", &[NI_ONLY, OUTER_WIRE, CANCELLED]);
    tally.expect("  function", &YES);
    for _ in 0..TABLES {
        let table = any_table(random);
        sound_call(random, tally, &table, MOST_SETS);
        wrong_call(random, tally, &table);
    }
    for _ in 0..GADGETS {
        let table = gadget(random, 4);
        sound_call(random, tally, &table, MOST_SETS_OF_GADGETS);
    }
    // Of up to eight shares, whose verdicts would take too long.
    for _ in 0..LARGE_GADGETS {
        let table = gadget(random, MAX_SHARES - 1);
        let call = TableCall::new(random, &table);
        (1..=3).for_each(|function| ask_function(tally, &call, function));
    }
    let calls: usize = (0..TURNS).map(|_| all_conditions(random, tally)).sum();
    tally.say(format!(
        "verdicts        {calls} calls that fail none to all of {CONDITIONS} conditions, the first told by both entries"
    ));
}

/// How many calls are made: two for each choice of conditions, of 11 to 16, that are not met.
fn all_conditions(random: &mut Random, tally: &mut Tally) -> usize {
    for failed in 0..1 << CONDITIONS {
        let (call, numbers) = call_that_fails(random, failed);
        let [notion, order, set_length] = numbers;
        for (entry, ask) in engine::VERDICTS {
            let reply = ask(&call.table, [call.shares, call.masks, notion, order, set_length]);
            let first = FIRST_REFUSAL + failed.trailing_zeros();
            let right = match failed {
                0 => reply.status == 0,
                _ => reply == Reply::refused(u64::from(first)),
            };
            if !right {
                let input = format!("notion {notion} order {order} set_length {set_length} {}", call.show());
                tally.differs(|| {
                    format!("{entry:?} {input}\n    refused {first}, or none if that is 17\n    engine: {reply}")
                });
            }
        }
    }
    engine::VERDICTS.len() << CONDITIONS
}

/// A call, with its notion, order and length of the buffer, that fails just these conditions: bit 0 for 11 and so on.
pub fn call_that_fails(random: &mut Random, failed: u32) -> (TableCall, [usize; 3]) {
    let fails = |refusal: u32| failed >> (refusal - FIRST_REFUSAL) & 1 == 1;
    let (shares, masks, wires) = (
        random.between(3, MAX_SHARES),
        random.between(0, 5),
        random.between(1, 6),
    );
    let table = loose(random, shares, masks, wires);
    let mut call = TableCall::new(random, &table);
    let (wire, huge) = (RECORD_BYTES * random.below(wires), random.pick(&HUGE));
    match (fails(11), random.chance(50)) {
        (true, true) => call.shares = random.pick(&[0, 1, 9, huge]),
        (true, false) => call.masks = random.pick(&[65, huge]),
        (false, _) => {}
    }
    if fails(12) {
        call.table.push(0);
    }
    match (fails(13), random.chance(50)) {
        (true, true) => call.table[wire + 18] = random.pick(&[2, 3, 128, 255]),
        (true, false) => call.table[wire + 8] |= 1 << random.between(masks, 7),
        (false, _) => {}
    }
    let notion = match fails(14) {
        true => random.pick(&[0, 3, huge]),
        false => random.between(1, 2),
    };
    let order = match (fails(15), fails(16)) {
        (true, true) => random.pick(&[shares, 9]),
        (true, false) => random.pick(&[0, shares, 9]),
        (false, _) => random.between(1, 2),
    };
    let set_length = match fails(16) {
        true => random.below(order),
        false => order + random.below(3),
    };
    (call, [notion, order, set_length])
}

/// A table of few wires.
pub fn any_table(random: &mut Random) -> Table {
    let shares = random.between(2, MAX_SHARES);
    match random.below(10) {
        0 => {
            let masks = random.pick(&[0, 1, 2, 3, 8, 63, 64]);
            let wires = random.between(0, 12);
            loose(random, shares, masks, wires)
        }
        1..=2 => {
            let (masks, wires) = (random.between(0, 4), random.between(1, 14));
            circuit(random, shares, masks, wires)
        }
        3..=4 => gadget(random, 2),
        5 => gadget(random, 3),
        _ => {
            let size = random.between(1, 7);
            ringed(random, size)
        }
    }
}

/// All three functions, and both notions at the highest order that does not take too long, or at one below it.
fn sound_call(random: &mut Random, tally: &mut Tally, table: &Table, most: u64) {
    let call = TableCall::new(random, table);
    (1..=3).for_each(|function| ask_function(tally, &call, function));
    let mut order = if random.chance(70) {
        table.shares - 1
    } else {
        random.between(1, table.shares - 1)
    };
    let sets = |order: usize| (1..=order).map(|size| count(table.records.len(), size)).sum::<u64>();
    while order > 1 && sets(order) > most {
        order -= 1;
    }
    let set_length = random.between(order, 9);
    let both = [NI, SNI].map(|notion| ask_verdict(tally, &call, [notion, order, set_length]));
    if both[0].numbers[0] == Some(1) && both[1].numbers[0] == Some(0) {
        tally.occurs("  both", NI_ONLY);
    }
}

/// Up to two injuries to the table, and numbers that may be wrong too.
fn wrong_call(random: &mut Random, tally: &mut Tally, table: &Table) {
    let mut call = TableCall::new(random, table);
    for _ in 0..random.below(3) {
        call.injure(random);
    }
    let huge = random.pick(&HUGE);
    let function = random.pick(&[0, 1, 2, 3, 4, huge]);
    ask_function(tally, &call, function);
    let order = match random.chance(85) {
        true => random.between(1, 2),
        false => random.pick(&[0, table.shares, 8, 9, huge]),
    };
    let numbers = [notion(random), order, set_length(random, order)];
    ask_verdict(tally, &call, numbers);
}

pub fn ask_function(tally: &mut Tally, call: &TableCall, function: usize) {
    let reply = engine::function_check(&call.table, call.shares, call.masks, function);
    let model = model::function_check(&call.table, call.shares, call.masks, function);
    let word = match (model.numbers[0], function) {
        (Some(1), 1) => "yes product",
        (Some(1), 2) => "yes sum",
        (Some(1), _) => "yes copy",
        _ => "no",
    };
    if model.numbers[0] == Some(1) {
        tally.occurs("  function", YES[call.shares - 2]);
    }
    let input = || format!("function {function} {}", call.show());
    tally.compare(Entry::FunctionCheck, word, &model, &reply, input);
}

/// Of both entries that give a verdict; the first one's reply, which the other's has to be too.
pub fn ask_verdict(tally: &mut Tally, call: &TableCall, [notion, order, set_length]: [usize; 3]) -> Reply {
    let numbers = [call.shares, call.masks, notion, order, set_length];
    let Ok(model) = model::verdict(&call.table, numbers, u64::MAX) else {
        unreachable!("any number may be searched")
    };
    let word = if model.numbers[0] == Some(1) { "holds" } else { "broken" };
    let input = || format!("notion {notion} order {order} set_length {set_length} {}", call.show());
    let [reply, _] = engine::VERDICTS.map(|(entry, ask)| {
        let reply = ask(&call.table, numbers);
        tally.compare(entry, word, &model, &reply, input);
        reply
    });
    if model.status == 0 {
        let records = parse(&call.table);
        note_kind(tally, &records, notion, &model.written);
        faults::verdict(tally, &records, notion, order, &reply);
    }
    reply
}

fn note_kind(tally: &mut Tally, records: &[Record], notion: usize, set: &[u16]) {
    let group = if notion == NI { "  NI" } else { "  SNI" };
    if set.is_empty() {
        tally.occurs(group, HOLDS);
        return;
    }
    tally.occurs(group, SIZES[set.len() - 1]);
    if notion == SNI && inner(records, set) < set.len() {
        tally.occurs("  both", OUTER_WIRE);
    }
    let named: u32 = set
        .iter()
        .map(|wire| records[usize::from(*wire)].products.count_ones())
        .sum();
    if sum(records, set).products.count_ones() < named {
        tally.occurs("  both", CANCELLED);
    }
}
