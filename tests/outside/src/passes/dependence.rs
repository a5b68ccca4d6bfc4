//! Set dependence: every set of small tables, held against the range check of its rank; sets of larger tables; and all
//! that is turned down, with the order of the tests.

use crate::answers::Entry;
use crate::engine;
use crate::faults;
use crate::inputs::calls::{notion, TableCall};
use crate::inputs::tables::{circuit, largest, loose, ringed, Table};
use crate::inputs::HUGE;
use crate::model;
use crate::model::breaking::{NI, SNI};
use crate::model::records::{parse, MAX_MASKS, MAX_SHARES, MAX_TABLE_BYTES, RECORD_BYTES};
use crate::model::sets::{each, rank, MAX_SIZE};
use crate::passes::verdicts::any_table;
use crate::random::Random;
use crate::reply::Reply;
use crate::tally::Tally;

const SMALL_TABLES: usize = 2_000;
const MOST_WIRES: usize = 7;
const TABLES: usize = 30_000;
const LARGE_TABLES: usize = 100;
const SETS_OF_LARGE_TABLES: usize = 40;
/// So often each choice of conditions that a call fails.
const TIMES: usize = 60;

pub fn run(random: &mut Random, tally: &mut Tally) {
    for _ in 0..SMALL_TABLES {
        let table = small_table(random);
        every_set(tally, &TableCall::new(random, &table), table.records.len());
    }
    for _ in 0..TABLES {
        let table = any_table(random);
        let mut call = TableCall::new(random, &table);
        let set = any_set(random, table.records.len());
        (NI..=SNI).for_each(|notion| ask(tally, &call, notion, &set));
        for _ in 0..random.below(3) {
            call.injure(random);
        }
        let set = damaged_set(random, table.records.len());
        ask(tally, &call, notion(random), &set);
    }
    for _ in 0..LARGE_TABLES {
        let table = largest(random);
        let call = TableCall::new(random, &table);
        for _ in 0..SETS_OF_LARGE_TABLES {
            let set = any_set(random, table.records.len());
            ask(tally, &call, random.between(NI, SNI), &set);
        }
    }
    order_of_tests(random, tally);
}

fn small_table(random: &mut Random) -> Table {
    let (shares, wires) = (random.between(2, MAX_SHARES), random.between(0, MOST_WIRES));
    let few = random.below(4);
    let any = random.between(0, MAX_MASKS);
    let masks = random.pick(&[few, few, any, any, MAX_MASKS]);
    match random.below(3) {
        0 => loose(random, shares, masks, wires),
        1 => circuit(random, shares, masks, wires.max(1)),
        _ => {
            let size = random.between(1, MAX_SIZE);
            let mut table = ringed(random, size);
            table.records.truncate(MOST_WIRES);
            table
        }
    }
}

/// Every set, the empty one too. It breaks exactly where a range check of its rank alone finds it.
fn every_set(tally: &mut Tally, call: &TableCall, wires: usize) {
    for notion in [NI, SNI] {
        for size in 0..=wires {
            each(wires, size, |set| {
                ask(tally, call, notion, set);
                breaks_as_in_range(tally, call, notion, set);
            });
        }
    }
}

fn breaks_as_in_range(tally: &mut Tally, call: &TableCall, notion: usize, set: &[u16]) {
    let numbers = [call.shares, call.masks, notion];
    let breaks = match engine::set_dependence(&call.table, numbers, set).numbers {
        [Some(of_a), Some(of_b), Some(allowed), Some(masked), ..] => masked == 0 && of_a.max(of_b) > allowed,
        _ => return,
    };
    let (rank, size) = (rank(set), set.len());
    let numbers = [call.shares, call.masks, notion, size, size];
    let clean = engine::range_check(&call.table, numbers, [rank, rank + 1]).numbers[0];
    if clean != Some(u64::from(!breaks)) {
        tally.differs(|| {
            format!(
                "SetDependence: breaks is {breaks}, and a range check says clean {clean:?}: notion {notion} set {set:?} {}",
                call.show()
            )
        });
    }
}

fn ask(tally: &mut Tally, call: &TableCall, notion: usize, set: &[u16]) {
    let numbers = [call.shares, call.masks, notion];
    let reply = engine::set_dependence(&call.table, numbers, set);
    let model = model::set_dependence(&call.table, numbers, set);
    let input = || format!("notion {notion} set {set:?} {}", call.show());
    tally.compare(Entry::SetDependence, word(&model), &model, &reply, input);
    if let [Some(of_a), Some(of_b), Some(allowed), Some(masked), ..] = model.numbers {
        let right = [of_a, of_b, allowed, masked];
        faults::dependence::set_dependence(tally, right, &parse(&call.table), set, &reply);
    }
}

pub fn word(model: &Reply) -> &'static str {
    let [Some(of_a), Some(of_b), Some(allowed), Some(masked), ..] = model.numbers else {
        return "";
    };
    match (masked, of_a > allowed, of_b > allowed) {
        (1, _, _) => "masked",
        (_, true, true) => "by both",
        (_, true, false) => "by a",
        (_, false, true) => "by b",
        (_, false, false) => "breaks nothing",
    }
}

/// A rising set of so many wires at most as there may be.
fn any_set(random: &mut Random, wires: usize) -> Vec<u16> {
    let size = random.between(0, MAX_SIZE.min(wires));
    set_of(random, wires, size)
}

fn set_of(random: &mut Random, wires: usize, size: usize) -> Vec<u16> {
    let mut set: Vec<u16> = (0..wires as u16).collect();
    random.shuffle(&mut set);
    set.truncate(size);
    set.sort_unstable();
    set
}

/// A set that may have too many wires, or wires that do not rise or that are not there.
fn damaged_set(random: &mut Random, wires: usize) -> Vec<u16> {
    let size = random.pick(&[0, 1, 2, 3, 4, 5, 6, 7, 8, 9, 20]);
    let below = wires.max(size) + random.below(3);
    let mut set = set_of(random, below, size);
    if size > 0 {
        let (one, other) = (random.below(size), random.below(size));
        match random.below(8) {
            0 => set[one] = set[other],
            1 => set.swap(one, other),
            2 => set[one] = random.pick(&[wires as u16, 512, 513, 256, 32_768, 65_535]),
            3 => set.reverse(),
            _ => {}
        }
    }
    set
}

/// A call, of which conditions are made to fail one by one.
struct Wrong {
    call: TableCall,
    notion: usize,
    set: Vec<u16>,
}

/// The refusals in the order in which they are tested, each with the way in which it is brought about. What comes later
/// in the list leaves standing what came before.
const CONDITIONS: [(u64, fn(&mut Random, &mut Wrong)); 6] = [
    (11, |random, wrong| {
        let huge = random.pick(&HUGE);
        match random.chance(50) {
            true => wrong.call.shares = random.pick(&[0, 1, 9, huge]),
            false => wrong.call.masks = random.pick(&[65, huge]),
        }
    }),
    (12, |random, wrong| {
        let length = wrong.call.table.len();
        let wrong_lengths = [
            length - 1,
            length + 1,
            MAX_TABLE_BYTES + 1,
            MAX_TABLE_BYTES + RECORD_BYTES,
        ];
        wrong.call.table.resize(random.pick(&wrong_lengths), 0);
    }),
    (13, |random, wrong| {
        // In a record that no test of the length takes away. The shares are below eight, and mask 63 is not there.
        let record = RECORD_BYTES * random.below(LEAST_WIRES - 1);
        let (byte, bit) = random.pick(&[(18, 2), (18, 128), (7, 128), (15, 128), (16, 128), (17, 128)]);
        wrong.call.table[record + byte] |= bit;
    }),
    (14, |random, wrong| {
        let huge = random.pick(&HUGE);
        wrong.notion = random.pick(&[0, 3, huge]);
    }),
    (17, |random, wrong| {
        let size = random.between(MAX_SIZE + 1, LEAST_WIRES);
        wrong.set = set_of(random, LEAST_WIRES, size);
    }),
    (21, |random, wrong| {
        let last = wrong.set.len() - 1;
        match random.below(4) {
            0 => wrong.set[last] = wrong.set[last - 1],
            1 => wrong.set.swap(last - 1, last),
            2 => wrong.set[last] = MOST_WIRES_OF_WRONG as u16,
            _ => wrong.set[0] = random.pick(&[512, 65_535]),
        }
    }),
];
const LEAST_WIRES: usize = 10;
const MOST_WIRES_OF_WRONG: usize = 12;

/// Every choice of conditions fails at once; the first of them is told.
fn order_of_tests(random: &mut Random, tally: &mut Tally) {
    let mut calls = 0;
    for chosen in 0..1usize << CONDITIONS.len() {
        for _ in 0..TIMES {
            let (shares, masks) = (random.between(2, MAX_SHARES - 1), random.between(0, 3));
            let wires = random.between(LEAST_WIRES, MOST_WIRES_OF_WRONG);
            let table = circuit(random, shares, masks, wires);
            let size = random.between(2, MAX_SIZE);
            let mut wrong = Wrong {
                call: TableCall::new(random, &table),
                notion: random.between(NI, SNI),
                set: set_of(random, LEAST_WIRES, size),
            };
            let failing = CONDITIONS
                .iter()
                .enumerate()
                .filter(|(place, _)| chosen >> place & 1 == 1);
            let failing: Vec<_> = failing.map(|(_, condition)| condition).collect();
            failing.iter().for_each(|(_, fail)| fail(random, &mut wrong));
            let first = failing.first().map_or(0, |(number, _)| *number);
            let Wrong { call, notion, set } = &wrong;
            let reply = engine::set_dependence(&call.table, [call.shares, call.masks, *notion], set);
            if reply.status != first || first != 0 && reply != Reply::refused(first) {
                tally.differs(|| {
                    let input = format!("notion {notion} set {set:?} {}", call.show());
                    format!("SetDependence: {first} comes first, {input}\n    engine: {reply}")
                });
            }
            ask(tally, call, *notion, set);
            calls += 1;
        }
    }
    tally.say(format!(
        "set_dependence  {calls} calls that fail none to all of {} conditions, the first told",
        CONDITIONS.len()
    ));
}
