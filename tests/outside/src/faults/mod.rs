//! The self-check of the inputs: wrong models, most of them errors that the scope names, run on the inputs of the
//! passes. Each has to be told from the engine by some input; one that is not shows that the inputs are too weak.

mod counts;
pub mod dependence;
pub mod directed;
pub mod filed;
pub mod isw;
pub mod notes;
pub mod plan;
mod plan_lines;
pub mod pool;
mod pool_finds;
mod pool_ranks;
mod pool_reports;
pub mod sizes;
mod sums;
mod walk_ranges;
mod walk_sums;
pub mod walks;
mod words;

use crate::model;
use crate::model::breaking::{allowed, breaks, shares_of_a, shares_of_b, sum, Search, NI, SCOPE};
use crate::model::reading::{Reading, MAX_TEXT_BYTES};
use crate::model::records::{parse, to_bytes, Record};
use crate::model::report::{opening, report, report_up_to};
use crate::model::sets::{count, from_rank};
use crate::passes::examples::A;
use crate::reply::Reply;
use crate::tally::Tally;

/// Wrong verdicts are worked out only where no more sets than this are to be looked at.
const MOST_SETS: u64 = 1_500;
/// Enough for the sets of up to 3 out of 50 wires.
const MOST_SETS_OF_3: u64 = 25_000;

type Shown = fn(Option<Vec<u16>>) -> Option<Vec<u16>>;

/// A wrong verdict: what the search goes by, and what is made of its answer.
const VERDICTS: [(&str, Search, Shown); 9] = [
    (
        "the counts of a and b added",
        Search {
            breaks: counts_added,
            ..SCOPE
        },
        as_found,
    ),
    (
        "an outer wire pays under SNI",
        Search {
            breaks: outer_wire_pays,
            ..SCOPE
        },
        as_found,
    ),
    (
        "only sets of the largest size searched",
        Search {
            sizes: |order| order..=order,
            ..SCOPE
        },
        as_found,
    ),
    (
        "larger sizes waved through",
        Search {
            sizes: |_| 1..=1,
            ..SCOPE
        },
        as_found,
    ),
    (
        "a share seen though its two uses cancelled",
        Search {
            breaks: cancelled_seen,
            ..SCOPE
        },
        as_found,
    ),
    ("wire 0 always shown", SCOPE, |found| found.map(|_| vec![0])),
    ("holds always", SCOPE, |_| None),
    ("a verdict's set written falling", SCOPE, |found| found.map(falling)),
    (
        "the first set by ranks whose second half is not reversed",
        Search {
            rank: rank_not_reversed,
            ..SCOPE
        },
        as_found,
    ),
];

const TWO_SYMBOLS: &str = "s01 s10 read as one wire";
const NO_SUMS: &str = "sums on the way not listed";
const TURNED_DOWN: &str = "every text turned down";
const NO_TABLE: &str = "no table written";
const CLEAN: &str = "clean before a set is looked at";
const INVENTED_COUNT: &str = "an invented set count";
const FALLING: &str = "a set from a rank written falling";
const NOT_REVERSED_SET: &str = "the set at a rank, second half not reversed";
const NOT_REVERSED_RANK: &str = "the rank of a set, second half not reversed";
const PRODUCT_32: &str = "a job's product in 32 bits";
const PRODUCT_64: &str = "a job's product in 64 bits";

/// What a wrong program prints for a text, whose report is given too.
type Printed = fn(&[u8], &str) -> String;

const PROGRAMS: [(&str, Printed); 9] = [
    ("a program prints text A's report always", |_, _| {
        small_report(A.as_bytes())
    }),
    ("a program prints nothing", |_, _| String::new()),
    ("a program leaves the verdicts out", |_, report| {
        report.split_inclusive('\n').take(2).collect()
    }),
    ("a program says holds always", |_, report| {
        let holds = |line: &str| match line.split_once(" broken") {
            None => String::from(line),
            Some((notion, _)) => format!("{notion} holds\n"),
        };
        report.split_inclusive('\n').map(holds).collect()
    }),
    ("a program gives the NI verdict for SNI too", |_, report| {
        match report.split_inclusive('\n').collect::<Vec<&str>>()[..] {
            [first, function, ni, _] => format!("{first}{function}{ni}S{ni}"),
            _ => String::from(report),
        }
    }),
    ("a program waves sizes above 3 through", |text, report| {
        waved_through(text, report, 0)
    }),
    (
        "a program waves sizes above 3 through from 50 wires on",
        |text, report| waved_through(text, report, 50),
    ),
    ("a program cuts a text off at 4,096 bytes", |text, report| {
        match text.len() > MAX_TEXT_BYTES {
            true => small_report(&text[..MAX_TEXT_BYTES]),
            false => String::from(report),
        }
    }),
    ("a program ends a text at byte 0", |text, report| {
        match text.iter().position(|byte| *byte == 0) {
            Some(end) => small_report(&text[..end]),
            None => String::from(report),
        }
    }),
];
const FIRST_PIECE: &str = "a program takes the first piece for the text";

pub fn name_all(tally: &mut Tally) {
    PROGRAMS.iter().for_each(|(name, _)| tally.expect_fault(name));
    tally.expect_fault(FIRST_PIECE);
    words::name_all(tally);
    notes::name_all(tally);
    dependence::name_all(tally);
    directed::name_all(tally);
    isw::name_all(tally);
    sizes::name_all(tally);
    plan::name_all(tally);
    walks::name_all(tally);
    filed::name_all(tally);
    pool::name_all(tally);
    VERDICTS.iter().for_each(|(name, _, _)| tally.expect_fault(name));
    for name in [TWO_SYMBOLS, NO_SUMS, TURNED_DOWN, NO_TABLE, CLEAN, INVENTED_COUNT] {
        tally.expect_fault(name);
    }
    for name in [FALLING, NOT_REVERSED_SET, NOT_REVERSED_RANK, PRODUCT_32, PRODUCT_64] {
        tally.expect_fault(name);
    }
}

fn as_found(found: Option<Vec<u16>>) -> Option<Vec<u16>> {
    found
}

fn falling(set: Vec<u16>) -> Vec<u16> {
    set.into_iter().rev().collect()
}

fn counts_added(records: &[Record], set: &[u16], notion: usize) -> bool {
    let sum = sum(records, set);
    sum.masks == 0 && shares_of_a(sum) + shares_of_b(sum) > allowed(records, set, notion)
}

fn outer_wire_pays(records: &[Record], set: &[u16], _: usize) -> bool {
    breaks(records, set, NI)
}

/// What each wire names stays seen, whatever the others take away.
fn cancelled_seen(records: &[Record], set: &[u16], notion: usize) -> bool {
    let wires = set.iter().map(|wire| records[usize::from(*wire)]);
    let seen = wires.fold(Record::default(), |seen, wire| Record {
        products: seen.products | wire.products,
        a: seen.a | wire.a,
        b: seen.b | wire.b,
        ..seen
    });
    let counted = allowed(records, set, notion);
    sum(records, set).masks == 0 && (shares_of_a(seen) > counted || shares_of_b(seen) > counted)
}

/// Sets with wire n - 1 after those without it, in the same order of their other wires.
fn rank_not_reversed(set: &[u16]) -> u64 {
    set.iter()
        .enumerate()
        .map(|(place, wire)| count(usize::from(*wire), place + 1))
        .sum()
}

fn set_not_reversed(wires: usize, size: usize, rank: u64) -> Vec<u16> {
    let (mut size, mut rank, mut set) = (size, rank, Vec::new());
    for wire in (0..wires).rev() {
        if size > 0 && rank >= count(wire, size) {
            set.push(wire as u16);
            rank -= count(wire, size);
            size -= 1;
        }
    }
    falling(set)
}

/// On a call that the engine answered.
pub fn verdict(tally: &mut Tally, records: &[Record], notion: usize, order: usize, engine: &Reply) {
    if (1..=order).map(|size| count(records.len(), size)).sum::<u64>() > MOST_SETS {
        return;
    }
    for (name, search, shown) in &VERDICTS {
        if let Ok(found) = search.first(records, notion, order, MOST_SETS) {
            let wrong = model::found_by_verdict(shown(found.map(|found| found.set)));
            tally.fault(name, wrong != *engine);
        }
    }
}

/// On a text that the program read in pieces, the first of so many bytes.
pub fn program(tally: &mut Tally, text: &[u8], first_piece: usize, report: &str, printed: &[u8]) {
    for (name, wrong) in &PROGRAMS {
        tally.fault(name, wrong(text, report).as_bytes() != printed);
    }
    words::program(tally, text, report, printed);
    if first_piece < text.len() {
        tally.fault(FIRST_PIECE, small_report(&text[..first_piece]).as_bytes() != printed);
    }
}

/// The report, where its verdicts are no long work.
fn small_report(text: &[u8]) -> String {
    report(text, MOST_SETS).unwrap_or_default()
}

/// The report that looks at no set of more than 3 wires where there are so many wires at least. Where that is long work
/// it is the right report, which nobody notices.
fn waved_through(text: &[u8], report: &str, least_wires: usize) -> String {
    let reaches = |reading: Reading| reading.order > 3 && reading.wires.len() >= least_wires;
    let wrong = match opening(text).1.is_some_and(reaches) {
        true => report_up_to(3, text, MOST_SETS_OF_3).ok(),
        false => None,
    };
    wrong.unwrap_or_else(|| String::from(report))
}

pub fn range_check(tally: &mut Tally, engine: &Reply) {
    if engine.status == 0 {
        tally.fault(CLEAN, *engine != Reply::answered(&[1], Vec::new()));
    }
}

pub fn read_text(tally: &mut Tally, text: &[u8], engine: &Reply) {
    if engine.status != 0 {
        return;
    }
    tally.fault(TURNED_DOWN, true);
    tally.fault(NO_TABLE, !engine.written.is_empty());
    let table: Vec<u8> = engine.written.iter().map(|byte| *byte as u8).collect();
    let wires = parse(&table);
    // A part that lies outside the text is a difference already; here it is no part.
    let part = |wire: &Record| {
        let (from, length) = (usize::from(wire.offset), usize::from(wire.length));
        text.get(from..from + length).unwrap_or(&[])
    };
    let is_sum = |wire: &Record| part(wire).iter().any(|byte| b" ()".contains(byte));
    let no_sums: Vec<Record> = wires
        .iter()
        .copied()
        .filter(|wire| wire.is_outer() || !is_sum(wire))
        .collect();
    tally.fault(NO_SUMS, with_table(engine, &no_sums) != *engine);
    let is_pair = |wire: &Record| part(wire) == b"s01 s10";
    let one_wire: Vec<Record> = match wires.iter().position(is_pair) {
        Some(pair) if pair >= 2 && wires[pair - 2].plus(wires[pair - 1]) == Record::default().plus(wires[pair]) => {
            [&wires[..pair - 2], &wires[pair..]].concat()
        }
        _ => wires.clone(),
    };
    tally.fault(TWO_SYMBOLS, with_table(engine, &one_wire) != *engine);
}

/// The same answer with another table.
fn with_table(engine: &Reply, wires: &[Record]) -> Reply {
    let mut reply = engine.clone();
    reply.numbers[3] = Some(wires.len() as u64);
    reply.written = to_bytes(wires).into_iter().map(u16::from).collect();
    reply
}

pub fn set_count(tally: &mut Tally, wires: usize, size: usize, engine: &Reply) {
    if engine.status == 0 {
        let invented = (wires as u64).pow(size as u32);
        tally.fault(INVENTED_COUNT, engine.numbers[0] != Some(invented));
    }
}

pub fn set_from_rank(tally: &mut Tally, wires: usize, size: usize, rank: u64, engine: &Reply) {
    if engine.status == 0 {
        tally.fault(FALLING, engine.written != falling(from_rank(wires, size, rank)));
        tally.fault(NOT_REVERSED_SET, engine.written != set_not_reversed(wires, size, rank));
    }
}

pub fn rank_from_set(tally: &mut Tally, set: &[u16], engine: &Reply) {
    if engine.status == 0 {
        tally.fault(NOT_REVERSED_RANK, engine.numbers[0] != Some(rank_not_reversed(set)));
    }
}

pub fn job(tally: &mut Tally, wires: usize, size: usize, [job, jobs]: [u64; 2], engine: &Reply) {
    if engine.status == 0 {
        let sets = count(wires, size);
        let in_32_bits = u64::from((job as u32).wrapping_mul(sets as u32)) / jobs;
        tally.fault(PRODUCT_32, engine.numbers[0] != Some(in_32_bits));
        tally.fault(PRODUCT_64, engine.numbers[0] != Some(job.wrapping_mul(sets) / jobs));
    }
}
