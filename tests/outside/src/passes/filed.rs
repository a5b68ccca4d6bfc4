//! Filing a report: every argument within and beyond its limits, buffers of every length, and that what is filed is
//! taken by a pool on a table of as many wires as there may be.

use super::pools;
use crate::answers::Entry;
use crate::engine;
use crate::faults;
use crate::inputs::calls::TableCall;
use crate::inputs::tables::loose;
use crate::inputs::HUGE;
use crate::model;
use crate::model::pool::{Filing, FILED_REPORT_BYTES};
use crate::model::records::{MAX_SHARES, MAX_WIRES};
use crate::model::sets::{count, MAX_SIZE};
use crate::random::Random;
use crate::reply::Reply;
use crate::tally::Tally;

const MOST_LENGTH: usize = 2 * FILED_REPORT_BYTES;
const NOTIONS: [usize; 6] = [0, 1, 2, 3, 257, 258];
const CLEANS: [u64; 6] = [0, 1, 2, 256, 1 << 32, u64::MAX];
const DRAWN: usize = 20_000;
/// Of the calls at limits one report in so many is given to a pool, and one call in so many is held against wrong
/// writers. Neither divides the number of values of an argument, so that no value is passed over.
const ONE_IN_POOLED: u64 = 5;
const ONE_IN_OF_FAULTS: u64 = 11;

pub fn run(random: &mut Random, tally: &mut Tally) {
    let table = loose(random, MAX_SHARES, 3, MAX_WIRES);
    let call = TableCall::new(random, &table);
    let (mut calls, mut pooled) = (0, 0);
    for size in (0..=MAX_SIZE + 2).chain([256 + 1, 256 + 7]).chain(HUGE) {
        for filing in at_limits(size) {
            calls += 1;
            let reply = ask(tally, &filing, FILED_REPORT_BYTES, calls % ONE_IN_OF_FAULTS == 0);
            if reply.status == 0 && calls % ONE_IN_POOLED == 0 {
                pooled += 1;
                is_taken(tally, &call, &filing, &reply);
            }
        }
    }
    for _ in 0..DRAWN {
        let filing = any(random);
        let length = match random.chance(80) {
            true => FILED_REPORT_BYTES,
            false => random.below(MOST_LENGTH + 1),
        };
        ask(tally, &filing, length, true);
    }
    every_length(tally);
    tally.say(format!(
        "filed_report    {pooled} reports taken by a pool on {MAX_WIRES} wires"
    ));
}

pub fn ask(tally: &mut Tally, filing: &Filing, length: usize, faults: bool) -> Reply {
    let reply = engine::filed_report(filing, length);
    let model = model::filed_report(filing, length);
    let word = if filing.clean == 1 { "clean" } else { "found" };
    let input = || format!("{} report_length {length}", show(filing));
    tally.compare(Entry::FiledReport, word, &model, &reply, input);
    if faults {
        faults::filed::filed_report(tally, filing, length, &reply);
    }
    reply
}

/// Every notion, bounds at the limits of the size and beyond, every clean, ranks at the bounds and beyond.
fn at_limits(size: usize) -> Vec<Filing> {
    let sets = count(MAX_WIRES, size.min(MAX_SIZE));
    let bounds = [0, 1, sets / 2, sets - 1, sets, sets + 1, 1 << 63, u64::MAX];
    let mut filings = Vec::new();
    for notion in NOTIONS.into_iter().chain([HUGE[0]]) {
        for (from, to) in bounds.iter().flat_map(|from| bounds.map(|to| (*from, to))) {
            for clean in CLEANS {
                for rank in [0, from.wrapping_sub(1), from, to.wrapping_sub(1), to, u64::MAX] {
                    filings.push(Filing {
                        notion,
                        size,
                        from,
                        to,
                        clean,
                        rank,
                    });
                }
            }
        }
    }
    filings
}

/// A sound filing, of which up to two arguments may then be any.
fn any(random: &mut Random) -> Filing {
    let size = random.between(1, MAX_SIZE);
    let sets = count(MAX_WIRES, size);
    let mut bounds = [random.next() % (sets + 1), random.next() % (sets + 1)];
    bounds.sort_unstable();
    let [from, to] = bounds;
    let mut filing = Filing {
        notion: random.between(1, 2),
        size,
        from,
        to,
        clean: u64::from(from == to || random.chance(50)),
        rank: from + random.next() % (to - from).max(1),
    };
    for _ in 0..random.below(3) {
        let huge = random.pick(&HUGE);
        let beside = random
            .pick(&[from, to, sets])
            .wrapping_add(random.pick(&[0, 1, u64::MAX]));
        let rank = random.pick(&[beside, huge as u64]);
        match random.below(6) {
            0 => filing.notion = random.pick(&[0, 1, 2, 3, huge]),
            1 => filing.size = random.pick(&[0, 1, 7, 8, huge]),
            2 => filing.from = rank,
            3 => filing.to = rank,
            4 => filing.clean = random.pick(&[0, 1, 2, u64::MAX]),
            _ => filing.rank = rank,
        }
    }
    filing
}

/// Sound numbers, and such that are a 25 by themselves, with every length of the buffer.
fn every_length(tally: &mut Tally) {
    let clean = Filing {
        notion: 1,
        size: 7,
        from: 0,
        to: count(MAX_WIRES, 7),
        clean: 1,
        rank: 5,
    };
    let found = Filing {
        notion: 2,
        clean: 0,
        ..clean
    };
    for filing in [clean, found, Filing { clean: 2, ..clean }, Filing { size: 0, ..found }] {
        for length in (0..=MOST_LENGTH).chain([256 + 32, 4_096, (1 << 16) + 32]) {
            ask(tally, &filing, length, true);
        }
    }
}

/// What is filed is no 25 for a table of 512 wires at the highest order, whatever was found.
fn is_taken(tally: &mut Tally, call: &TableCall, filing: &Filing, reply: &Reply) {
    let report: Vec<u8> = reply.written.iter().map(|byte| *byte as u8).collect();
    let [_, pooled] = pools::compare(tally, call, [filing.notion, MAX_SHARES - 1], &report);
    if pooled.status == 25 {
        tally.differs(|| format!("FiledReport {}: no pool takes it", show(filing)));
    }
}

fn show(filing: &Filing) -> String {
    let Filing {
        notion, size, from, to, ..
    } = filing;
    let (clean, rank) = (filing.clean, filing.rank);
    format!("notion {notion} size {size} from {from} to {to} clean {clean} rank {rank}")
}
