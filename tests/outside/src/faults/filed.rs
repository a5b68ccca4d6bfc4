//! Wrong writers of reports: each has to be told from the engine's on some arguments.

use crate::model::pool::{Filing, CLEAN, FILED_REPORT_BYTES};
use crate::model::records::MAX_WIRES;
use crate::model::sets::{count, MAX_SIZE};
use crate::reply::Reply;
use crate::tally::Tally;

/// Whether the numbers are taken, with so many bytes lent.
type Takes = fn(&Filing, usize) -> bool;
type Bytes = fn(&Filing) -> Vec<u8>;

const TAKES: [(&str, Takes); 16] = [
    ("a report of any length filed", |filing, _| filing.is_sound()),
    ("a report filed where there is room for more", |filing, length| {
        length >= FILED_REPORT_BYTES && filing.is_sound()
    }),
    ("a report of notion 0 filed", |filing, length| {
        let notion = filing.notion.max(1);
        takes(&Filing { notion, ..*filing }, length)
    }),
    ("a report of notion 3 filed", |filing, length| match filing.notion {
        3 => takes(&Filing { notion: 2, ..*filing }, length),
        _ => takes(filing, length),
    }),
    ("a report's notion taken by its lowest byte", |filing, length| {
        let notion = filing.notion % 256;
        takes(&Filing { notion, ..*filing }, length)
    }),
    ("a report of size 0 filed", |filing, length| match filing.size {
        0 => takes(&Filing { size: 1, ..*filing }, length),
        _ => takes(filing, length),
    }),
    ("a report of size 8 filed", |filing, length| match filing.size {
        8 => takes(&Filing { size: 7, ..*filing }, length),
        _ => takes(filing, length),
    }),
    ("a report's size taken by its lowest byte", |filing, length| {
        let size = filing.size % 256;
        takes(&Filing { size, ..*filing }, length)
    }),
    ("a report of falling bounds filed", |filing, length| {
        let [from, to] = [filing.from.min(filing.to), filing.from.max(filing.to)];
        takes(&Filing { from, to, ..*filing }, length)
    }),
    ("a report of bounds above all sets filed", |filing, length| {
        let to = filing.to.min(most(filing));
        filing.from <= filing.to && takes(&Filing { to, ..*filing }, length)
    }),
    ("a report of no ranks not filed", |filing, length| {
        filing.from < filing.to && takes(filing, length)
    }),
    ("a report of all sets not filed", |filing, length| {
        filing.to < most(filing) && takes(filing, length)
    }),
    ("a report filed as clean where clean is over 1", |filing, length| {
        let clean = filing.clean.min(1);
        takes(&Filing { clean, ..*filing }, length)
    }),
    ("a report's rank looked at where it is clean", |filing, length| {
        takes(&Filing { clean: 0, ..*filing }, length)
    }),
    ("a report of a find at the upper bound filed", |filing, length| {
        let is_last = filing.clean == 0 && filing.rank == filing.to;
        let clean = if is_last { 1 } else { filing.clean };
        takes(&Filing { clean, ..*filing }, length)
    }),
    ("a report of a find below the lower bound filed", |filing, length| {
        let rank = filing.rank.max(filing.from);
        takes(&Filing { rank, ..*filing }, length)
    }),
];

const BYTES: [(&str, Bytes); 8] = [
    ("a report's numbers written big-endian", |filing| {
        let mut bytes = right(filing);
        bytes[8..].chunks_exact_mut(8).for_each(<[u8]>::reverse);
        bytes
    }),
    ("a clean report written with its rank", |filing| {
        Filing { clean: 0, ..*filing }.report().bytes()
    }),
    ("a clean report written with rank 0", |filing| {
        let mut report = filing.report();
        report.found = if report.found == CLEAN { 0 } else { report.found };
        report.bytes()
    }),
    ("a report's bounds exchanged", |filing| {
        let (from, to) = (filing.to, filing.from);
        Filing { from, to, ..*filing }.report().bytes()
    }),
    ("a report's notion and size exchanged", |filing| {
        let mut bytes = right(filing);
        bytes.swap(0, 1);
        bytes
    }),
    ("a report written as one of a check under way", |filing| {
        let mut report = filing.report();
        report.filling[0] = 1;
        report.bytes()
    }),
    ("a report's numbers written in 32 bits", |filing| {
        let mut bytes = right(filing);
        bytes[8..].chunks_exact_mut(8).for_each(|number| number[4..].fill(0));
        bytes
    }),
    ("a report written but for its last number", |filing| {
        right(filing)[..24].to_vec()
    }),
];
const REFUSED_WRITTEN: &str = "a report written though it is refused";

pub fn name_all(tally: &mut Tally) {
    TAKES.iter().for_each(|(name, _)| tally.expect_fault(name));
    BYTES.iter().for_each(|(name, _)| tally.expect_fault(name));
    tally.expect_fault(REFUSED_WRITTEN);
}

pub fn filed_report(tally: &mut Tally, filing: &Filing, length: usize, engine: &Reply) {
    for (name, wrong) in &TAKES {
        tally.fault(name, wrong(filing, length) != (engine.status == 0));
    }
    if engine.status == 0 {
        for (name, wrong) in &BYTES {
            tally.fault(name, written(&wrong(filing)) != *engine);
        }
    } else if length == FILED_REPORT_BYTES {
        let reply = written(&right(filing));
        tally.fault(REFUSED_WRITTEN, Reply { status: 25, ..reply } != *engine);
    }
}

fn takes(filing: &Filing, length: usize) -> bool {
    length == FILED_REPORT_BYTES && filing.is_sound()
}

/// The number of sets of this size of as many wires as there may be.
fn most(filing: &Filing) -> u64 {
    match filing.size {
        size @ 0..=MAX_SIZE => count(MAX_WIRES, size),
        _ => 0,
    }
}

fn right(filing: &Filing) -> Vec<u8> {
    filing.report().bytes()
}

fn written(bytes: &[u8]) -> Reply {
    Reply::answered(&[], bytes.iter().copied().map(u16::from).collect())
}
