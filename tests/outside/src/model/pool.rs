//! The pool of filed reports: a report's bytes, what makes one wrong, which rank is in none of them, and what they all
//! come to. Coverage is decided by how many reports lie over a rank, and not by going on from report to report.

use super::breaking::{breaks, NI, SNI};
use super::records::{Record, MAX_WIRES};
use super::sets::{count, from_rank, MAX_SIZE};
use crate::reply::Reply;
use std::collections::BTreeMap;
use std::ops::RangeInclusive;

pub const FILED_REPORT_BYTES: usize = 32;
/// Stands for a found rank where the ranks are clean.
pub const CLEAN: u64 = u64::MAX;
const FILLING_BYTES: usize = 6;

/// The answers.
pub const HOLDS: u64 = 1;
pub const BROKEN: u64 = 2;
pub const UNCOVERED: u64 = 3;

/// Up to so many sets of a size the first rank that no report covers is found a second time, by a mark on every rank.
const MOST_MARKED: u64 = 1_000;

/// A size and a rank; they rise by size and then by rank.
pub type Place = (usize, u64);

/// What stands in a report, sound or not.
#[derive(Clone, Copy)]
pub struct Filed {
    pub notion: u8,
    pub size: u8,
    pub filling: [u8; FILLING_BYTES],
    pub from: u64,
    pub to: u64,
    pub found: u64,
}

impl Filed {
    pub fn new([notion, size]: [usize; 2], [from, to]: [u64; 2], found: u64) -> Filed {
        Filed {
            notion: notion as u8,
            size: size as u8,
            filling: [0; FILLING_BYTES],
            from,
            to,
            found,
        }
    }

    pub fn bytes(&self) -> Vec<u8> {
        let mut bytes = vec![self.notion, self.size];
        bytes.extend(self.filling);
        for number in [self.from, self.to, self.found] {
            bytes.extend(number.to_le_bytes());
        }
        bytes
    }
}

pub fn list_of(reports: &[Filed]) -> Vec<u8> {
    reports.iter().flat_map(Filed::bytes).collect()
}

/// What a pool is asked, when table, notion and order are tested.
pub struct Asked<'a> {
    pub records: &'a [Record],
    pub notion: usize,
    pub order: usize,
    pub list: &'a [u8],
}

impl Asked<'_> {
    pub fn sets(&self, size: usize) -> u64 {
        count(self.records.len(), size)
    }
}

/// How a pool goes. The scope's is `RIGHT`; the faults of the self-check put one wrong thing in its place.
pub struct Pool {
    /// Whether a list of so many bytes is one of whole reports.
    pub is_whole: fn(usize) -> bool,
    pub number: fn([u8; 8]) -> u64,
    /// Whether a report may stand in the list; else it is a 25.
    pub is_sound: fn(&Asked, &Filed) -> bool,
    pub has_found: fn(&Filed) -> bool,
    /// Whether a set that was found breaks; else it is a 26.
    pub breaks: fn(&Asked, Place) -> bool,
    /// The list's refusal, or 0.
    pub refusal: fn(&Pool, &Asked, &[Filed]) -> u64,
    /// Which of the places found is shown.
    pub shown: fn(&[Place]) -> Option<Place>,
    /// The sizes that have to be covered.
    pub sizes: fn(usize) -> RangeInclusive<usize>,
    /// Whether a report's ranks are of this size.
    pub is_of_size: fn(&Filed, usize) -> bool,
    /// The first rank below the number of sets that lies in none of the ranges. None of them is empty.
    pub gap: fn(&[[u64; 2]], u64) -> Option<u64>,
    /// Whether a break is told where ranks are uncovered too.
    pub break_first: bool,
}

pub const RIGHT: Pool = Pool {
    is_whole: |length| length % FILED_REPORT_BYTES == 0,
    number: u64::from_le_bytes,
    is_sound,
    has_found: |report| report.found != CLEAN,
    breaks: is_breaking,
    refusal,
    shown: |found| found.iter().min().copied(),
    sizes: |order| 1..=order,
    is_of_size: |report, size| usize::from(report.size) == size,
    gap,
    break_first: true,
};

impl Pool {
    pub fn reply(&self, asked: &Asked) -> Reply {
        if !(self.is_whole)(asked.list.len()) {
            return Reply::refused(25);
        }
        let reports = self.parse(asked.list);
        let refusal = (self.refusal)(self, asked, &reports);
        if refusal != 0 {
            return Reply::refused(refusal);
        }
        let broken = (self.shown)(&self.found(&reports)).map(|place| (BROKEN, place));
        let uncovered = || self.uncovered(asked, &reports).map(|place| (UNCOVERED, place));
        let told = match self.break_first {
            true => broken.or_else(uncovered),
            false => uncovered().or(broken),
        };
        match told {
            None => Reply::answered(&[HOLDS], Vec::new()),
            Some((answer, (size, rank))) => Reply::answered(&[answer, size as u64, rank], Vec::new()),
        }
    }

    fn parse(&self, list: &[u8]) -> Vec<Filed> {
        let report = |bytes: &[u8]| {
            let number = |at: usize| (self.number)(bytes[at..at + 8].try_into().expect("a number has eight bytes"));
            Filed {
                notion: bytes[0],
                size: bytes[1],
                filling: bytes[2..8].try_into().expect("six bytes are filling"),
                from: number(8),
                to: number(16),
                found: number(24),
            }
        };
        list.chunks_exact(FILED_REPORT_BYTES).map(report).collect()
    }

    /// The places that reports have found, in the order of the list.
    pub fn found(&self, reports: &[Filed]) -> Vec<Place> {
        let found = reports.iter().filter(|report| (self.has_found)(report));
        found.map(|report| (usize::from(report.size), report.found)).collect()
    }

    fn uncovered(&self, asked: &Asked, reports: &[Filed]) -> Option<Place> {
        (self.sizes)(asked.order).find_map(|size| {
            let of_size = reports.iter().filter(|report| (self.is_of_size)(report, size));
            let ranges = of_size.map(|report| [report.from, report.to]);
            let ranges: Vec<[u64; 2]> = ranges.filter(|[from, to]| from < to).collect();
            (self.gap)(&ranges, asked.sets(size)).map(|rank| (size, rank))
        })
    }
}

pub fn is_sound(asked: &Asked, report: &Filed) -> bool {
    let size = usize::from(report.size);
    let in_bounds = (report.from..report.to).contains(&report.found);
    usize::from(report.notion) == asked.notion
        && (1..=asked.order).contains(&size)
        && report.filling == [0; FILLING_BYTES]
        && report.from <= report.to
        && report.to <= asked.sets(size)
        && (report.found == CLEAN || in_bounds)
}

/// No rank beyond the sets breaks anything, though a right pool does not come to ask.
pub fn is_breaking(asked: &Asked, (size, rank): Place) -> bool {
    let wires = asked.records.len();
    rank < asked.sets(size) && breaks(asked.records, &from_rank(wires, size, rank), asked.notion)
}

/// 25 for any report comes before 26 for any other.
pub fn refusal(pool: &Pool, asked: &Asked, reports: &[Filed]) -> u64 {
    if !reports.iter().all(|report| (pool.is_sound)(asked, report)) {
        return 25;
    }
    let found = pool.found(reports);
    match found.iter().all(|place| (pool.breaks)(asked, *place)) {
        true => 0,
        false => 26,
    }
}

/// From a lower bound on one report more lies over the ranks, from an upper bound on one less. Where there are none the
/// rank is in no report; below the first such rank the number changes at bounds alone.
pub fn gap(ranges: &[[u64; 2]], sets: u64) -> Option<u64> {
    let mut changes = BTreeMap::from([(0, 0)]);
    for [from, to] in ranges {
        *changes.entry(*from).or_insert(0) += 1;
        *changes.entry(*to).or_insert(0) -= 1;
    }
    let mut over = 0;
    let bare = changes.iter().find(|(_, change)| {
        over += *change;
        over == 0
    });
    let rank = bare.map(|(rank, _)| *rank).filter(|rank| *rank < sets);
    if sets <= MOST_MARKED {
        assert_eq!(rank, unmarked(ranges, sets), "the model contradicts itself");
    }
    rank
}

fn unmarked(ranges: &[[u64; 2]], sets: u64) -> Option<u64> {
    let mut marked = vec![false; sets as usize];
    for range in ranges {
        let [from, to] = range.map(|bound| bound.min(sets) as usize);
        marked[from..to].fill(true);
    }
    marked.iter().position(|marked| !marked).map(|rank| rank as u64)
}

/// The arguments of filed_report, but for the buffer.
#[derive(Clone, Copy)]
pub struct Filing {
    pub notion: usize,
    pub size: usize,
    pub from: u64,
    pub to: u64,
    pub clean: u64,
    pub rank: u64,
}

impl Filing {
    /// Whether these numbers stand in some report, of some table at some order.
    pub fn is_sound(&self) -> bool {
        let is_found = self.clean == 0 && (self.from..self.to).contains(&self.rank);
        (NI..=SNI).contains(&self.notion)
            && (1..=MAX_SIZE).contains(&self.size)
            && self.from <= self.to
            && self.to <= count(MAX_WIRES, self.size)
            && (self.clean == 1 || is_found)
    }

    pub fn report(&self) -> Filed {
        let found = if self.clean == 1 { CLEAN } else { self.rank };
        Filed::new([self.notion, self.size], [self.from, self.to], found)
    }
}
