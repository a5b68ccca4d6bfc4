//! Lists of reports for a pool: ranges that cover all ranks and such that leave a hole, finds that are true and finds
//! that are not, and reports with a field out of range.

use super::tables::Table;
use crate::model::breaking::breaks;
use crate::model::pool::{Filed, CLEAN};
use crate::model::sets::list;
use crate::random::Random;

/// A table at an order, with what each of its sets does to a notion.
pub struct Searched {
    pub table: Table,
    pub notion: usize,
    pub order: usize,
    /// For each size from 1 to the order, whether the set at each rank breaks.
    breaking: Vec<Vec<bool>>,
}

/// What the reports of a list say of the ranks that they cover. With `First` and `Any` every clean report is true.
#[derive(Clone, Copy)]
pub enum Says {
    Clean,
    /// The first break among them, or clean.
    First,
    /// Any break among them, or clean.
    Any,
    /// Now and then a rank that does not break.
    Wrong,
}

impl Searched {
    pub fn new(table: Table, notion: usize, order: usize) -> Searched {
        let of_size = |size| {
            let sets = list(table.records.len(), size);
            sets.iter().map(|set| breaks(&table.records, set, notion)).collect()
        };
        let breaking = (1..=order).map(of_size).collect();
        Searched {
            table,
            notion,
            order,
            breaking,
        }
    }

    pub fn sets(&self, size: usize) -> u64 {
        self.breaking[size - 1].len() as u64
    }

    pub fn report(&self, size: usize, range: [u64; 2], found: u64) -> Filed {
        Filed::new([self.notion, size], range, found)
    }

    /// The ranks of a range whose sets break, or those whose sets do not.
    pub fn ranks(&self, size: usize, [from, to]: [u64; 2], break_it: bool) -> Vec<u64> {
        let breaking = &self.breaking[size - 1];
        (from..to).filter(|rank| breaking[*rank as usize] == break_it).collect()
    }

    pub fn said(&self, random: &mut Random, size: usize, range: [u64; 2], says: Says) -> Filed {
        let wrong = matches!(says, Says::Wrong) && random.chance(20);
        let ranks = self.ranks(size, range, !wrong);
        let found = match (says, ranks.first()) {
            (Says::Clean, _) | (_, None) => CLEAN,
            (Says::First, Some(first)) => *first,
            _ => random.pick(&ranks),
        };
        self.report(size, range, found)
    }

    /// A list of reports on all sizes. Mostly all ranks are covered, or all but those of one hole.
    pub fn list(&self, random: &mut Random, says: Says) -> Vec<Filed> {
        let hole_in = random.below(2 * self.order) + 1;
        let mut reports = Vec::new();
        for size in 1..=self.order {
            let mut ranges = cover(random, self.sets(size));
            if size == hole_in {
                make_hole(random, &mut ranges);
            }
            reports.extend(ranges.iter().map(|range| self.said(random, size, *range, says)));
        }
        match random.below(4) {
            0 => {}
            1 => reports.reverse(),
            _ => random.shuffle(&mut reports),
        }
        reports
    }
}

/// Ranges that cover all ranks: cut at drawn places, so that some may be empty, then perhaps stretched over others or
/// there twice.
pub fn cover(random: &mut Random, sets: u64) -> Vec<[u64; 2]> {
    let cuts = random.pick(&[0, 0, 1, 2, 3, 5, 8]);
    let mut bounds: Vec<u64> = (0..cuts).map(|_| random.next() % (sets + 1)).collect();
    bounds.extend([0, sets]);
    bounds.sort_unstable();
    let mut ranges: Vec<[u64; 2]> = bounds.windows(2).map(|pair| [pair[0], pair[1]]).collect();
    if random.chance(30) {
        for [from, to] in &mut ranges {
            *from -= random.next() % (*from + 1).min(4);
            *to += random.next() % (sets - *to + 1).min(4);
        }
    }
    if random.chance(20) {
        ranges.push(ranges[random.below(ranges.len())]);
    }
    ranges
}

/// One of the ranges is left out, or loses its first rank or its last.
pub fn make_hole(random: &mut Random, ranges: &mut Vec<[u64; 2]>) {
    let place = random.below(ranges.len());
    let [from, to] = ranges[place];
    match random.below(3) {
        0 => {
            ranges.remove(place);
        }
        1 => ranges[place] = [to.min(from + 1), to],
        _ => ranges[place] = [from, from.max(to.saturating_sub(1))],
    }
}

/// A field gets another value: beside its limits, beyond them or far beyond, or by chance one that is sound.
pub fn injure(random: &mut Random, report: &mut Filed, sets: u64) {
    let Filed { from, to, found, .. } = *report;
    let rank = random.pick(&[from, to, found, sets]);
    let low = random.pick(&[rank.wrapping_sub(1), rank, rank.wrapping_add(1), 0]);
    let high = random.pick(&[u64::MAX, u64::MAX - 1, 1 << 63, low | 1 << 32, low | 1 << 63]);
    let rank = random.pick(&[low, low, high]);
    match random.below(6) {
        0 => report.notion = random.pick(&[0, 3, 3 - report.notion.min(3), 255, 128 | report.notion]),
        1 => report.size = random.pick(&[0, report.size.wrapping_add(1), 7, 8, 255, 128 | report.size]),
        2 => report.filling[random.below(6)] = 1 << random.below(8),
        3 => report.from = rank,
        4 => report.to = rank,
        _ => report.found = rank,
    }
}
