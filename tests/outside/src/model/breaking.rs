//! Breaking sets and the search for the first: every set of a size is looked at, in no order that matters, and of those
//! that break the one of least rank is taken.

use super::records::{Record, MAX_SHARES};
use super::sets;
use std::ops::RangeInclusive;

pub const NI: usize = 1;
pub const SNI: usize = 2;

/// Up to so many sets of a size the answer is worked out a second time, along the list of the scope's definition.
const MOST_LISTED: u64 = 400;

/// What a search goes by. The scope's is `SCOPE`; the faults of the self-check put one wrong thing in its place.
pub struct Search {
    pub breaks: fn(&[Record], &[u16], usize) -> bool,
    pub sizes: fn(usize) -> RangeInclusive<usize>,
    pub rank: fn(&[u16]) -> u64,
}

pub const SCOPE: Search = Search {
    breaks,
    sizes: |order| 1..=order,
    rank: sets::rank,
};

pub struct Found {
    pub rank: u64,
    pub set: Vec<u16>,
}

/// A search that would look at more sets than allowed.
pub struct TooMany;

/// Whether a set of distinct wires breaks the notion.
pub fn breaks(records: &[Record], set: &[u16], notion: usize) -> bool {
    let sum = sum(records, set);
    sum.masks == 0 && exceeding(sum, allowed(records, set, notion)) != [false, false]
}

/// Whether a sum depends on more shares of a, and on more of b, than are allowed.
pub fn exceeding(sum: Record, allowed: usize) -> [bool; 2] {
    [shares_of_a(sum), shares_of_b(sum)].map(|count| count > allowed)
}

/// How many shares of each operand the notion allows a set.
pub fn allowed(records: &[Record], set: &[u16], notion: usize) -> usize {
    match notion {
        SNI => inner(records, set),
        _ => set.len(),
    }
}

pub fn sum(records: &[Record], set: &[u16]) -> Record {
    set.iter()
        .fold(Record::default(), |sum, wire| sum.plus(records[usize::from(*wire)]))
}

pub fn inner(records: &[Record], set: &[u16]) -> usize {
    set.iter()
        .filter(|wire| !records[usize::from(**wire)].is_outer())
        .count()
}

/// On how many shares of a the sum depends.
pub fn shares_of_a(sum: Record) -> usize {
    let depends = |i: &usize| (0..MAX_SHARES).any(|j| sum.products >> (8 * i + j) & 1 == 1) || sum.a >> i & 1 == 1;
    (0..MAX_SHARES).filter(depends).count()
}

pub fn shares_of_b(sum: Record) -> usize {
    let depends = |j: &usize| (0..MAX_SHARES).any(|i| sum.products >> (8 * i + j) & 1 == 1) || sum.b >> j & 1 == 1;
    (0..MAX_SHARES).filter(depends).count()
}

impl Search {
    /// The breaking set of least rank among those of one size whose ranks lie in the range.
    pub fn least(&self, records: &[Record], size: usize, notion: usize, [from, to]: [u64; 2]) -> Option<Found> {
        let mut least: Option<Found> = None;
        sets::each(records.len(), size, |set| {
            if (self.breaks)(records, set, notion) {
                let rank = (self.rank)(set);
                if (from..to).contains(&rank) && least.as_ref().is_none_or(|least| rank < least.rank) {
                    least = Some(Found {
                        rank,
                        set: set.to_vec(),
                    });
                }
            }
        });
        least
    }

    /// The first breaking set of a verdict, in rising size and rank.
    pub fn first(&self, records: &[Record], notion: usize, order: usize, most: u64) -> Result<Option<Found>, TooMany> {
        let mut looked_at = 0;
        for size in (self.sizes)(order) {
            looked_at += sets::count(records.len(), size);
            if looked_at > most {
                return Err(TooMany);
            }
            let found = self.least(records, size, notion, [0, u64::MAX]);
            if found.is_some() {
                return Ok(found);
            }
        }
        Ok(None)
    }
}

/// A range check's set, found rank by rank where the range is narrow, otherwise among all sets of the size. Where the
/// whole list can be written down, the answer along it has to be the same.
pub fn in_range(records: &[Record], size: usize, notion: usize, [from, to]: [u64; 2]) -> Option<Found> {
    let sets = sets::count(records.len(), size);
    if sets > 4 * (to - from) + 10_000 {
        return (from..to).find_map(|rank| {
            let set = sets::from_rank(records.len(), size, rank);
            breaks(records, &set, notion).then_some(Found { rank, set })
        });
    }
    let found = SCOPE.least(records, size, notion, [from, to]);
    if sets <= MOST_LISTED {
        let list = sets::list(records.len(), size);
        let along_list = (from..to).find(|rank| breaks(records, &list[*rank as usize], notion));
        assert_eq!(
            found.as_ref().map(|found| found.rank),
            along_list,
            "the model contradicts itself"
        );
    }
    found
}
