//! A stretch of the sets of one size, written down in the scope's order, and which of them break a notion. Nothing is
//! taken over from one set to the next: each set's records are added up anew.

use super::breaking::{breaks, Found};
use super::records::Record;
use super::{found_by_range, found_by_verdict, sets};
use crate::reply::Reply;

pub struct Stretch {
    pub size: usize,
    /// The rank of the first set that is written down.
    pub start: u64,
    pub sets: Vec<Vec<u16>>,
    /// From each set to the next: the wire that leaves and the wire that enters.
    pub steps: Vec<[u16; 2]>,
}

impl Stretch {
    /// All sets of a size, by the order's definition.
    pub fn whole(wires: usize, size: usize) -> Stretch {
        Stretch::new(size, 0, sets::list(wires, size))
    }

    /// Those from one rank up to, without, another, where nobody writes them all down.
    pub fn between(wires: usize, size: usize, [from, to]: [u64; 2]) -> Stretch {
        let sets = (from..to).map(|rank| sets::from_rank(wires, size, rank));
        Stretch::new(size, from, sets.collect())
    }

    fn new(size: usize, start: u64, sets: Vec<Vec<u16>>) -> Stretch {
        let steps = sets.windows(2).map(|pair| exchanged(&pair[0], &pair[1])).collect();
        Stretch {
            size,
            start,
            sets,
            steps,
        }
    }

    /// The first rank that is not written down any more.
    pub fn end(&self) -> u64 {
        self.start + self.sets.len() as u64
    }

    /// The places of a range's sets here.
    pub fn places(&self, range: [u64; 2]) -> [usize; 2] {
        range.map(|rank| (rank - self.start) as usize)
    }

    pub fn highest(&self, place: usize) -> Option<u16> {
        self.sets[place].last().copied()
    }

    /// The ranks at which the highest wire is another than at the rank before.
    pub fn seams(&self) -> Vec<u64> {
        let changes = |place: &usize| self.highest(*place) != self.highest(place - 1);
        let places = (1..self.sets.len()).filter(changes);
        places.map(|place| self.start + place as u64).collect()
    }
}

/// In the revolving door just one wire leaves and just one enters.
fn exchanged(set: &[u16], next: &[u16]) -> [u16; 2] {
    let only_in_first = |one: &[u16], other: &[u16]| {
        let mut only = one.iter().filter(|wire| !other.contains(wire));
        match (only.next(), only.next()) {
            (Some(wire), None) => *wire,
            _ => panic!("the model contradicts itself: {set:?} is followed by {next:?}"),
        }
    };
    [only_in_first(set, next), only_in_first(next, set)]
}

/// A stretch with what each of its sets does to a notion.
pub struct Judged<'a> {
    pub stretch: &'a Stretch,
    /// Whether the set at each place breaks.
    pub breaking: Vec<bool>,
}

impl Judged<'_> {
    pub fn new<'a>(stretch: &'a Stretch, records: &[Record], notion: usize) -> Judged<'a> {
        let breaking = stretch.sets.iter().map(|set| breaks(records, set, notion)).collect();
        Judged { stretch, breaking }
    }

    fn first(&self, range: [u64; 2]) -> Option<Found> {
        let [from, to] = self.stretch.places(range);
        let place = (from..to).find(|place| self.breaking[*place])?;
        Some(Found {
            rank: self.stretch.start + place as u64,
            set: self.stretch.sets[place].clone(),
        })
    }

    pub fn range_check(&self, range: [u64; 2]) -> Reply {
        found_by_range(self.stretch.size, self.first(range))
    }
}

/// The verdict from all sets of the sizes that it is to look at, which rise.
pub fn verdict(sizes: &[Judged]) -> Reply {
    let first = |size: &Judged| size.first([size.stretch.start, size.stretch.end()]);
    found_by_verdict(sizes.iter().find_map(first).map(|found| found.set))
}
