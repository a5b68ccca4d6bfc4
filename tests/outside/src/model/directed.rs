//! The first breaking set of a verdict by a directed search, for tables of more sets than anybody can look at. It starts
//! at a wire and goes on only with wires that carry a mask of the sum so far. As long as no smaller set breaks, a set
//! that can be cut into two parts without masks breaks nothing, as each part depends on no more shares than it is
//! allowed. So in the first breaking set every part but the whole has a mask, which some wire of the rest carries too.

use super::breaking::{breaks, TooMany};
use super::records::{Record, MAX_MASKS};
use super::sets;

/// How a search goes. The right way is `RIGHT`; the faults of the self-check put one wrong thing in its place.
pub struct Directed {
    /// The sizes that are searched, one after the other.
    pub sizes: fn(usize) -> Vec<usize>,
    /// Whether a set of so many wires is judged where those of this size are searched.
    pub judges: fn(usize, usize) -> bool,
    /// Whether a wire may be in a set at all, and whether a set may start at it.
    pub takes: fn(&[Record], u16) -> bool,
    pub starts: fn(&[Record], u16) -> bool,
    /// The masks of which one is chosen to go on by, from the wires so far and their sum; none where the search ends.
    pub chosen_from: fn(&[Record], &[u16], Record) -> u64,
    /// Whether it goes on from these wires, and from them to this one.
    pub goes_on: fn(&[Record], &[u16], usize) -> bool,
    pub goes_to: fn(&[u16], u16) -> bool,
    /// Whether a wire that was tried at one place may be taken again once the search is back there.
    pub frees: bool,
    /// By which the least of all that are found is taken, and which of them are found.
    pub rank: fn(&[u16]) -> u64,
    pub ends: Ends,
}

#[derive(Clone, Copy, PartialEq)]
pub enum Ends {
    /// When all wires were a start.
    AtLast,
    /// With the first set, or with the start that brought it.
    WithASet,
    WithItsStart,
}

pub const RIGHT: Directed = Directed {
    sizes: |order| (1..=order).collect(),
    judges: |wires, size| wires == size,
    takes: |_, _| true,
    starts: |_, _| true,
    chosen_from: |_, _, sum| sum.masks,
    goes_on: |_, _, _| true,
    goes_to: |_, _| true,
    frees: true,
    rank: sets::rank,
    ends: Ends::AtLast,
};

/// A search for sets of one size that is under way.
struct UnderWay<'a> {
    how: &'a Directed,
    records: &'a [Record],
    notion: usize,
    size: usize,
    /// The wires that carry a mask, for each mask; and the masks, those in the fewest wires first.
    carriers: &'a [Vec<u16>],
    rarest_first: &'a [usize],
    barred: Vec<bool>,
    found: Option<(u64, Vec<u16>)>,
    /// So many sets may still be looked at.
    left: u64,
}

impl Directed {
    /// The first breaking set, in rising size and rank. `most` bounds the sets that are looked at, parts of others too.
    pub fn first(
        &self,
        records: &[Record],
        notion: usize,
        order: usize,
        most: u64,
    ) -> Result<Option<Vec<u16>>, TooMany> {
        let carries = |wire: &u16, mask: usize| records[usize::from(*wire)].masks >> mask & 1 == 1;
        let wires = 0..records.len() as u16;
        let of_mask = |mask| wires.clone().filter(|wire| carries(wire, mask)).collect();
        let carriers: Vec<Vec<u16>> = (0..MAX_MASKS).map(of_mask).collect();
        let mut rarest_first: Vec<usize> = (0..MAX_MASKS).collect();
        rarest_first.sort_by_key(|mask| carriers[*mask].len());
        let mut left = most;
        for size in (self.sizes)(order) {
            let mut search = UnderWay {
                how: self,
                records,
                notion,
                size,
                carriers: &carriers,
                rarest_first: &rarest_first,
                barred: wires.clone().map(|wire| !(self.takes)(records, wire)).collect(),
                found: None,
                left,
            };
            search.from_every_start()?;
            left = search.left;
            if let Some((_, set)) = search.found {
                return Ok(Some(set));
            }
        }
        Ok(None)
    }
}

impl UnderWay<'_> {
    fn from_every_start(&mut self) -> Result<(), TooMany> {
        for start in 0..self.records.len() as u16 {
            let place = usize::from(start);
            if self.barred[place] || !(self.how.starts)(self.records, start) {
                continue;
            }
            self.barred[place] = true;
            self.go_on(&mut vec![start], Record::default().plus(self.records[place]))?;
            if self.found.is_some() && self.how.ends != Ends::AtLast {
                break;
            }
        }
        Ok(())
    }

    /// From these wires, in the order in which they were taken, and their sum.
    fn go_on(&mut self, set: &mut Vec<u16>, sum: Record) -> Result<(), TooMany> {
        self.left = self.left.checked_sub(1).ok_or(TooMany)?;
        if sum.masks == 0 && (self.how.judges)(set.len(), self.size) {
            self.judge(set);
        }
        let ends = self.found.is_some() && self.how.ends == Ends::WithASet;
        if ends || set.len() == self.size || !(self.how.goes_on)(self.records, set, self.notion) {
            return Ok(());
        }
        let masks = (self.how.chosen_from)(self.records, set, sum);
        let Some(mask) = self.rarest_first.iter().find(|mask| masks >> **mask & 1 == 1) else {
            return Ok(());
        };
        let carriers = &self.carriers[*mask];
        let mut tried = Vec::new();
        for wire in carriers {
            let place = usize::from(*wire);
            if !self.barred[place] && (self.how.goes_to)(set, *wire) {
                self.barred[place] = true;
                tried.push(place);
                set.push(*wire);
                self.go_on(set, sum.plus(self.records[place]))?;
                set.pop();
            }
        }
        if self.how.frees {
            tried.into_iter().for_each(|place| self.barred[place] = false);
        }
        Ok(())
    }

    fn judge(&mut self, set: &[u16]) {
        let mut rising = set.to_vec();
        rising.sort_unstable();
        let ends = self.found.is_some() && self.how.ends == Ends::WithASet;
        if ends || !breaks(self.records, &rising, self.notion) {
            return;
        }
        let rank = (self.how.rank)(&rising);
        if self.found.as_ref().is_none_or(|(least, _)| rank < *least) {
            self.found = Some((rank, rising));
        }
    }
}
