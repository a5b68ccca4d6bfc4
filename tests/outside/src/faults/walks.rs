//! Wrong walks: a search that goes from set to set, on which one wire leaves and one enters, and keeps what the sets add
//! up to. Each is wrong in one thing. It may well give the right answer for most ranges; some range has to tell it.

use super::set_not_reversed;
use super::walk_ranges::RANGES;
use super::walk_sums::SUMS;
use crate::model::breaking::{breaks, exceeding, inner, sum, Found, NI};
use crate::model::records::Record;
use crate::model::stretch::Stretch;
use crate::model::{found_by_range, found_by_verdict};
use crate::reply::Reply;
use crate::tally::Tally;

/// What is kept from set to set.
#[derive(Clone, Copy, Default)]
pub struct Kept {
    pub sum: Record,
    pub inner: usize,
}

/// How a walk goes. The right way is `RIGHT`; the faults put one wrong thing in its place. Sets are told by their places
/// in a stretch that is written down.
pub struct Walk {
    /// The sets that are visited for a range, from one place up to another, where there are so many in all.
    pub visits: fn([usize; 2], usize) -> [usize; 2],
    /// What is kept at the first set, and once a wire has left and another has entered.
    pub first: fn(&[Record], &[u16]) -> Kept,
    pub step: fn(Kept, [Record; 2]) -> Kept,
    /// What a set is judged by, from what was kept at the set before it and what is kept at it.
    pub judged_by: fn([Kept; 2]) -> Kept,
    /// Whether a walk that started at one set looks at another.
    pub looks: fn(&Stretch, [usize; 2]) -> bool,
    /// What a walk that started at one set shows where another breaks.
    pub shown: fn(&Stretch, [usize; 2]) -> Found,
}

pub const RIGHT: Walk = Walk {
    visits: |range, _| range,
    first: |records, set| Kept {
        sum: sum(records, set),
        inner: inner(records, set),
    },
    step: |kept, wires| Kept {
        sum: sum_after(kept, wires),
        inner: inner_after(kept, wires),
    },
    judged_by: |[_, here]| here,
    looks: |_, _| true,
    shown: |stretch, [_, place]| at(stretch, place),
};

/// What is taken over to the next size, from what was kept at a size's last set.
type TakenOver = fn(Kept) -> Kept;

/// A wrong verdict: how it walks through each size, and what it takes over. The right one takes over nothing.
const VERDICTS: [(&str, Walk, TakenOver); 4] = [
    (
        "a verdict passes over the first set of each size",
        Walk {
            visits: |[from, to], _| [from + 1, to],
            ..RIGHT
        },
        |_| Kept::default(),
    ),
    (
        "a verdict passes over the last set of each size",
        Walk {
            visits: |[from, to], _| [from, to.saturating_sub(1)],
            ..RIGHT
        },
        |_| Kept::default(),
    ),
    ("a verdict takes the sum over to the next size", RIGHT, |last| Kept {
        inner: 0,
        ..last
    }),
    ("a verdict takes the inner wires over to the next size", RIGHT, |last| {
        Kept {
            sum: Record::default(),
            ..last
        }
    }),
];
const NOT_REVERSED: &str = "a walk by ranks whose second half is not reversed";

pub fn name_all(tally: &mut Tally) {
    for (name, _) in RANGES.iter().chain(&SUMS) {
        tally.expect_fault(name);
    }
    tally.expect_fault(NOT_REVERSED);
    VERDICTS.iter().for_each(|(name, _, _)| tally.expect_fault(name));
}

/// On some ranges of a stretch, each with the engine's answer.
pub fn range_checks(
    tally: &mut Tally,
    stretch: &Stretch,
    records: &[Record],
    notion: usize,
    replies: &[([u64; 2], Reply)],
) {
    let tells = |walk: &Walk| {
        let mut each = replies.iter();
        each.any(|(range, reply)| walk.range_check(stretch, records, notion, *range) != *reply)
    };
    for (name, wrong) in RANGES.iter().chain(&SUMS) {
        tally.fault(name, tells(wrong));
    }
    let mut each = replies.iter();
    let told = each.any(|(range, reply)| not_reversed(stretch.size, records, notion, *range) != *reply);
    tally.fault(NOT_REVERSED, told);
    // Or the faults would be told by something else than what is wrong with them.
    if tells(&RIGHT) {
        tally.differs(|| format!("RangeCheck notion {notion} size {}: a right walk differs", stretch.size));
    }
}

/// On a verdict that looks at these sizes, which rise.
pub fn verdict(tally: &mut Tally, sizes: &[Stretch], records: &[Record], notion: usize, reply: &Reply) {
    for (name, walk, taken_over) in &VERDICTS {
        let mut before = Kept::default();
        let found = sizes.iter().find_map(|stretch| {
            let last = stretch.sets.last().map(|set| (RIGHT.first)(records, set));
            let taken = std::mem::replace(&mut before, taken_over(last.unwrap_or_default()));
            walk.find(stretch, records, notion, [0, stretch.sets.len()], taken)
        });
        tally.fault(name, found_by_verdict(found.map(|found| found.set)) != *reply);
    }
}

impl Walk {
    fn range_check(&self, stretch: &Stretch, records: &[Record], notion: usize, range: [u64; 2]) -> Reply {
        let found = self.find(stretch, records, notion, stretch.places(range), Kept::default());
        found_by_range(stretch.size, found)
    }

    /// The first set of a range that seems to break, where something may have been kept before the walk.
    fn find(
        &self,
        stretch: &Stretch,
        records: &[Record],
        notion: usize,
        range: [usize; 2],
        before: Kept,
    ) -> Option<Found> {
        let [from, to] = (self.visits)(range, stretch.sets.len());
        if from >= to {
            return None;
        }
        let mut kept = [together(before, (self.first)(records, &stretch.sets[from])); 2];
        for place in from..to {
            if place > from {
                let wires = stretch.steps[place - 1].map(|wire| records[usize::from(wire)]);
                kept = [kept[1], (self.step)(kept[1], wires)];
            }
            if breaks_by((self.judged_by)(kept), stretch.size, notion) && (self.looks)(stretch, [from, place]) {
                return Some((self.shown)(stretch, [from, place]));
            }
        }
        None
    }
}

fn breaks_by(Kept { sum, inner }: Kept, size: usize, notion: usize) -> bool {
    let allowed = if notion == NI { size } else { inner };
    sum.masks == 0 && exceeding(sum, allowed) != [false, false]
}

fn together(one: Kept, other: Kept) -> Kept {
    Kept {
        sum: one.sum.plus(other.sum),
        inner: one.inner + other.inner,
    }
}

pub fn sum_after(kept: Kept, [leaves, enters]: [Record; 2]) -> Record {
    kept.sum.plus(leaves).plus(enters)
}

pub fn inner_after(kept: Kept, [leaves, enters]: [Record; 2]) -> usize {
    // What a wrong walk has counted may be too little.
    (kept.inner + usize::from(!enters.is_outer())).saturating_sub(usize::from(!leaves.is_outer()))
}

pub fn at(stretch: &Stretch, place: usize) -> Found {
    Found {
        rank: stretch.start + place as u64,
        set: stretch.sets[place].clone(),
    }
}

fn not_reversed(size: usize, records: &[Record], notion: usize, [from, to]: [u64; 2]) -> Reply {
    let found = (from..to).find_map(|rank| {
        let set = set_not_reversed(records.len(), size, rank);
        breaks(records, &set, notion).then_some(Found { rank, set })
    });
    found_by_range(size, found)
}
