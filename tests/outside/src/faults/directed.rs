//! Wrong directed searches: such as go from a wire on only with wires that carry a mask of the sum so far, so that sets
//! that can be cut into two parts without masks are not looked at. Each is wrong in one thing, and some verdict has to
//! tell it.

use crate::model::breaking::{allowed, shares_of_a, shares_of_b, sum};
use crate::model::directed::{Directed, Ends, RIGHT};
use crate::model::found_by_verdict;
use crate::model::records::Record;
use crate::reply::Reply;
use crate::tally::Tally;

const WRONG: [(&str, Directed); 15] = [
    (
        "a directed verdict shows the first set found, not the least",
        Directed {
            ends: Ends::WithASet,
            ..RIGHT
        },
    ),
    (
        "a directed verdict shows the least set of the first wire that has one",
        Directed {
            ends: Ends::WithItsStart,
            ..RIGHT
        },
    ),
    (
        "a directed verdict shows the first set of a dictionary",
        Directed {
            rank: |set| set.iter().fold(0, |rank, wire| rank << 9 | u64::from(*wire)),
            ..RIGHT
        },
    ),
    (
        "a directed verdict misses the sets of two wires",
        Directed {
            sizes: |order| (1..=order).filter(|size| *size != 2).collect(),
            ..RIGHT
        },
    ),
    (
        "a directed verdict misses single wires",
        Directed {
            sizes: |order| (2..=order).collect(),
            ..RIGHT
        },
    ),
    (
        "a directed verdict misses the sets of as many wires as the order",
        Directed {
            sizes: |order| (1..order).collect(),
            ..RIGHT
        },
    ),
    (
        "a directed verdict does not search the sizes one after the other",
        Directed {
            sizes: |order| vec![order],
            judges: |wires, size| wires <= size,
            ends: Ends::WithASet,
            ..RIGHT
        },
    ),
    (
        "a directed verdict takes equal wires for one",
        Directed {
            takes: |records, wire| {
                let plain = |record: &Record| Record::default().plus(*record);
                let wire = usize::from(wire);
                let mut before = records[..wire].iter();
                before.all(|record| plain(record) != plain(&records[wire]))
            },
            ..RIGHT
        },
    ),
    (
        "a directed verdict starts at inner wires alone",
        Directed {
            starts: |records, wire| !records[usize::from(wire)].is_outer(),
            ..RIGHT
        },
    ),
    (
        "a directed verdict goes on by the masks of its first wire",
        Directed {
            chosen_from: |records, set, _| records[usize::from(set[0])].masks,
            ..RIGHT
        },
    ),
    (
        "a directed verdict goes on by the masks of its last wire",
        Directed {
            chosen_from: |records, set, _| records[usize::from(set[set.len() - 1])].masks,
            ..RIGHT
        },
    ),
    (
        "a directed verdict goes on by the lower 32 masks",
        Directed {
            chosen_from: |_, _, sum| sum.masks & u64::from(u32::MAX),
            ..RIGHT
        },
    ),
    (
        "a directed verdict gives up where few shares are seen so far",
        Directed {
            goes_on: |records, set, notion| {
                let sum = sum(records, set);
                shares_of_a(sum).max(shares_of_b(sum)) >= allowed(records, set, notion)
            },
            ..RIGHT
        },
    ),
    (
        "a directed verdict goes on with higher wires alone",
        Directed {
            goes_to: |set, wire| set[set.len() - 1] < wire,
            ..RIGHT
        },
    ),
    (
        "a directed verdict never comes back to a wire that it tried",
        Directed { frees: false, ..RIGHT },
    ),
];

pub fn name_all(tally: &mut Tally) {
    WRONG.iter().for_each(|(name, _)| tally.expect_fault(name));
}

/// On a verdict that the engine gave.
pub fn verdict(tally: &mut Tally, records: &[Record], notion: usize, order: usize, engine: &Reply) {
    let found_by = |how: &Directed| {
        let Ok(found) = how.first(records, notion, order, u64::MAX) else {
            unreachable!("any number may be searched")
        };
        found_by_verdict(found)
    };
    for (name, wrong) in &WRONG {
        tally.fault(name, found_by(wrong) != *engine);
    }
    // Or the faults would be told by something else than what is wrong with them; and the model's reports go by it where
    // the sets are too many.
    if found_by(&RIGHT) != *engine {
        tally.differs(|| format!("DirectedVerdict notion {notion} order {order}: the model's directed search differs"));
    }
}
