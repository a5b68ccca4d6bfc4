//! Walks that keep a wrong sum, or a wrong number of inner wires, from set to set.

use super::walks::{inner_after, sum_after, Kept, Walk, RIGHT};
use crate::model::breaking::sum;
use crate::model::records::Record;

pub const SUMS: [(&str, Walk); 15] = [
    (
        "a walk takes no wire that leaves from the sum",
        Walk {
            step: |kept, wires| Kept {
                sum: kept.sum.plus(wires[1]),
                inner: inner_after(kept, wires),
            },
            ..RIGHT
        },
    ),
    (
        "a walk adds no wire that enters to the sum",
        Walk {
            step: |kept, wires| Kept {
                sum: kept.sum.plus(wires[0]),
                inner: inner_after(kept, wires),
            },
            ..RIGHT
        },
    ),
    (
        "a walk keeps the sum of its first set",
        Walk {
            step: |kept, wires| Kept {
                inner: inner_after(kept, wires),
                ..kept
            },
            ..RIGHT
        },
    ),
    (
        "a walk keeps the masks of its first set",
        Walk {
            step: |kept, wires| {
                with_sum(kept, wires, |sum| Record {
                    masks: kept.sum.masks,
                    ..sum
                })
            },
            ..RIGHT
        },
    ),
    (
        "a walk keeps the products of its first set",
        Walk {
            step: |kept, wires| {
                with_sum(kept, wires, |sum| Record {
                    products: kept.sum.products,
                    ..sum
                })
            },
            ..RIGHT
        },
    ),
    (
        "a walk keeps the shares of a of its first set",
        Walk {
            step: |kept, wires| with_sum(kept, wires, |sum| Record { a: kept.sum.a, ..sum }),
            ..RIGHT
        },
    ),
    (
        "a walk keeps the shares of b of its first set",
        Walk {
            step: |kept, wires| with_sum(kept, wires, |sum| Record { b: kept.sum.b, ..sum }),
            ..RIGHT
        },
    ),
    (
        "a walk keeps the inner wires of its first set",
        Walk {
            step: |kept, wires| Kept {
                sum: sum_after(kept, wires),
                ..kept
            },
            ..RIGHT
        },
    ),
    (
        "a walk still counts an inner wire that leaves",
        Walk {
            step: |kept, wires| Kept {
                sum: sum_after(kept, wires),
                inner: kept.inner + usize::from(!wires[1].is_outer()),
            },
            ..RIGHT
        },
    ),
    (
        "a walk counts no inner wire that enters",
        Walk {
            step: |kept, wires| Kept {
                sum: sum_after(kept, wires),
                inner: kept.inner.saturating_sub(usize::from(!wires[0].is_outer())),
            },
            ..RIGHT
        },
    ),
    (
        "a walk starts with an empty sum",
        Walk {
            first: |records, set| Kept {
                sum: Record::default(),
                ..(RIGHT.first)(records, set)
            },
            ..RIGHT
        },
    ),
    (
        "a walk starts without the highest wire of its first set",
        Walk {
            first: |records, set| Kept {
                sum: sum(records, &set[..set.len().saturating_sub(1)]),
                ..(RIGHT.first)(records, set)
            },
            ..RIGHT
        },
    ),
    (
        "a walk takes all wires of its first set for inner ones",
        Walk {
            first: |records, set| Kept {
                inner: set.len(),
                ..(RIGHT.first)(records, set)
            },
            ..RIGHT
        },
    ),
    (
        "a walk judges a set by the sum of the one before",
        Walk {
            judged_by: |[before, here]| Kept {
                sum: before.sum,
                ..here
            },
            ..RIGHT
        },
    ),
    (
        "a walk judges a set by the inner wires of the one before",
        Walk {
            judged_by: |[before, here]| Kept {
                inner: before.inner,
                ..here
            },
            ..RIGHT
        },
    ),
];

/// The right step, but for the sum.
fn with_sum(kept: Kept, wires: [Record; 2], wrong: impl Fn(Record) -> Record) -> Kept {
    Kept {
        sum: wrong(sum_after(kept, wires)),
        inner: inner_after(kept, wires),
    }
}
