//! Wrong notes on how many shares a breaking set depends, and how many are allowed.

use crate::model::breaking::{NI, SNI};
use crate::model::notes::{allowed, counts, dependence, Way, RIGHT};

pub const COUNTS: [(&str, Way); 9] = [
    (
        "a note has the counts of a and b exchanged",
        Way {
            counts: |sum| {
                let [of_a, of_b] = counts(sum);
                [of_b, of_a]
            },
            ..RIGHT
        },
    ),
    (
        "a note has the counts of a and b added",
        Way {
            counts: |sum| [counts(sum).iter().sum(); 2],
            ..RIGHT
        },
    ),
    (
        "a note has single shares counted and no products",
        Way {
            counts: |sum| [sum.a, sum.b].map(|shares| shares.count_ones() as usize),
            ..RIGHT
        },
    ),
    (
        "a note counts a share once more for each product",
        Way {
            counts: |sum| [sum.a, sum.b].map(|shares| (shares.count_ones() + sum.products.count_ones()) as usize),
            ..RIGHT
        },
    ),
    (
        "a note has a set's wires allowed under SNI",
        Way {
            allowed: |wires, set, _| allowed(wires, set, NI),
            ..RIGHT
        },
    ),
    (
        "a note has a set's inner wires allowed under NI",
        Way {
            allowed: |wires, set, _| allowed(wires, set, SNI),
            ..RIGHT
        },
    ),
    (
        "a note has one share allowed always",
        Way {
            allowed: |_, _, _| 1,
            ..RIGHT
        },
    ),
    (
        "a note does not say on how many shares a set depends",
        Way {
            dependence: |_, _| String::new(),
            ..RIGHT
        },
    ),
    (
        "a note says nothing of an operand that does not leak",
        Way {
            dependence: leaking_alone,
            ..RIGHT
        },
    ),
];

fn leaking_alone([of_a, of_b]: [usize; 2], allowed: usize) -> String {
    match [of_a, of_b].map(|count| count > allowed) {
        [true, false] => format!("    depends on {of_a} of a's shares, {allowed} of each allowed\n"),
        [false, true] => format!("    depends on {of_b} of b's shares, {allowed} of each allowed\n"),
        _ => dependence([of_a, of_b], allowed),
    }
}
