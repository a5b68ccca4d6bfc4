//! Wrong notes on sums, that of the output lines and that of a breaking set, and notes in a wrong order.

use crate::model::functions::{own_sum, sum_of_outputs, COPY, PRODUCT, SUM};
use crate::model::notes::{Notes, Way, RIGHT};
use crate::model::records::{Record, MAX_SHARES};
use crate::model::symbols::names;

pub const SUMS: [(&str, Way); 25] = [
    (
        "a note compares with another function than it says",
        Way {
            own: |shares, function| own_sum(shares, function % COPY + 1),
            ..RIGHT
        },
    ),
    (
        "a note compares with a sum where no share of b is named",
        Way {
            target: |sum| if sum.products != 0 { PRODUCT } else { SUM },
            ..RIGHT
        },
    ),
    (
        "a note compares with a copy where shares of b are named",
        Way {
            target: |sum| if sum.products != 0 { PRODUCT } else { COPY },
            ..RIGHT
        },
    ),
    (
        "a note compares an empty sum with the product",
        Way {
            target: product_for_none,
            ..RIGHT
        },
    ),
    (
        "a note compares with a function of eight shares",
        Way {
            own: |_, function| own_sum(MAX_SHARES, function),
            ..RIGHT
        },
    ),
    (
        "a note tells no symbols that are missing",
        Way {
            difference: |sum, own| sum.plus(sum.common(own)),
            ..RIGHT
        },
    ),
    (
        "a note tells no symbols that are left over",
        Way {
            difference: |sum, own| own.plus(sum.common(own)),
            ..RIGHT
        },
    ),
    (
        "a note tells no masks that are left over",
        Way {
            difference: |sum, own| without_masks(sum.plus(own)),
            ..RIGHT
        },
    ),
    (
        "a note tells all that the output lines add up to",
        Way {
            difference: |sum, _| sum,
            ..RIGHT
        },
    ),
    (
        "a note adds up all wires, not the outer ones",
        Way {
            outputs: |wires| add_up(wires.iter().copied()),
            ..RIGHT
        },
    ),
    (
        "a note adds up no output line but the last",
        Way {
            outputs: |wires| add_up(wires.last().copied()),
            ..RIGHT
        },
    ),
    (
        "a note tells what cancels out in the output lines",
        Way {
            outputs: outputs_by_union,
            ..RIGHT
        },
    ),
    (
        "a note adds up no wire of a set but the first",
        Way {
            together: |wires, set| wires[set[0]],
            ..RIGHT
        },
    ),
    (
        "a note adds up no outer wires of a set",
        Way {
            together: |wires, set| add_up(of_set(wires, set).filter(|wire| !wire.is_outer())),
            ..RIGHT
        },
    ),
    (
        "a note tells what cancels out in a set",
        Way {
            together: |wires, set| without_masks(of_set(wires, set).fold(Record::default(), union)),
            ..RIGHT
        },
    ),
    (
        "a note has symbols falling",
        Way {
            names: |sum| names(sum).into_iter().rev().collect(),
            ..RIGHT
        },
    ),
    (
        "a note has shares before products",
        Way {
            names: |sum| {
                let [products, of_a, of_b, masks] = groups(sum);
                [of_a, of_b, products, masks].concat()
            },
            ..RIGHT
        },
    ),
    (
        "a note has shares of b before those of a",
        Way {
            names: |sum| {
                let [products, of_a, of_b, masks] = groups(sum);
                [products, of_b, of_a, masks].concat()
            },
            ..RIGHT
        },
    ),
    (
        "a note has products by the share of b first",
        Way {
            names: |sum| {
                let [mut products, of_a, of_b, masks] = groups(sum);
                products.sort_by_key(|name| name.as_bytes()[2]);
                [products, of_a, of_b, masks].concat()
            },
            ..RIGHT
        },
    ),
    (
        "a note has masks as in a dictionary",
        Way {
            names: |sum| {
                let [products, of_a, of_b, mut masks] = groups(sum);
                masks.sort();
                [products, of_a, of_b, masks].concat()
            },
            ..RIGHT
        },
    ),
    (
        "a note names masks by one digit",
        Way {
            names: |sum| {
                let [products, of_a, of_b, mut masks] = groups(sum);
                masks.iter_mut().for_each(|name| name.truncate(2));
                [products, of_a, of_b, masks].concat()
            },
            ..RIGHT
        },
    ),
    (
        "a note on the function after that on length",
        Way {
            arranged: |[function, length, after]| Notes {
                before: [length, function].concat(),
                after,
            },
            ..RIGHT
        },
    ),
    (
        "a note on the function always before the report",
        Way {
            arranged: |[function, length, after]| Notes {
                before: [function, length].concat(),
                after,
            },
            ..RIGHT
        },
    ),
    (
        "a note on the function always after the report",
        Way {
            arranged: |[function, length, after]| Notes {
                before: length,
                after: [function, after].concat(),
            },
            ..RIGHT
        },
    ),
    (
        "all notes after the report",
        Way {
            arranged: |notes| Notes {
                before: Vec::new(),
                after: notes.concat(),
            },
            ..RIGHT
        },
    ),
];

fn product_for_none(sum: Record) -> usize {
    match sum == Record::default() {
        true => PRODUCT,
        false => (RIGHT.target)(sum),
    }
}

fn without_masks(sum: Record) -> Record {
    Record { masks: 0, ..sum }
}

fn add_up(wires: impl IntoIterator<Item = Record>) -> Record {
    wires.into_iter().fold(Record::default(), Record::plus)
}

fn of_set<'a>(wires: &'a [Record], set: &'a [usize]) -> impl Iterator<Item = Record> + 'a {
    set.iter().map(|wire| wires[*wire])
}

fn union(one: Record, other: Record) -> Record {
    one.plus(other).plus(one.common(other))
}

/// Masks are left out of it: what has to be noticed is that products or shares cancel out.
fn outputs_by_union(wires: &[Record]) -> Record {
    let outer = wires.iter().copied().filter(|wire| wire.is_outer());
    Record {
        masks: sum_of_outputs(wires).masks,
        ..outer.fold(Record::default(), union)
    }
}

/// The names of products, of shares of a, of shares of b, and of masks.
fn groups(sum: Record) -> [Vec<String>; 4] {
    ["s", "a", "b", "r"].map(|kind| {
        let names = names(sum).into_iter();
        names.filter(|name| name.starts_with(kind)).collect()
    })
}
