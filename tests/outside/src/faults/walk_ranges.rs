//! Walks that visit other sets than those of the range, or show another set or rank than that which they find.

use super::walks::{at, Walk, RIGHT};
use crate::model::breaking::Found;
use crate::model::stretch::Stretch;

pub const RANGES: [(&str, Walk); 16] = [
    (
        "a walk starts one rank late",
        Walk {
            visits: |[from, to], _| [from + 1, to],
            ..RIGHT
        },
    ),
    (
        "a walk starts one rank early",
        Walk {
            visits: |[from, to], _| [from.saturating_sub(1), to],
            ..RIGHT
        },
    ),
    (
        "a walk starts at the first set always",
        Walk {
            visits: |[_, to], _| [0, to],
            ..RIGHT
        },
    ),
    (
        "a walk ends one rank early",
        Walk {
            visits: |[from, to], _| [from, to.saturating_sub(1)],
            ..RIGHT
        },
    ),
    (
        "a walk ends one rank late",
        Walk {
            visits: |[from, to], sets| [from, sets.min(to + 1)],
            ..RIGHT
        },
    ),
    (
        "a walk ends at the last set always",
        Walk {
            visits: |[from, _], sets| [from, sets],
            ..RIGHT
        },
    ),
    (
        "a walk looks at a set though its range is empty",
        Walk {
            visits: |[from, to], sets| [from, sets.min(to.max(from + 1))],
            ..RIGHT
        },
    ),
    (
        "a walk looks at its first set alone",
        Walk {
            visits: |[from, to], _| [from, to.min(from + 1)],
            ..RIGHT
        },
    ),
    (
        "a walk gives up after 1,000 sets",
        Walk {
            visits: |[from, to], _| [from, to.min(from + 1_000)],
            ..RIGHT
        },
    ),
    (
        "a walk passes over the first set of a new highest wire",
        Walk {
            looks: |stretch, [from, place]| place == from || !is_seam(stretch, place),
            ..RIGHT
        },
    ),
    (
        "a walk passes over the last set before a new highest wire",
        Walk {
            looks: |stretch, [_, place]| !is_seam(stretch, place + 1),
            ..RIGHT
        },
    ),
    (
        "a walk ends where the highest wire changes",
        Walk {
            looks: |stretch, [from, place]| stretch.highest(from) == stretch.highest(place),
            ..RIGHT
        },
    ),
    (
        "a walk shows the set after the one that it finds",
        Walk {
            shown: |stretch, [_, place]| Found {
                set: at(stretch, (place + 1).min(stretch.sets.len() - 1)).set,
                ..at(stretch, place)
            },
            ..RIGHT
        },
    ),
    (
        "a walk counts the rank from its own start",
        Walk {
            shown: |stretch, [from, place]| Found {
                rank: (place - from) as u64,
                ..at(stretch, place)
            },
            ..RIGHT
        },
    ),
    (
        "a walk cuts the rank to 32 bits",
        Walk {
            shown: |stretch, [_, place]| Found {
                rank: at(stretch, place).rank % (1 << 32),
                ..at(stretch, place)
            },
            ..RIGHT
        },
    ),
    (
        "a walk cuts a wire's number to 8 bits",
        Walk {
            shown: |stretch, [_, place]| Found {
                set: stretch.sets[place].iter().map(|wire| wire % 256).collect(),
                ..at(stretch, place)
            },
            ..RIGHT
        },
    ),
];

/// Whether the highest wire is another than that of the set before.
fn is_seam(stretch: &Stretch, place: usize) -> bool {
    (1..stretch.sets.len()).contains(&place) && stretch.highest(place) != stretch.highest(place - 1)
}
