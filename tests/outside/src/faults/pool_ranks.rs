//! Pools that take covered ranks for uncovered, or the other way round. Each is told a size's ranges and how many sets
//! it has.

use crate::model::pool::{gap, Pool, RIGHT};

pub const RANKS: [(&str, Pool); 14] = [
    (
        "a pool holds where nothing is found",
        Pool {
            gap: |_, _| None,
            ..RIGHT
        },
    ),
    (
        "a pool does not see ranks uncovered after the last report",
        Pool {
            gap: |ranges, _| gap(ranges, ends(ranges)[1]),
            ..RIGHT
        },
    ),
    (
        "a pool does not see ranks uncovered before the first report",
        Pool {
            gap: |ranges, sets| gap(&with(ranges, [0, ends(ranges)[0]]), sets),
            ..RIGHT
        },
    ),
    (
        "a pool does not see ranks uncovered between two reports",
        Pool {
            gap: |ranges, sets| gap(&with(&[], ends(ranges)), sets),
            ..RIGHT
        },
    ),
    (
        "a pool does not ask for the last rank of a size",
        Pool {
            gap: |ranges, sets| gap(&within(ranges, sets.saturating_sub(1)), sets.saturating_sub(1)),
            ..RIGHT
        },
    ),
    (
        "a pool does not ask for rank 0",
        Pool {
            gap: |ranges, sets| gap(&with(ranges, [0, sets.min(1)]), sets),
            ..RIGHT
        },
    ),
    (
        "a pool takes a report's upper bound for covered",
        Pool {
            gap: |ranges, sets| gap(&within(&moved(ranges, [0, 1]), sets), sets),
            ..RIGHT
        },
    ),
    (
        "a pool takes a report's last rank for uncovered",
        Pool {
            gap: |ranges, sets| gap(&moved(ranges, [0, u64::MAX]), sets),
            ..RIGHT
        },
    ),
    (
        "a pool takes a report's first rank for uncovered",
        Pool {
            gap: |ranges, sets| gap(&moved(ranges, [1, 0]), sets),
            ..RIGHT
        },
    ),
    (
        "a pool goes through the list once, whatever its order",
        Pool {
            gap: |ranges, sets| below(passes_over(ranges, 1), sets),
            ..RIGHT
        },
    ),
    (
        "a pool goes through the list twice, whatever its order",
        Pool {
            gap: |ranges, sets| below(passes_over(ranges, 2), sets),
            ..RIGHT
        },
    ),
    (
        "a pool goes back where a report ends before the one that it overlaps",
        Pool {
            gap: |ranges, sets| below(last_bound(ranges), sets),
            ..RIGHT
        },
    ),
    (
        "a pool adds up how many ranks are covered",
        Pool {
            gap: |ranges, sets| below(ranges.iter().map(|[from, to]| to - from).sum(), sets),
            ..RIGHT
        },
    ),
    (
        "a pool tells the rank before the first that is uncovered",
        Pool {
            gap: |ranges, sets| gap(ranges, sets).map(|rank| rank.saturating_sub(1)),
            ..RIGHT
        },
    ),
];

/// The least lower bound and the greatest upper one.
fn ends(ranges: &[[u64; 2]]) -> [u64; 2] {
    let least = ranges.iter().map(|[from, _]| *from).min();
    let greatest = ranges.iter().map(|[_, to]| *to).max();
    [least.unwrap_or(0), greatest.unwrap_or(0)]
}

/// The ranges and one more, unless it is empty.
fn with(ranges: &[[u64; 2]], [from, to]: [u64; 2]) -> Vec<[u64; 2]> {
    let mut ranges = ranges.to_vec();
    ranges.extend((from < to).then_some([from, to]));
    ranges
}

fn within(ranges: &[[u64; 2]], most: u64) -> Vec<[u64; 2]> {
    let cut = ranges.iter().map(|[from, to]| [*from, (*to).min(most)]);
    cut.filter(|[from, to]| from < to).collect()
}

/// The bounds with so much added, without carry out of 64 bits; ranges that are then empty are left out.
fn moved(ranges: &[[u64; 2]], [more, further]: [u64; 2]) -> Vec<[u64; 2]> {
    let moved = ranges.iter();
    let moved = moved.map(|[from, to]| [from.wrapping_add(more), to.wrapping_add(further)]);
    moved.filter(|[from, to]| from < to).collect()
}

/// How far one comes from rank 0 when the list is gone through so many times.
fn passes_over(ranges: &[[u64; 2]], times: usize) -> u64 {
    let pass = |reached, _| {
        ranges
            .iter()
            .fold(reached, |reached: u64, [from, to]| match *from <= reached {
                true => reached.max(*to),
                false => reached,
            })
    };
    (0..times).fold(0, pass)
}

/// How far one comes by sorted ranges, where each next one that begins within the last is where one is.
fn last_bound(ranges: &[[u64; 2]]) -> u64 {
    let mut sorted = ranges.to_vec();
    sorted.sort_unstable();
    sorted.iter().fold(0, |reached, [from, to]| match *from <= reached {
        true => *to,
        false => reached,
    })
}

fn below(rank: u64, sets: u64) -> Option<u64> {
    (rank < sets).then_some(rank)
}
