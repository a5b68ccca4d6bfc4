//! Wrong pools: each is wrong in one thing, and some list of reports has to tell it from the engine. Here are such as
//! show another place or ask for other sizes, and what is written wrongly of a right answer.

use super::pool_finds::FINDS;
use super::pool_ranks::RANKS;
use super::pool_reports::REPORTS;
use crate::model::pool::{Asked, Pool, BROKEN, HOLDS, RIGHT};
use crate::model::sets::MAX_SIZE;
use crate::reply::Reply;
use crate::tally::Tally;

const SHOWN: [(&str, Pool); 6] = [
    (
        "a pool shows the first find of the list",
        Pool {
            shown: |found| found.first().copied(),
            ..RIGHT
        },
    ),
    (
        "a pool shows the last find of the list",
        Pool {
            shown: |found| found.last().copied(),
            ..RIGHT
        },
    ),
    (
        "a pool shows the first find of the least size, not its lowest rank",
        Pool {
            shown: |found| found.iter().min_by_key(|(size, _)| *size).copied(),
            ..RIGHT
        },
    ),
    (
        "a pool compares ranks before sizes",
        Pool {
            shown: |found| found.iter().min_by_key(|(size, rank)| (*rank, *size)).copied(),
            ..RIGHT
        },
    ),
    (
        "a pool shows the largest size found",
        Pool {
            shown: |found| {
                found
                    .iter()
                    .max_by_key(|(size, rank)| (*size, u64::MAX - rank))
                    .copied()
            },
            ..RIGHT
        },
    ),
    (
        "a pool tells uncovered ranks before a break",
        Pool {
            break_first: false,
            ..RIGHT
        },
    ),
];

const SIZES: [(&str, Pool); 6] = [
    (
        "a pool does not ask for the last size",
        Pool {
            sizes: |order| 1..=order - 1,
            ..RIGHT
        },
    ),
    (
        "a pool does not ask for single wires",
        Pool {
            sizes: |order| 2..=order,
            ..RIGHT
        },
    ),
    (
        "a pool asks for the last size alone",
        Pool {
            sizes: |order| order..=order,
            ..RIGHT
        },
    ),
    (
        "a pool asks for one size more than the order",
        Pool {
            sizes: |order| 1..=MAX_SIZE.min(order + 1),
            ..RIGHT
        },
    ),
    (
        "a pool counts the ranks of one size for another",
        Pool {
            is_of_size: |_, _| true,
            ..RIGHT
        },
    ),
    (
        "a pool counts the ranks of smaller sizes too",
        Pool {
            is_of_size: |report, size| usize::from(report.size) <= size,
            ..RIGHT
        },
    ),
];

const NO_SETS: &str = "a pool takes a size without sets for uncovered";
const NO_REPORTS: &str = "a pool holds where there is no report";

/// From the right reply to a list.
type Shown = fn(Reply) -> Reply;

const REPLIES: [(&str, Shown); 5] = [
    ("a pool that holds writes a size and a rank", |right| {
        match right.numbers[0] {
            Some(HOLDS) => Reply::answered(&[HOLDS, 0, 0], Vec::new()),
            _ => right,
        }
    }),
    ("a pool that is broken writes no rank", |right| match right.numbers {
        [Some(BROKEN), Some(size), ..] => Reply::answered(&[BROKEN, size], Vec::new()),
        _ => right,
    }),
    ("a pool that refuses writes an answer", |mut right| {
        if right.status != 0 {
            right.numbers[0] = Some(0);
        }
        right
    }),
    ("a pool's size and rank exchanged", |mut right| {
        right.numbers.swap(1, 2);
        right
    }),
    ("a pool's answer 1 or 0, as a verdict's", |mut right| {
        right.numbers[0] = right.numbers[0].map(|answer| u64::from(answer == HOLDS));
        right
    }),
];

fn all() -> impl Iterator<Item = &'static (&'static str, Pool)> {
    let lists = REPORTS.iter().chain(&FINDS);
    lists.chain(&SHOWN).chain(&SIZES).chain(&RANKS)
}

pub fn name_all(tally: &mut Tally) {
    all().for_each(|(name, _)| tally.expect_fault(name));
    REPLIES.iter().for_each(|(name, _)| tally.expect_fault(name));
    tally.expect_fault(NO_SETS);
    tally.expect_fault(NO_REPORTS);
}

/// On a list that the model answers so, when table, notion and order are tested.
pub fn pool(tally: &mut Tally, asked: &Asked, right: &Reply, engine: &Reply) {
    for (name, wrong) in all() {
        tally.fault(name, wrong.reply(asked) != *engine);
    }
    for (name, shown) in &REPLIES {
        tally.fault(name, shown(right.clone()) != *engine);
    }
    let holds = Reply::answered(&[HOLDS], Vec::new());
    let has_empty_size = (1..=asked.order).any(|size| asked.sets(size) == 0);
    tally.fault(NO_SETS, has_empty_size && *engine == holds);
    tally.fault(NO_REPORTS, asked.list.is_empty() && *engine != holds);
}
