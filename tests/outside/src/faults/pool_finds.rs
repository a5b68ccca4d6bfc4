//! Pools that check what was found wrongly, or tell another refusal than the first.

use crate::model::breaking::NI;
use crate::model::pool::{is_breaking, refusal, Asked, Filed, Pool, RIGHT};

pub const FINDS: [(&str, Pool); 7] = [
    (
        "a pool does not check again what was found",
        Pool {
            breaks: |_, _| true,
            ..RIGHT
        },
    ),
    (
        "a pool checks again by NI alone",
        Pool {
            breaks: |asked, place| is_breaking(&Asked { notion: NI, ..*asked }, place),
            ..RIGHT
        },
    ),
    (
        "a pool checks again what it shows alone",
        Pool {
            refusal: |pool, asked, reports| match refusal(pool, asked, reports) {
                26 if pool
                    .found(reports)
                    .iter()
                    .min()
                    .is_some_and(|least| is_breaking(asked, *least)) =>
                {
                    0
                }
                right => right,
            },
            ..RIGHT
        },
    ),
    (
        "a pool refuses a find that is not the first of its ranks",
        Pool {
            refusal: |pool, asked, reports| {
                let is_later = |report: &Filed| {
                    let before = report.from..report.found.min(report.to);
                    let size = usize::from(report.size);
                    (pool.has_found)(report) && before.into_iter().any(|rank| is_breaking(asked, (size, rank)))
                };
                match refusal(pool, asked, reports) {
                    0 if reports.iter().any(is_later) => 26,
                    right => right,
                }
            },
            ..RIGHT
        },
    ),
    (
        "a pool tells 26 of a report before 25 of a later one",
        Pool {
            refusal: |pool, asked, reports| {
                let alone = |report: &Filed| refusal(pool, asked, &[*report]);
                reports.iter().map(alone).find(|refusal| *refusal != 0).unwrap_or(0)
            },
            ..RIGHT
        },
    ),
    (
        "a pool tells 26 before 25",
        Pool {
            refusal: |pool, asked, reports| {
                let alone = |report: &Filed| refusal(pool, asked, &[*report]);
                reports.iter().map(alone).max().unwrap_or(0)
            },
            ..RIGHT
        },
    ),
    (
        "a pool refuses reports that overlap",
        Pool {
            refusal: |pool, asked, reports| match refusal(pool, asked, reports) {
                0 if any_overlap(reports) => 25,
                right => right,
            },
            ..RIGHT
        },
    ),
];

fn any_overlap(reports: &[Filed]) -> bool {
    let overlap = |one: &Filed, other: &Filed| one.size == other.size && one.from < other.to && other.from < one.to;
    let pairs = reports.iter().enumerate();
    pairs
        .into_iter()
        .any(|(place, one)| reports[..place].iter().any(|other| overlap(one, other)))
}
