//! Pools that take reports which are a 25, or do not take such as are none.

use crate::model::pool::{is_breaking, is_sound, Asked, Filed, Pool, CLEAN, FILED_REPORT_BYTES, RIGHT};
use crate::model::sets::MAX_SIZE;

pub const REPORTS: [(&str, Pool); 23] = [
    (
        "a pool drops the rest of a list that is no whole report",
        Pool {
            is_whole: |_| true,
            ..RIGHT
        },
    ),
    (
        "a pool refuses a list of no reports",
        Pool {
            is_whole: |length| length != 0 && length % FILED_REPORT_BYTES == 0,
            ..RIGHT
        },
    ),
    (
        "a pool reads numbers big-endian",
        Pool {
            number: u64::from_be_bytes,
            ..RIGHT
        },
    ),
    (
        "a pool reads 32 bits of a number",
        Pool {
            number: |bytes| match u64::from_le_bytes(bytes) {
                CLEAN => CLEAN,
                number => number % (1 << 32),
            },
            ..RIGHT
        },
    ),
    (
        "a pool takes reports of another notion",
        Pool {
            is_sound: |asked, report| {
                let notion = asked.notion as u8;
                is_sound(asked, &Filed { notion, ..*report })
            },
            ..RIGHT
        },
    ),
    (
        "a pool does not look at the filling",
        Pool {
            is_sound: |asked, report| with_filling(asked, report, [0; 6]),
            ..RIGHT
        },
    ),
    (
        "a pool looks at the first filling byte alone",
        Pool {
            is_sound: |asked, report| with_filling(asked, report, [report.filling[0], 0, 0, 0, 0, 0]),
            ..RIGHT
        },
    ),
    (
        "a pool takes 1 as the first filling byte, as of a check under way",
        Pool {
            is_sound: |asked, report| {
                let [first, rest @ ..] = report.filling;
                is_sound(asked, report) || first == 1 && rest == [0; 5] && with_filling(asked, report, [0; 6])
            },
            ..RIGHT
        },
    ),
    (
        "a pool adds up the filling without carry",
        Pool {
            is_sound: |asked, report| {
                let sum = report.filling.iter().fold(0, |sum, byte| sum ^ byte);
                with_filling(asked, report, [sum, 0, 0, 0, 0, 0])
            },
            ..RIGHT
        },
    ),
    (
        "a pool takes sizes above the order",
        Pool {
            is_sound: |asked, report| {
                let order = MAX_SIZE;
                is_sound(&Asked { order, ..*asked }, report)
            },
            ..RIGHT
        },
    ),
    (
        "a pool takes size 0",
        Pool {
            is_sound: |asked, report| match report.size {
                0 => is_sound(asked, &Filed { size: 1, ..*report }),
                _ => is_sound(asked, report),
            },
            breaks: |asked, (size, rank)| size > 0 && is_breaking(asked, (size, rank)),
            ..RIGHT
        },
    ),
    (
        "a pool takes bounds above the number of sets",
        Pool {
            is_sound: |asked, report| {
                let most = sets(asked, report);
                let [from, to] = [report.from.min(most), report.to.min(most)];
                report.from <= report.to && is_sound(asked, &Filed { from, to, ..*report })
            },
            ..RIGHT
        },
    ),
    (
        "a pool takes an upper bound of one more than the sets",
        Pool {
            is_sound: |asked, report| {
                let to = report.to.min(sets(asked, report));
                is_sound(asked, report) || report.to == to + 1 && is_sound(asked, &Filed { to, ..*report })
            },
            ..RIGHT
        },
    ),
    (
        "a pool does not take an upper bound that is the number of sets",
        Pool {
            is_sound: |asked, report| is_sound(asked, report) && report.to < sets(asked, report),
            ..RIGHT
        },
    ),
    (
        "a pool takes falling bounds",
        Pool {
            is_sound: |asked, report| {
                let from = report.from.min(report.to);
                report.from <= sets(asked, report) && is_sound(asked, &Filed { from, ..*report })
            },
            ..RIGHT
        },
    ),
    (
        "a pool refuses empty ranges",
        Pool {
            is_sound: |asked, report| is_sound(asked, report) && report.from < report.to,
            ..RIGHT
        },
    ),
    (
        "a pool takes a found rank at the upper bound",
        Pool {
            is_sound: |asked, report| match report.found == report.to {
                true => is_sound(
                    asked,
                    &Filed {
                        found: CLEAN,
                        ..*report
                    },
                ),
                false => is_sound(asked, report),
            },
            ..RIGHT
        },
    ),
    (
        "a pool takes a found rank below the lower bound",
        Pool {
            is_sound: |asked, report| match report.found < report.from {
                true => is_sound(
                    asked,
                    &Filed {
                        found: CLEAN,
                        ..*report
                    },
                ),
                false => is_sound(asked, report),
            },
            ..RIGHT
        },
    ),
    (
        "a pool does not take a found rank at the lower bound",
        Pool {
            is_sound: |asked, report| is_sound(asked, report) && report.found != report.from,
            ..RIGHT
        },
    ),
    (
        "a pool takes all ones for a found rank",
        Pool {
            is_sound: |asked, report| is_sound(asked, report) && report.found != CLEAN,
            ..RIGHT
        },
    ),
    (
        "a pool takes any found rank with the highest bit for clean",
        Pool {
            is_sound: |asked, report| match report.found >> 63 {
                1 => is_sound(
                    asked,
                    &Filed {
                        found: CLEAN,
                        ..*report
                    },
                ),
                _ => is_sound(asked, report),
            },
            has_found: |report| report.found >> 63 == 0,
            ..RIGHT
        },
    ),
    (
        "a pool takes a found rank outside the bounds for clean",
        Pool {
            is_sound: |asked, report| {
                is_sound(
                    asked,
                    &Filed {
                        found: CLEAN,
                        ..*report
                    },
                )
            },
            has_found: |report| (report.from..report.to).contains(&report.found),
            ..RIGHT
        },
    ),
    (
        "a pool takes a found rank of 0 for clean",
        Pool {
            has_found: |report| report.found != CLEAN && report.found != 0,
            ..RIGHT
        },
    ),
];

/// The number of sets of a report's size, none of a size that is out of range.
fn sets(asked: &Asked, report: &Filed) -> u64 {
    match usize::from(report.size) {
        size @ 0..=MAX_SIZE => asked.sets(size),
        _ => 0,
    }
}

fn with_filling(asked: &Asked, report: &Filed, filling: [u8; 6]) -> bool {
    is_sound(asked, &Filed { filling, ..*report })
}
