//! Wrong plans: tables with other lines or figures, and other times.

use super::plan::Spoil;
use crate::model::notes::time;
use crate::model::plan::{figures, in_all, RIGHT, USUAL_RATE};
use crate::model::records::RECORD_BYTES;
use crate::model::sets::{count, MAX_SIZE};
use crate::model::sizes::Size;

const BYTES: &str = "bytes of the table";
const SUM: &str = "sets in all";

pub const TABLES: [(&str, Spoil); 17] = [
    ("a plan has its figures at the left", |plan| {
        plan.line = |name, figure| format!("{name:20}{figure:<20}\n")
    }),
    ("a plan has its names in 21 columns", |plan| {
        plan.line = |name, figure| format!("{name:21}{figure:>20}\n")
    }),
    ("a plan has its figures in 19 columns", |plan| {
        plan.line = |name, figure| format!("{name:20}{figure:>19}\n")
    }),
    ("a plan has no columns", |plan| {
        plan.line = |name, figure| format!("{name} {figure}\n")
    }),
    ("a plan has commas in its figures", |plan| {
        plan.line = |name, figure| format!("{name:20}{:>20}\n", with_commas(figure))
    }),
    ("a plan has its figures in 32 bits", |plan| {
        plan.line = |name, figure| format!("{name:20}{:>20}\n", figure % (1 << 32))
    }),
    ("a plan has the bytes of one wire less", |plan| {
        plan.figures = |size| with_figure(size, BYTES, |bytes| bytes - RECORD_BYTES as u64)
    }),
    ("a plan does not have the bytes", |plan| {
        plan.figures = |size| without(figures(size), |name| name == BYTES)
    }),
    ("a plan has its masks before its shares", |plan| {
        plan.figures = |size| {
            let mut figures = figures(size);
            figures.swap(1, 2);
            figures
        }
    }),
    ("a plan has the sets of size 0", |plan| {
        plan.figures = |size| with_sizes(size, 0..=size.order)
    }),
    ("a plan has the sets of all seven sizes", |plan| {
        plan.figures = |size| with_sizes(size, 1..=MAX_SIZE)
    }),
    ("a plan has the sets of the largest size alone", |plan| {
        plan.figures = |size| with_sizes(size, size.order..=size.order)
    }),
    ("a plan does not have the sum of its sets", |plan| {
        plan.figures = |size| without(figures(size), |name| name == SUM)
    }),
    ("a plan has the sum for both notions", |plan| {
        plan.figures = |size| with_figure(size, SUM, |sets| 2 * sets)
    }),
    ("a plan has the empty set in its sum", |plan| {
        plan.figures = |size| with_figure(size, SUM, |sets| sets + 1)
    }),
    ("a plan does not have the largest size in its sum", |plan| {
        plan.figures = |size| {
            let largest = count(size.wires, size.order);
            with_figure(size, SUM, |sets| sets - largest)
        }
    }),
    ("a plan has no empty line", |plan| {
        plan.whole = |table, last| table + &last
    }),
];

pub const TIMES: [(&str, Spoil); 18] = [
    ("a plan is for one notion", |plan| plan.sets = in_all),
    ("a plan is for the largest size", |plan| {
        plan.sets = |size| 2 * count(size.wires, size.order)
    }),
    ("a plan says the sets of one notion", |plan| {
        plan.last = |sets, time, rate| (RIGHT.last)(sets / 2, time, rate)
    }),
    ("a plan has the time of one notion", |plan| {
        plan.seconds = |sets, rate| sets / 2 / rate
    }),
    ("a plan's time rounded up", |plan| plan.seconds = u64::div_ceil),
    ("a plan's time rounded to the nearest", |plan| {
        plan.seconds = |sets, rate| (sets + rate / 2) / rate
    }),
    ("a plan has its time at the usual rate", |plan| {
        plan.seconds = |sets, _| sets / USUAL_RATE
    }),
    ("a plan says the usual rate", |plan| {
        plan.last = |sets, time, _| (RIGHT.last)(sets, time, USUAL_RATE)
    }),
    ("a plan's time always in seconds", |plan| {
        plan.time = |seconds| format!("{seconds} seconds")
    }),
    ("a plan's 0 seconds", |plan| {
        plan.time = |seconds| time(seconds).replace("less than a second", "0 seconds")
    }),
    ("a plan's 1 seconds", |plan| {
        plan.time = |seconds| {
            if seconds == 1 {
                counted(1, 1, "seconds")
            } else {
                time(seconds)
            }
        }
    }),
    ("a plan's one second for less than two", |plan| {
        plan.time = |seconds| time(seconds.max(1))
    }),
    ("a plan's minutes only after 120 seconds", |plan| {
        plan.time = |seconds| {
            if seconds == 120 {
                counted(120, 1, "seconds")
            } else {
                time(seconds)
            }
        }
    }),
    ("a plan's hours only after 7,200 seconds", |plan| {
        plan.time = |seconds| {
            if seconds == 7_200 {
                counted(7_200, 60, "minutes")
            } else {
                time(seconds)
            }
        }
    }),
    ("a plan's days only after 172,800 seconds", |plan| {
        plan.time = |seconds| {
            if seconds == 172_800 {
                counted(172_800, 3_600, "hours")
            } else {
                time(seconds)
            }
        }
    }),
    ("a plan's years only after 63,072,000 seconds", |plan| {
        plan.time = |seconds| {
            if seconds == 63_072_000 {
                counted(63_072_000, 86_400, "days")
            } else {
                time(seconds)
            }
        }
    }),
    ("a plan's units from one of them on", |plan| plan.time = from_one_on),
    ("a plan's years of 366 days", |plan| {
        plan.time = |seconds| match seconds {
            63_072_000.. => counted(seconds, 31_622_400, "years"),
            _ => time(seconds),
        }
    }),
];

fn with_figure(size: &Size, of: &str, other: impl Fn(u64) -> u64) -> Vec<(String, u64)> {
    let mut figures = figures(size);
    let place = figures.iter().position(|(name, _)| name == of);
    let place = place.expect("a plan has the figure");
    figures[place].1 = other(figures[place].1);
    figures
}

fn without(mut figures: Vec<(String, u64)>, left_out: impl Fn(&str) -> bool) -> Vec<(String, u64)> {
    figures.retain(|(name, _)| !left_out(name));
    figures
}

/// The sets of other sizes.
fn with_sizes(size: &Size, sizes: impl Iterator<Item = usize>) -> Vec<(String, u64)> {
    let mut figures = without(figures(size), |name| name.starts_with("sets of size"));
    let sum = figures.pop();
    figures.extend(sizes.map(|of| (format!("sets of size {of}"), count(size.wires, of))));
    figures.extend(sum);
    figures
}

fn with_commas(figure: u64) -> String {
    let digits = figure.to_string();
    let comma = |place: usize| place > 0 && (digits.len() - place) % 3 == 0;
    let digit = |(place, digit): (usize, char)| match comma(place) {
        true => format!(",{digit}"),
        false => digit.to_string(),
    };
    digits.chars().enumerate().map(digit).collect()
}

fn counted(seconds: u64, in_one: u64, units: &str) -> String {
    format!("{} {units}", seconds / in_one)
}

fn from_one_on(seconds: u64) -> String {
    match seconds {
        ..60 => time(seconds),
        ..3_600 => counted(seconds, 60, "minutes"),
        ..86_400 => counted(seconds, 3_600, "hours"),
        ..31_536_000 => counted(seconds, 86_400, "days"),
        _ => counted(seconds, 31_536_000, "years"),
    }
}
