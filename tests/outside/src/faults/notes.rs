//! Wrong notes: each has to be told from those of the program `report` on some text.

use super::counts::COUNTS;
use super::sums::SUMS;
use crate::model::lines::{printing, view, view_by, View, REACH};
use crate::model::notes::{meaning, sets, Notes, Shown, Way, RIGHT};
use crate::model::sets::count;
use crate::model::trees::Cause;
use crate::tally::Tally;

/// More than a line has.
const ALL: usize = 1 << 20;

/// Of a refusal. They are faults of the program `plan` too.
pub const REFUSALS: [(&str, Way); 15] = [
    (
        "a note's offset taken for its line",
        Way {
            line: |_, offset| offset,
            ..RIGHT
        },
    ),
    (
        "a note's line counted without those skipped",
        Way {
            line: line_without_skipped,
            ..RIGHT
        },
    ),
    (
        "a note's byte counted from the text's start",
        Way {
            byte: |_, offset| offset + 1,
            ..RIGHT
        },
    ),
    (
        "a note on a text past the byte too many",
        Way {
            most_bytes: usize::MAX,
            ..RIGHT
        },
    ),
    (
        "a note that says closed for still open",
        Way {
            meaning: closed_for_open,
            ..RIGHT
        },
    ),
    (
        "a note that says few lines for many",
        Way {
            meaning: few_for_many,
            ..RIGHT
        },
    ),
    (
        "a note's mark one byte off",
        Way {
            view: mark_off,
            ..RIGHT
        },
    ),
    (
        "a note's mark set as if no dots stood before it",
        Way {
            view: mark_without_dots,
            ..RIGHT
        },
    ),
    (
        "a note shows a line uncut",
        Way {
            view: |line, at| view_by([ALL, ALL], printing, line, at),
            ..RIGHT
        },
    ),
    (
        "a note shows a byte more before the mark",
        Way {
            view: |line, at| view_by([REACH + 1, REACH], printing, line, at),
            ..RIGHT
        },
    ),
    (
        "a note shows a byte more from the mark on",
        Way {
            view: |line, at| view_by([REACH, REACH + 1], printing, line, at),
            ..RIGHT
        },
    ),
    (
        "a note shows every byte as it is",
        Way {
            view: |line, at| view_by([REACH, REACH], |byte| byte, line, at),
            ..RIGHT
        },
    ),
    (
        "a note shows a tab as it is",
        Way {
            view: |line, at| view_by([REACH, REACH], tabs_kept, line, at),
            ..RIGHT
        },
    ),
    (
        "a note explains a ? of the text",
        Way {
            view: any_question_mark,
            ..RIGHT
        },
    ),
    (
        "a note explains a ? out of sight",
        Way {
            view: question_mark_out_of_sight,
            ..RIGHT
        },
    ),
];

const OTHERS: [(&str, Way); 7] = [
    (
        "a note shows the other notion's set",
        Way {
            shown: other_set,
            ..RIGHT
        },
    ),
    (
        "a note shows the next wire's part",
        Way {
            part: |wires, wire| wires[(wire + 1) % wires.len()],
            ..RIGHT
        },
    ),
    (
        "a note has inner and outer exchanged",
        Way {
            kind: |wire| if wire.is_outer() { "inner" } else { "outer" },
            ..RIGHT
        },
    ),
    (
        "a note counts the sets of one notion",
        Way {
            sets: |wires, order| sets(wires, order) / 2,
            ..RIGHT
        },
    ),
    (
        "a note counts no sets of smaller sizes",
        Way {
            sets: |wires, order| 2 * count(wires, order),
            ..RIGHT
        },
    ),
    (
        "a note on length only from 60,000,000 sets on",
        Way {
            long_from: 60_000_000,
            ..RIGHT
        },
    ),
    (
        "a note's time always in seconds",
        Way {
            time: |seconds| format!("{seconds} seconds"),
            ..RIGHT
        },
    ),
];

fn all() -> impl Iterator<Item = &'static (&'static str, Way)> {
    REFUSALS.iter().chain(&OTHERS).chain(&SUMS).chain(&COUNTS)
}

pub fn name_all(tally: &mut Tally) {
    all().for_each(|(name, _)| tally.expect_fault(name));
}

/// On a text whose report is given too. `differ` tells whether notes are not those that came from the program.
pub fn program(tally: &mut Tally, text: &[u8], report: &str, differ: impl Fn(&Notes) -> bool) {
    for (name, way) in all() {
        tally.fault(name, differ(&way.notes(text, report)));
    }
}

/// A line of spaces alone is skipped by the reader.
fn line_without_skipped(text: &[u8], offset: usize) -> usize {
    let before = text[..offset].split_inclusive(|byte| *byte == b'\n');
    let counted = |line: &&[u8]| line.ends_with(b"\n") && line.iter().any(|byte| !b" \n".contains(byte));
    before.filter(counted).count() + 1
}

fn closed_for_open(cause: Cause) -> &'static str {
    match cause {
        Cause::StillOpen => meaning(Cause::NoneOpen),
        cause => meaning(cause),
    }
}

fn few_for_many(cause: Cause) -> &'static str {
    match cause {
        Cause::LineTooMany => meaning(Cause::LinesTooFew),
        cause => meaning(cause),
    }
}

fn mark_off(line: &[u8], at: usize) -> View {
    let right = view(line, at);
    View {
        mark: right.mark + 1,
        ..right
    }
}

fn mark_without_dots(line: &[u8], at: usize) -> View {
    View {
        mark: at.min(REACH),
        ..view(line, at)
    }
}

fn tabs_kept(byte: u8) -> u8 {
    match byte {
        b'\t' => byte,
        _ => printing(byte),
    }
}

fn any_question_mark(line: &[u8], at: usize) -> View {
    let right = view(line, at);
    View {
        replaced: right.shown.contains(&b'?'),
        ..right
    }
}

fn question_mark_out_of_sight(line: &[u8], at: usize) -> View {
    View {
        replaced: line.iter().any(|byte| printing(*byte) != *byte),
        ..view(line, at)
    }
}

/// Where the other notion is broken too.
fn other_set([ni, sni]: [Shown; 2]) -> [Shown; 2] {
    match (ni, sni) {
        (Some(ni), Some(sni)) => [Some(sni), Some(ni)],
        (ni, sni) => [ni, sni],
    }
}
