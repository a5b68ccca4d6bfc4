//! The operands that a report names after a break: which of them the program's inputs have to bring about, and those
//! that were worked out by hand and by watching.

use super::watcher::leaking;
use crate::engine;
use crate::inputs::tables::Table;
use crate::inputs::words::{text_by_hand, texts, BY_HAND};
use crate::model::breaking::{NI, SNI};
use crate::model::report::opening;
use crate::random::Random;
use crate::tally::Tally;

/// What NI's line says, and then what SNI's says.
const KINDS: [(&str, [Option<&str>; 2]); 12] = [
    ("NI by a, SNI by a", [Some("a"), Some("a")]),
    ("a, b", [Some("a"), Some("b")]),
    ("a, both", [Some("a"), Some("both")]),
    ("b, a", [Some("b"), Some("a")]),
    ("b, b", [Some("b"), Some("b")]),
    ("b, both", [Some("b"), Some("both")]),
    ("both, a", [Some("both"), Some("a")]),
    ("both, b", [Some("both"), Some("b")]),
    ("both, both", [Some("both"), Some("both")]),
    ("holds, a", [None, Some("a")]),
    ("holds, b", [None, Some("b")]),
    ("holds, both", [None, Some("both")]),
];
const SAME_SET: &str = "the same set by another word";
/// Under either notion.
const SEVERAL: [(&str, &str); 3] = [
    ("several wires by a", "a"),
    ("several wires by b", "b"),
    ("several wires by both", "both"),
];
/// So many wires are few enough for a watcher.
const MOST_WATCHED: usize = 16;
const MOST_MASKS: usize = 4;

/// A break as a report has it: the wires and the operands.
type Break<'a> = Option<(&'a str, &'a str)>;

pub fn expect(tally: &mut Tally) {
    tally.expect("words", &KINDS.map(|(kind, _)| kind));
    tally.expect("words", &[SAME_SET]);
    tally.expect("words", &SEVERAL.map(|(kind, _)| kind));
}

/// Of a report that the program has to print.
pub fn count(tally: &mut Tally, report: &str) {
    let breaks = breaks(report);
    let words = breaks.map(|found| found.map(|(_, word)| word));
    if let Some((kind, _)) = KINDS.iter().find(|(_, of_kind)| *of_kind == words) {
        tally.occurs("words", kind);
    }
    if let [Some((of_ni, by_ni)), Some((of_sni, by_sni))] = breaks {
        if of_ni == of_sni && by_ni != by_sni {
            tally.occurs("words", SAME_SET);
        }
    }
    for (set, word) in breaks.into_iter().flatten() {
        let several = SEVERAL
            .iter()
            .find(|(_, of_kind)| set.contains(' ') && *of_kind == word);
        several.iter().for_each(|(kind, _)| tally.occurs("words", kind));
    }
}

fn breaks(report: &str) -> [Break<'_>; 2] {
    ["NI broken ", "SNI broken "].map(|start| {
        let found = report.lines().find_map(|line| line.strip_prefix(start))?;
        found.split_once(" by ")
    })
}

pub fn run(_: &mut Random, tally: &mut Tally) {
    for (lines, wanted) in BY_HAND {
        let report = reported(&text_by_hand(lines));
        if breaks(&report).map(|found| found.map(|(_, word)| word)) != wanted {
            tally.differs(|| format!("words: by hand {wanted:?} on {lines:?}, engine: {report:?}"));
        }
    }
    let watched = texts().iter().map(|text| watch(tally, text)).sum::<usize>();
    tally.say(format!(
        "words           {} reports by hand, {watched} breaks by watching",
        BY_HAND.len()
    ));
    if watched == 0 {
        tally.differs(|| String::from("words: no break was watched"));
    }
}

fn reported(text: &[u8]) -> String {
    let bytes = engine::report_text(text, 512).written;
    String::from_utf8(bytes.iter().map(|byte| *byte as u8).collect()).unwrap_or_default()
}

/// How many breaks of a text of up to three shares were watched: the operands that leak by the set that the report shows
/// are those that it names.
fn watch(tally: &mut Tally, text: &[u8]) -> usize {
    let Some(reading) = opening(text).1 else {
        return 0;
    };
    if reading.shares() > 3 || reading.masks > MOST_MASKS || reading.wires.len() > MOST_WATCHED {
        return 0;
    }
    let table = Table {
        shares: reading.shares(),
        masks: reading.masks,
        records: reading.wires,
    };
    let report = reported(text);
    let mut watched = 0;
    for (notion, found) in [NI, SNI].into_iter().zip(breaks(&report)) {
        let Some((wires, word)) = found else {
            continue;
        };
        let set: Vec<u16> = wires.split(' ').filter_map(|wire| wire.parse().ok()).collect();
        let wanted = match leaking(&table, &set, notion) {
            [true, true] => "both",
            [true, false] => "a",
            [false, true] => "b",
            [false, false] => "none",
        };
        if word != wanted {
            tally.differs(|| format!("words: by watching notion {notion} by {wanted}, engine: {report:?}"));
        }
        watched += 1;
    }
    watched
}
