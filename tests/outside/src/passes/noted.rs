//! The kinds of notes that the program's inputs have to bring about.

use crate::model::notes::Notes;
use crate::tally::Tally;

const OTHER: &str = "report: function other: the output lines differ from ";
const DEPENDS: &str = "    depends on ";

/// Each kind with what is in the notes of it, and of no other.
const KINDS: [(&str, &str); 23] = [
    ("1", ": the text is longer"),
    ("2", ": the first line"),
    ("3", ": the second line"),
    ("4", ": no such symbol"),
    ("5", ": this mask"),
    ("6 closed", ": a parenthesis is closed"),
    ("6 open", ": a parenthesis is still open"),
    ("7", ": a bar"),
    ("8", ": a parenthesis is opened"),
    ("9 many", ": a line too many"),
    ("9 few", ": too few lines"),
    ("10", ": the gadget has more"),
    ("cut before", "\n    .."),
    ("cut after", "..\n"),
    ("replaced", "report: ? stands"),
    ("NI", "report: NI"),
    ("SNI", "report: SNI"),
    ("inner", ", inner: "),
    ("outer", ", outer: "),
    ("seconds", " seconds if each is visited"),
    ("minutes", " minutes if each is visited"),
    ("hours", " hours if each is visited"),
    ("days", " days if each is visited"),
];

/// Each function with a kind of symbols in which another may differ from it. With a product it is compared with the
/// product, with a share of b and no product with a sum.
const DIFFERENCES: [(&str, &str, &str); 9] = [
    ("product s", "the product of a and b", "s"),
    ("product a", "the product of a and b", "a"),
    ("product b", "the product of a and b", "b"),
    ("product r", "the product of a and b", "r"),
    ("sum a", "the sum of a and b", "a"),
    ("sum b", "the sum of a and b", "b"),
    ("sum r", "the sum of a and b", "r"),
    ("copy a", "a copy of a", "a"),
    ("copy r", "a copy of a", "r"),
];

/// The kinds of symbols that the sum of a breaking set may name.
const TOGETHER: [(&str, &str); 7] = [
    ("together s", "s"),
    ("together a", "a"),
    ("together b", "b"),
    ("together s a", "sa"),
    ("together s b", "sb"),
    ("together a b", "ab"),
    ("together s a b", "sab"),
];

const TWO_DIGITS: &str = "masks of one digit and of two";
const FUNCTION_ALONE: &str = "function alone";
const LENGTH_ALONE: &str = "length alone";
const FUNCTION_AND_LENGTH: &str = "function and length";
const EMPTY_LINE: &str = "of an empty line";
const SNI_ALONE: &str = "SNI alone";
const DIFFERENT_SETS: &str = "different sets";
const LONG: &str = "30,000 bytes";
const NONE: &str = "none";

pub fn expect(tally: &mut Tally) {
    tally.expect("notes", &KINDS.map(|(kind, _)| kind));
    tally.expect("notes", &DIFFERENCES.map(|(kind, _, _)| kind));
    tally.expect("notes", &TOGETHER.map(|(kind, _)| kind));
    tally.expect(
        "notes",
        &[TWO_DIGITS, FUNCTION_ALONE, LENGTH_ALONE, FUNCTION_AND_LENGTH],
    );
    tally.expect("notes", &[EMPTY_LINE, SNI_ALONE, DIFFERENT_SETS, LONG, NONE]);
}

pub fn count(tally: &mut Tally, Notes { before, after }: &Notes) {
    let [before, after] = [before, after].map(|notes| String::from_utf8_lossy(notes));
    for (kind, mark) in KINDS {
        if before.contains(mark) || after.contains(mark) {
            tally.occurs("notes", kind);
        }
    }
    let all = format!("{before}{after}");
    count_sums(tally, &all);
    // The note on the function may stand before those on breaks, and what is allowed differs where the set does not.
    let after: String = after
        .split_inclusive('\n')
        .filter(|line| !line.starts_with(OTHER) && !line.starts_with(DEPENDS))
        .collect();
    let parts = |notes: &str| notes.lines().skip(1).map(String::from).collect::<Vec<_>>();
    let sets = after.split_once("report: SNI").map(|(ni, sni)| (parts(ni), parts(sni)));
    let (function, length) = (all.contains(OTHER), before.contains(" sets to look at"));
    let others = [
        (TWO_DIGITS, all.contains(" r9 r10")),
        (FUNCTION_ALONE, function && !length && after.is_empty()),
        (LENGTH_ALONE, length && !function),
        (FUNCTION_AND_LENGTH, function && length),
        (
            EMPTY_LINE,
            after.starts_with("report: line") && parts(&after).is_empty(),
        ),
        (SNI_ALONE, after.starts_with("report: SNI")),
        (
            DIFFERENT_SETS,
            sets.is_some_and(|(ni, sni)| !ni.is_empty() && ni != sni),
        ),
        (LONG, after.len() >= 30_000),
        (NONE, all.is_empty()),
    ];
    for (kind, _) in others.iter().filter(|(_, occurs)| *occurs) {
        tally.occurs("notes", kind);
    }
}

fn count_sums(tally: &mut Tally, notes: &str) {
    let other = notes.lines().find_map(|line| line.strip_prefix(OTHER));
    if let Some((function, symbols)) = other.and_then(|other| other.split_once(" in ")) {
        for (kind, of, symbol) in DIFFERENCES {
            if of == function && kinds_of(symbols).contains(symbol) {
                tally.occurs("notes", kind);
            }
        }
    }
    for symbols in notes.lines().filter_map(|line| line.strip_prefix("    together: ")) {
        let occurs = TOGETHER.iter().find(|(_, kinds)| kinds_of(symbols) == *kinds);
        occurs.iter().for_each(|(kind, _)| tally.occurs("notes", kind));
    }
}

/// The letters of the symbols, each once.
fn kinds_of(symbols: &str) -> String {
    let mut kinds: Vec<char> = symbols.split(' ').filter_map(|symbol| symbol.chars().next()).collect();
    kinds.dedup();
    kinds.into_iter().collect()
}
