//! What is written of the refusals for people to go by, where no call of the library shows an error. In the header the
//! comment of each function lists its refusals in the order in which they are tested; in the guide each number has a
//! row that says what it means and what to do. Read from the repository's root.

use super::header::{read, without, HEADER, REFUSALS};
use crate::answers::{Answer, REQUIRED};
use crate::random::Random;
use crate::tally::Tally;

const GUIDE: &str = "docs/GUIDE.md";
const HEADING: &str = "## Refusals";
/// Number, from, means, where, what to do.
const COLUMNS: usize = 5;
/// In the header's lists, what stands before words that go on from the line before: they begin where those do.
const GOING_ON: &str = " *       ";

/// A function's name and its refusals in order. They are words and no numbers, as what a comment lists may be none.
type Listed = (String, Vec<String>);

pub fn run(_: &mut Random, tally: &mut Tally) {
    let (listed, tested) = (in_header(&read(HEADER)), in_model());
    if listed != tested {
        let (more, less) = (without(&listed, &tested), without(&tested, &listed));
        tally.differs(|| format!("{HEADER} alone lists {more:?}, the model {less:?}; or their order differs"));
    }
    let guide = read(GUIDE);
    let rows = rows(&guide);
    let numbers: Vec<&str> = rows.iter().map(|row| row[0]).collect();
    let all: Vec<String> = (1..=REFUSALS).map(|number| number.to_string()).collect();
    if numbers != all {
        tally.differs(|| format!("{GUIDE} has the refusals {numbers:?}, and not 1 to {REFUSALS} in order"));
    }
    for row in rows.iter().filter(|row| !is_full(row)) {
        tally.differs(|| format!("{GUIDE} leaves something out in its row of {COLUMNS} cells on a refusal: {row:?}"));
    }
    let (functions, rows) = (listed.len(), rows.len());
    tally.say(format!(
        "refusals        of {functions} functions listed in the header as they are tested, {rows} told in the guide"
    ));
}

/// By the comment before each declaration.
fn in_header(header: &str) -> Vec<Listed> {
    let parts: Vec<&str> = header.split("calduvren_status calduvren_").collect();
    let function = |parts: &[&str]| {
        let comment = parts[0].rsplit_once("/*").map_or("", |(_, comment)| comment);
        let (name, _) = parts[1].split_once('(').unwrap_or((parts[1], ""));
        (name.to_string(), in_comment(comment))
    };
    parts.windows(2).map(function).collect()
}

/// The list is the last that a comment has, so each line of the rest has to be a number and some words, or go on.
fn in_comment(comment: &str) -> Vec<String> {
    let (comment, _) = comment.split_once("*/").unwrap_or((comment, ""));
    let lines = comment.trim_end().lines().filter(|line| !line.starts_with(GOING_ON));
    let lines = lines.map(|line| line.trim_start_matches([' ', '*']));
    let list = lines.skip_while(|line| !line.starts_with("Refusals")).skip(1);
    let number = |line: &str| match line.split_once(' ') {
        Some((number, words)) if !words.trim().is_empty() => number.to_string(),
        _ => format!("{line:?} without words"),
    };
    list.map(number).collect()
}

/// Causes of one refusal that stand side by side are one line of a comment.
fn in_model() -> Vec<Listed> {
    let numbers = |answers: &[Answer]| {
        let refusals = answers.iter().filter(|(status, _)| *status != 0);
        let mut numbers: Vec<String> = refusals.map(|(status, _)| status.to_string()).collect();
        numbers.dedup();
        numbers
    };
    let function = |(_, name, answers): &(_, &str, &[Answer])| (name.to_string(), numbers(answers));
    REQUIRED.iter().map(function).collect()
}

/// The cells of the table below the heading, row by row, without its first two lines: the columns' names and a rule.
fn rows(guide: &str) -> Vec<Vec<&str>> {
    let section = guide.lines().skip_while(|line| *line != HEADING).skip(1);
    let section = section.take_while(|line| !line.starts_with("## "));
    section.filter_map(cells).skip(2).collect()
}

fn cells(line: &str) -> Option<Vec<&str>> {
    let row = line.strip_prefix('|')?.strip_suffix('|')?;
    Some(row.split('|').map(str::trim).collect())
}

/// A dash tells a reader no more than an empty cell.
fn is_full(row: &[&str]) -> bool {
    row.len() == COLUMNS && row.iter().all(|cell| cell.contains(char::is_alphanumeric))
}
