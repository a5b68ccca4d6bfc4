//! The header against the crate and the model: the calls of tests/header hold the order and the types of the arguments
//! to the library, but nothing their names, and a caller goes by the names. Each declaration of the header has to be
//! that of the exported function, and each constant what the model goes by; each refusal of the scope has one name, and
//! no other number has. An exported function passes its arguments on to one that has to have the same contract, to the
//! letter. Read from the repository's root.

use super::stack::{REPORT_BYTES, STACK_BYTES};
use crate::answers::REQUIRED;
use crate::model::breaking::{NI, SNI};
use crate::model::functions::{COPY, PRODUCT, SUM};
use crate::model::isw::MAX_ISW_ORDER;
use crate::model::pool::{BROKEN, FILED_REPORT_BYTES, HOLDS, UNCOVERED};
use crate::model::reading::MAX_TEXT_BYTES;
use crate::model::records::{MAX_MASKS, MAX_SHARES, MAX_TABLE_BYTES, MAX_WIRES, RECORD_BYTES};
use crate::model::sets::{MAX_JOBS, MAX_SIZE};
use crate::random::Random;
use crate::tally::Tally;
use std::collections::{BTreeMap, BTreeSet};
use std::fs::{read_dir, read_to_string};

pub const HEADER: &str = "include/calduvren.h";
/// Every file of this folder, so that no exported function is overlooked.
const CRATE: &str = "crates/calduvren/src";
const EXPORTED: &str = "pub extern \"C\" fn ";
/// Where the work of the exported functions is done, by functions of the same names without this word before them.
const BELOW: [&str; 7] = [
    "crates/set_calls/src",
    "crates/table_calls/src",
    "crates/verdict_calls/src",
    "crates/text_calls/src",
    "crates/page_calls/src",
    "crates/size_calls/src",
    "crates/pool_calls/src",
];
const BEFORE: &str = "calduvren_";
/// The header's rule: a function more raises the version's minor number, another answer to the same call its major one.
/// So these two change together.
const FUNCTIONS: usize = 16;
const VERSION: usize = 20_400;

/// A function's arguments as C declares them.
type Declarations = BTreeMap<String, Vec<String>>;
/// What a function asks and promises, line by line.
type Contracts = BTreeMap<String, Vec<String>>;

const REFUSED: &str = "CALDUVREN_REFUSED_";
pub const REFUSALS: u64 = 26;

/// In the header's order. The refusals have the scope's numbers.
const CONSTANTS: [(&str, usize); 49] = [
    ("CALDUVREN_VERSION", VERSION),
    ("CALDUVREN_MAX_TEXT_BYTES", MAX_TEXT_BYTES),
    ("CALDUVREN_RECORD_BYTES", RECORD_BYTES),
    ("CALDUVREN_MAX_WIRES", MAX_WIRES),
    ("CALDUVREN_MAX_TABLE_BYTES", MAX_TABLE_BYTES),
    ("CALDUVREN_MAX_SHARES", MAX_SHARES),
    ("CALDUVREN_MAX_MASKS", MAX_MASKS),
    ("CALDUVREN_MAX_ORDER", MAX_SHARES - 1),
    ("CALDUVREN_MAX_SIZE", MAX_SIZE),
    ("CALDUVREN_MAX_JOBS", MAX_JOBS as usize),
    ("CALDUVREN_MAX_REPORT_BYTES", REPORT_BYTES),
    ("CALDUVREN_MAX_ISW_ORDER", MAX_ISW_ORDER),
    ("CALDUVREN_FILED_REPORT_BYTES", FILED_REPORT_BYTES),
    ("CALDUVREN_STACK_BYTES", STACK_BYTES),
    ("CALDUVREN_NI", NI),
    ("CALDUVREN_SNI", SNI),
    ("CALDUVREN_PRODUCT", PRODUCT),
    ("CALDUVREN_SUM", SUM),
    ("CALDUVREN_COPY", COPY),
    ("CALDUVREN_POOL_HOLDS", HOLDS as usize),
    ("CALDUVREN_POOL_BROKEN", BROKEN as usize),
    ("CALDUVREN_POOL_UNCOVERED", UNCOVERED as usize),
    ("CALDUVREN_OK", 0),
    ("CALDUVREN_REFUSED_TEXT_TOO_LONG", 1),
    ("CALDUVREN_REFUSED_FIRST_LINE", 2),
    ("CALDUVREN_REFUSED_SECOND_LINE", 3),
    ("CALDUVREN_REFUSED_SYMBOL", 4),
    ("CALDUVREN_REFUSED_UNDECLARED_MASK", 5),
    ("CALDUVREN_REFUSED_PARENTHESIS", 6),
    ("CALDUVREN_REFUSED_BAR", 7),
    ("CALDUVREN_REFUSED_DEPTH", 8),
    ("CALDUVREN_REFUSED_LINES", 9),
    ("CALDUVREN_REFUSED_WIRES", 10),
    ("CALDUVREN_REFUSED_SHARES_OR_MASKS", 11),
    ("CALDUVREN_REFUSED_TABLE_LENGTH", 12),
    ("CALDUVREN_REFUSED_RECORD", 13),
    ("CALDUVREN_REFUSED_NOTION", 14),
    ("CALDUVREN_REFUSED_ORDER", 15),
    ("CALDUVREN_REFUSED_BUFFER", 16),
    ("CALDUVREN_REFUSED_SIZE", 17),
    ("CALDUVREN_REFUSED_RANKS", 18),
    ("CALDUVREN_REFUSED_JOBS", 19),
    ("CALDUVREN_REFUSED_FUNCTION", 20),
    ("CALDUVREN_REFUSED_WIRE_NUMBERS", 21),
    ("CALDUVREN_REFUSED_TEXT_PART", 22),
    ("CALDUVREN_REFUSED_ISW_ORDER", 23),
    ("CALDUVREN_REFUSED_ISW_ROOM", 24),
    ("CALDUVREN_REFUSED_FILED_REPORT", 25),
    ("CALDUVREN_REFUSED_FIND", 26),
];

pub fn run(_: &mut Random, tally: &mut Tally) {
    let header = without_comments(&read(HEADER));
    let in_header = declared(&header, "calduvren_status ", |argument| vec![spaced(argument)]);
    let sources = read_all(CRATE);
    let in_crate = declared(&sources, EXPORTED, in_c);
    if in_header != in_crate || in_crate.len() != FUNCTIONS {
        tally.differs(|| format!("the header declares {in_header:#?}, and the crate exports {in_crate:#?}"));
    }
    let promised = contracts(&sources, &format!("{EXPORTED}{BEFORE}"));
    let below = contracts(&BELOW.map(read_all).concat(), "pub fn ");
    let promises =
        |clauses: &Vec<String>| !clauses.is_empty() && clauses.iter().all(|clause| clause.starts_with("ensures "));
    if promised != below || promised.len() != FUNCTIONS || !promised.values().all(promises) {
        tally.differs(|| format!("the exported functions promise {promised:#?}, and those that they call {below:#?}"));
    }
    let constants: Vec<(&str, usize)> = header.lines().filter_map(constant).collect();
    if constants != CONSTANTS {
        let (more, less) = (without(&constants, &CONSTANTS), without(&CONSTANTS, &constants));
        tally.differs(|| format!("the header alone has {more:?}, the model alone {less:?}; or their order differs"));
    }
    let (named, given) = (named_refusals(&constants), given_refusals());
    if named != given || !given.iter().copied().eq(1..=REFUSALS) {
        tally.differs(|| format!("the header names the refusals {named:?}, and the model gives {given:?}"));
    }
    let (functions, constants, refusals) = (in_header.len(), constants.len(), named.len());
    tally.say(format!(
        "header          {functions} functions declared as they are exported, with the contracts of those that they \
         call, {constants} constants as in the model, {refusals} refusals named once each"
    ));
}

pub fn read(path: &str) -> String {
    read_to_string(path).unwrap_or_else(|why| panic!("{path} can be read: {why}"))
}

fn read_all(folder: &str) -> String {
    let files = read_dir(folder).unwrap_or_else(|why| panic!("{folder} can be read: {why}"));
    let paths = files.map(|file| file.expect("a folder can be read to its end").path());
    paths.map(|path| read(&path.to_string_lossy())).collect()
}

/// Rising. A number that has two names stands twice.
fn named_refusals(constants: &[(&str, usize)]) -> Vec<u64> {
    let named = constants.iter().filter(|(name, _)| name.starts_with(REFUSED));
    let mut numbers: Vec<u64> = named.map(|(_, number)| *number as u64).collect();
    numbers.sort_unstable();
    numbers
}

/// Rising, each once: every refusal that this run has to reach in some entry.
fn given_refusals() -> Vec<u64> {
    let answers = REQUIRED.iter().flat_map(|(_, _, answers)| answers.iter());
    let statuses: BTreeSet<u64> = answers.map(|(status, _)| *status).collect();
    statuses.into_iter().filter(|status| *status != 0).collect()
}

fn without_comments(text: &str) -> String {
    let after_comment = |part: &str| {
        part.split_once("*/")
            .map_or(String::new(), |(_, rest)| rest.to_string())
    };
    let mut parts = text.split("/*");
    let first = parts.next().unwrap_or("").to_string();
    parts.fold(first, |text, part| text + &after_comment(part))
}

/// What follows each `word` up to the closing parenthesis: a name, and arguments parted by commas.
fn declared(text: &str, word: &str, in_c: fn(&str) -> Vec<String>) -> Declarations {
    let functions = text.split(word).skip(1).filter_map(|part| {
        let (head, _) = part.split_once(')')?;
        let (name, arguments) = head.split_once('(')?;
        let arguments = arguments.split(',').filter(|argument| !argument.trim().is_empty());
        Some((name.to_string(), arguments.flat_map(in_c).collect()))
    });
    functions.collect()
}

/// The clauses between the arguments and the body of each function that follows `word`.
fn contracts(text: &str, word: &str) -> Contracts {
    let functions = text.split(word).skip(1).filter_map(|part| {
        let (name, rest) = part.split_once('(')?;
        let (head, _) = rest.split_once("\n{\n")?;
        let (_, contract) = head.split_once(" -> u64\n")?;
        let clauses = contract.lines().map(|clause| clause.trim().to_string());
        Some((name.to_string(), clauses.collect()))
    });
    functions.collect()
}

fn spaced(argument: &str) -> String {
    argument.split_whitespace().collect::<Vec<&str>>().join(" ")
}

/// An argument of an exported function as C sees it: a slice is a pointer and then a length.
fn in_c(argument: &str) -> Vec<String> {
    let (name, kind) = argument.trim().split_once(": ").expect("an argument has a type");
    let slice = |element: &str| vec![format!("{element} *{name}"), format!("size_t {name}_length")];
    match kind {
        "usize" => vec![format!("size_t {name}")],
        "u64" => vec![format!("uint64_t {name}")],
        "&mut usize" => vec![format!("size_t *{name}")],
        "&mut u64" => vec![format!("uint64_t *{name}")],
        "&[u8]" => slice("const uint8_t"),
        "&mut [u8]" => slice("uint8_t"),
        "&[u16]" => slice("const uint16_t"),
        "&mut [u16]" => slice("uint16_t"),
        "&mut [u64]" => slice("uint64_t"),
        other => vec![format!("{other} {name}")],
    }
}

pub fn without<T: Clone + PartialEq>(some: &[T], others: &[T]) -> Vec<T> {
    let mut rest = some.to_vec();
    rest.retain(|one| !others.contains(one));
    rest
}

fn constant(line: &str) -> Option<(&str, usize)> {
    let (name, value) = line.strip_prefix("#define ")?.split_once(' ')?;
    Some((name, value.trim().parse().expect("a constant is a number")))
}
