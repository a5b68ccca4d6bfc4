//! The model: the scope written down a second time, as a program of its own. Here are the sixteen entries, each with its
//! refusals in the scope's order (the two that give a verdict are one here); the modules hold what they rest on.

pub mod breaking;
pub mod directed;
pub mod functions;
pub mod isw;
pub mod lines;
pub mod notes;
pub mod plan;
pub mod pool;
pub mod reading;
pub mod records;
pub mod report;
pub mod sets;
pub mod sizes;
pub mod stretch;
pub mod symbols;
pub mod trees;
pub mod wires;

use crate::reply::Reply;
use breaking::{allowed, shares_of_a, shares_of_b, sum, Found, TooMany, NI, SCOPE, SNI};
use functions::{COPY, PRODUCT, SUM};
use isw::MAX_ISW_ORDER;
use pool::{Asked, Filing, FILED_REPORT_BYTES};
use reading::Reading;
use records::{length_is_wrong, parse, tested, to_bytes, Record, MAX_WIRES, RECORD_BYTES};
use sets::{MAX_JOBS, MAX_SIZE};
use sizes::Size;
use trees::Fault;

/// The reply to read_text, from what the text describes.
pub fn read_text(reading: &Result<Reading, Fault>) -> Reply {
    match reading {
        Ok(reading) => {
            let numbers = [reading.order, reading.shares(), reading.masks, reading.wires.len()];
            let table = to_bytes(&reading.wires).into_iter().map(u16::from).collect();
            Reply::answered(&numbers.map(|number| number as u64), table)
        }
        Err(fault) => {
            let mut reply = Reply::refused(fault.cause.number_and_word().0);
            reply.numbers[4] = Some(fault.offset as u64);
            reply
        }
    }
}

pub fn text_part(text: &[u8], table: &[u8], wire: usize) -> Reply {
    if length_is_wrong(table) {
        return Reply::refused(12);
    }
    if wire >= table.len() / RECORD_BYTES {
        return Reply::refused(21);
    }
    let record = parse(&table[RECORD_BYTES * wire..])[0];
    let (offset, length) = (u64::from(record.offset), u64::from(record.length));
    if offset + length > text.len() as u64 {
        return Reply::refused(22);
    }
    Reply::answered(&[offset, length], Vec::new())
}

/// The reply to check_size, from the size of the text's check.
pub fn check_size(size: &Result<Size, Fault>, sets_length: usize) -> Reply {
    match size {
        Ok(size) if sets_length < size.order => Reply::refused(16),
        Ok(size) => {
            let numbers = [size.order, size.shares, size.masks, size.wires, size.bytes];
            let mut reply = Reply::answered(&numbers.map(|number| number as u64), Vec::new());
            reply.sets = size.sets.clone();
            reply
        }
        Err(fault) => {
            let mut reply = Reply::refused(fault.cause.number_and_word().0);
            reply.numbers[5] = Some(fault.offset as u64);
            reply
        }
    }
}

pub fn function_check(table: &[u8], shares: usize, masks: usize, function: usize) -> Reply {
    let records = match tested(table, shares, masks) {
        Ok(records) => records,
        Err(number) => return Reply::refused(number),
    };
    if ![PRODUCT, SUM, COPY].contains(&function) {
        return Reply::refused(20);
    }
    let yes = functions::computes(&records, shares, masks, function);
    Reply::answered(&[u64::from(yes)], Vec::new())
}

/// The reply to verdict and to directed_verdict, which differ only in how they search. `most` bounds the sets that are
/// looked at; a refusal comes before any.
pub fn verdict(
    table: &[u8],
    [shares, masks, notion, order, set_length]: [usize; 5],
    most: u64,
) -> Result<Reply, TooMany> {
    let records = match tested_for_verdict(table, [shares, masks, notion, order]) {
        Ok(records) => records,
        Err(number) => return Ok(Reply::refused(number)),
    };
    if set_length < order {
        return Ok(Reply::refused(16));
    }
    SCOPE
        .first(&records, notion, order, most)
        .map(|found| found_by_verdict(found.map(|found| found.set)))
}

/// The first of the refusals 11 to 15, or the records.
fn tested_for_verdict(table: &[u8], [shares, masks, notion, order]: [usize; 4]) -> Result<Vec<Record>, u64> {
    let records = tested(table, shares, masks)?;
    if notion != NI && notion != SNI {
        return Err(14);
    }
    match (1..shares).contains(&order) {
        true => Ok(records),
        false => Err(15),
    }
}

pub fn found_by_verdict(found: Option<Vec<u16>>) -> Reply {
    match found {
        None => Reply::answered(&[1], Vec::new()),
        Some(set) => Reply::answered(&[0, set.len() as u64], set),
    }
}

pub fn range_check(table: &[u8], [shares, masks, notion, size, set_length]: [usize; 5], [from, to]: [u64; 2]) -> Reply {
    let records = match tested(table, shares, masks) {
        Ok(records) => records,
        Err(number) => return Reply::refused(number),
    };
    if notion != NI && notion != SNI {
        return Reply::refused(14);
    }
    if size > MAX_SIZE {
        return Reply::refused(17);
    }
    if set_length < size {
        return Reply::refused(16);
    }
    if from > to || to > sets::count(records.len(), size) {
        return Reply::refused(18);
    }
    found_by_range(size, breaking::in_range(&records, size, notion, [from, to]))
}

pub fn found_by_range(size: usize, found: Option<Found>) -> Reply {
    match found {
        None => Reply::answered(&[1], Vec::new()),
        Some(Found { rank, set }) => Reply::answered(&[0, size as u64, rank], set),
    }
}

/// The reply to filed_report, where so many bytes are lent for the report.
pub fn filed_report(filing: &Filing, report_length: usize) -> Reply {
    if report_length != FILED_REPORT_BYTES || !filing.is_sound() {
        return Reply::refused(25);
    }
    Reply::answered(&[], filing.report().bytes().into_iter().map(u16::from).collect())
}

pub fn pool(table: &[u8], numbers: [usize; 4], list: &[u8]) -> Reply {
    let [_, _, notion, order] = numbers;
    match tested_for_verdict(table, numbers) {
        Err(number) => Reply::refused(number),
        Ok(records) => pool::RIGHT.reply(&Asked {
            records: &records,
            notion,
            order,
            list,
        }),
    }
}

pub fn set_dependence(table: &[u8], [shares, masks, notion]: [usize; 3], set: &[u16]) -> Reply {
    let records = match tested(table, shares, masks) {
        Ok(records) => records,
        Err(number) => return Reply::refused(number),
    };
    if notion != NI && notion != SNI {
        return Reply::refused(14);
    }
    if set.len() > MAX_SIZE {
        return Reply::refused(17);
    }
    if !is_rising_below(set, records.len()) {
        return Reply::refused(21);
    }
    let sum = sum(&records, set);
    let counts = [shares_of_a(sum), shares_of_b(sum), allowed(&records, set, notion)];
    let [of_a, of_b, allowed] = counts.map(|count| count as u64);
    Reply::answered(&[of_a, of_b, allowed, u64::from(sum.masks != 0)], Vec::new())
}

/// Not refusal 21: each wire is above the one before it, and all are of the table.
fn is_rising_below(set: &[u16], wires: usize) -> bool {
    let rising = set.windows(2).all(|pair| pair[0] < pair[1]);
    rising && set.iter().all(|wire| usize::from(*wire) < wires)
}

/// What the four entries that take a wire count test first: 12, then 17.
fn counts_are_wrong(wires: usize, size: usize) -> Option<Reply> {
    if wires > MAX_WIRES {
        return Some(Reply::refused(12));
    }
    (size > MAX_SIZE).then(|| Reply::refused(17))
}

pub fn set_count(wires: usize, size: usize) -> Reply {
    if let Some(refusal) = counts_are_wrong(wires, size) {
        return refusal;
    }
    Reply::answered(&[sets::count(wires, size)], Vec::new())
}

pub fn set_from_rank(wires: usize, size: usize, rank: u64, set_length: usize) -> Reply {
    if let Some(refusal) = counts_are_wrong(wires, size) {
        return refusal;
    }
    if set_length < size {
        return Reply::refused(16);
    }
    if rank >= sets::count(wires, size) {
        return Reply::refused(18);
    }
    Reply::answered(&[], sets::from_rank(wires, size, rank))
}

pub fn rank_from_set(wires: usize, set: &[u16]) -> Reply {
    if let Some(refusal) = counts_are_wrong(wires, set.len()) {
        return refusal;
    }
    if !is_rising_below(set, wires) {
        return Reply::refused(21);
    }
    Reply::answered(&[sets::rank(set)], Vec::new())
}

pub fn job(wires: usize, size: usize, job: u64, jobs: u64) -> Reply {
    if let Some(refusal) = counts_are_wrong(wires, size) {
        return refusal;
    }
    if jobs == 0 || jobs > MAX_JOBS || job >= jobs {
        return Reply::refused(19);
    }
    Reply::answered(&sets::job(wires, size, job, jobs), Vec::new())
}

/// The reply to report_text, where the report is `report`.
pub fn report_text(report: &str, buffer_length: usize) -> Reply {
    if buffer_length < report.len() {
        return Reply::refused(16);
    }
    Reply::answered(&[report.len() as u64], report.bytes().map(u16::from).collect())
}

pub fn isw_text(order: usize, text_length: usize) -> Reply {
    if !(1..=MAX_ISW_ORDER).contains(&order) {
        return Reply::refused(23);
    }
    written_to(&isw::RIGHT.text(order), text_length)
}

/// The reply where this text is written.
pub fn written_to(text: &str, text_length: usize) -> Reply {
    if text_length < text.len() {
        return Reply::refused(24);
    }
    Reply::answered(&[text.len() as u64], text.bytes().map(u16::from).collect())
}
