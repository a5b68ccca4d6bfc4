//! The engine under test: the sixteen functions of include/calduvren.h, each behind a safe wrapper that lends guarded
//! memory and gives back what the call left there.

mod entries;
mod lent;

pub use lent::{count_for_thread, Lent};

use crate::answers::Entry;
use crate::model::pool::Filing;
use crate::reply::Reply;

// In every wrapper the block outlives the call and has room for each piece, which is all that the calls ask for.

pub fn read_text(text: &[u8], table_length: usize) -> Reply {
    let mut lent = Lent::new();
    let (text, table) = (lent.bytes_with(text), lent.bytes(table_length));
    let numbers = [(); 5].map(|()| lent.number());
    let base = lent.base();
    let (text_at, length, table_at) = (text.at(base), text.elements(), table.at(base));
    let [order, shares, masks, wires, offset] = numbers.map(|number| number.at(base));
    let status = unsafe {
        entries::calduvren_read_text(
            text_at,
            length,
            table_at,
            table_length,
            order,
            shares,
            masks,
            wires,
            offset,
        )
    };
    lent.reply(status, &numbers, Some(table))
}

pub fn text_part(text: &[u8], table: &[u8], wire: usize) -> Reply {
    let mut lent = Lent::new();
    let (text, table) = (lent.bytes_with(text), lent.bytes_with(table));
    let numbers = [lent.number(), lent.number()];
    let base = lent.base();
    let (text_at, table_at) = (text.at(base), table.at(base));
    let [offset, length] = numbers.map(|number| number.at(base));
    let status = unsafe {
        entries::calduvren_text_part(
            text_at,
            text.elements(),
            table_at,
            table.elements(),
            wire,
            offset,
            length,
        )
    };
    lent.reply(status, &numbers, None)
}

pub fn check_size(text: &[u8], sets_length: usize) -> Reply {
    let mut lent = Lent::new();
    let (text, sets) = (lent.bytes_with(text), lent.numbers(sets_length));
    let numbers = [(); 6].map(|()| lent.number());
    let base = lent.base();
    let (text_at, length, sets_at) = (text.at(base), text.elements(), sets.at(base));
    let [order, shares, masks, wires, bytes, offset] = numbers.map(|number| number.at(base));
    let status = unsafe {
        entries::calduvren_check_size(
            text_at,
            length,
            sets_at,
            sets_length,
            order,
            shares,
            masks,
            wires,
            bytes,
            offset,
        )
    };
    lent.reply(status, &numbers, Some(sets))
}

pub fn function_check(table: &[u8], shares: usize, masks: usize, function: usize) -> Reply {
    let mut lent = Lent::new();
    let (table, yes) = (lent.bytes_with(table), lent.number());
    let base = lent.base();
    let (table_at, length, yes_at) = (table.at(base), table.elements(), yes.at(base));
    let status = unsafe { entries::calduvren_function_check(table_at, length, shares, masks, function, yes_at) };
    lent.reply(status, &[yes], None)
}

/// The entries that give a verdict. Their arguments and answers are the same, and so one model is that of both.
pub const VERDICTS: [(Entry, AskVerdict); 2] = [(Entry::Verdict, verdict), (Entry::DirectedVerdict, directed_verdict)];
/// On a table: shares, masks, notion, order and how many wire numbers are lent.
pub type AskVerdict = fn(&[u8], [usize; 5]) -> Reply;

pub fn verdict(table: &[u8], numbers: [usize; 5]) -> Reply {
    ask_verdict(entries::calduvren_verdict, table, numbers)
}

pub fn directed_verdict(table: &[u8], numbers: [usize; 5]) -> Reply {
    ask_verdict(entries::calduvren_directed_verdict, table, numbers)
}

fn ask_verdict(entry: entries::Verdict, table: &[u8], [shares, masks, notion, order, set_length]: [usize; 5]) -> Reply {
    let mut lent = Lent::new();
    let (table, set) = (lent.bytes_with(table), lent.wire_numbers(set_length));
    let numbers = [lent.number(), lent.number()];
    let base = lent.base();
    let (table_at, length, set_at) = (table.at(base), table.elements(), set.at(base));
    let (holds, size) = (numbers[0].at(base), numbers[1].at(base));
    let status = unsafe {
        entry(
            table_at, length, shares, masks, notion, order, set_at, set_length, holds, size,
        )
    };
    lent.reply(status, &numbers, Some(set))
}

pub fn range_check(table: &[u8], [shares, masks, notion, size, set_length]: [usize; 5], [from, to]: [u64; 2]) -> Reply {
    let mut lent = Lent::new();
    let (table, set) = (lent.bytes_with(table), lent.wire_numbers(set_length));
    let numbers = [(); 3].map(|()| lent.number());
    let base = lent.base();
    let (table_at, length, set_at) = (table.at(base), table.elements(), set.at(base));
    let (clean, found, rank) = (numbers[0].at(base), numbers[1].at(base), numbers[2].at(base));
    let status = unsafe {
        entries::calduvren_range_check(
            table_at, length, shares, masks, notion, size, from, to, set_at, set_length, clean, found, rank,
        )
    };
    lent.reply(status, &numbers, Some(set))
}

pub fn filed_report(filing: &Filing, report_length: usize) -> Reply {
    let mut lent = Lent::new();
    let report = lent.bytes(report_length);
    let base = lent.base();
    let Filing {
        notion, size, from, to, ..
    } = *filing;
    let (clean, rank, report_at) = (filing.clean, filing.rank, report.at(base));
    let status =
        unsafe { entries::calduvren_filed_report(notion, size, from, to, clean, rank, report_at, report_length) };
    lent.reply(status, &[], Some(report))
}

pub fn pool(table: &[u8], [shares, masks, notion, order]: [usize; 4], list: &[u8]) -> Reply {
    let mut lent = Lent::new();
    let (table, list) = (lent.bytes_with(table), lent.bytes_with(list));
    let numbers = [(); 3].map(|()| lent.number());
    let base = lent.base();
    let (table_at, length, list_at, list_length) = (table.at(base), table.elements(), list.at(base), list.elements());
    let (answer, size, rank) = (numbers[0].at(base), numbers[1].at(base), numbers[2].at(base));
    let status = unsafe {
        entries::calduvren_pool(
            table_at,
            length,
            shares,
            masks,
            notion,
            order,
            list_at,
            list_length,
            answer,
            size,
            rank,
        )
    };
    lent.reply(status, &numbers, None)
}

pub fn set_dependence(table: &[u8], [shares, masks, notion]: [usize; 3], set: &[u16]) -> Reply {
    let mut lent = Lent::new();
    let (table, set) = (lent.bytes_with(table), lent.wire_numbers_with(set));
    let numbers = [(); 4].map(|()| lent.number());
    let base = lent.base();
    let (table_at, length, set_at, set_length) = (table.at(base), table.elements(), set.at(base), set.elements());
    let (of_a, of_b, allowed) = (numbers[0].at(base), numbers[1].at(base), numbers[2].at(base));
    let masked = numbers[3].at(base);
    let status = unsafe {
        entries::calduvren_set_dependence(
            table_at, length, shares, masks, notion, set_at, set_length, of_a, of_b, allowed, masked,
        )
    };
    lent.reply(status, &numbers, None)
}

pub fn set_count(wires: usize, size: usize) -> Reply {
    let mut lent = Lent::new();
    let sets = lent.number();
    let base = lent.base();
    let status = unsafe { entries::calduvren_set_count(wires, size, sets.at(base)) };
    lent.reply(status, &[sets], None)
}

pub fn set_from_rank(wires: usize, size: usize, rank: u64, set_length: usize) -> Reply {
    let mut lent = Lent::new();
    let set = lent.wire_numbers(set_length);
    let base = lent.base();
    let status = unsafe { entries::calduvren_set_from_rank(wires, size, rank, set.at(base), set_length) };
    lent.reply(status, &[], Some(set))
}

pub fn rank_from_set(wires: usize, set: &[u16]) -> Reply {
    let mut lent = Lent::new();
    let (set, rank) = (lent.wire_numbers_with(set), lent.number());
    let base = lent.base();
    let status = unsafe { entries::calduvren_rank_from_set(wires, set.at(base), set.elements(), rank.at(base)) };
    lent.reply(status, &[rank], None)
}

pub fn job(wires: usize, size: usize, job: u64, jobs: u64) -> Reply {
    let mut lent = Lent::new();
    let numbers = [lent.number(), lent.number()];
    let base = lent.base();
    let [from, to] = numbers.map(|number| number.at(base));
    let status = unsafe { entries::calduvren_job(wires, size, job, jobs, from, to) };
    lent.reply(status, &numbers, None)
}

pub fn report_text(text: &[u8], buffer_length: usize) -> Reply {
    let mut lent = Lent::new();
    let (text, buffer, length) = (lent.bytes_with(text), lent.bytes(buffer_length), lent.number());
    let base = lent.base();
    let (text_at, text_length, buffer_at) = (text.at(base), text.elements(), buffer.at(base));
    let status =
        unsafe { entries::calduvren_report_text(text_at, text_length, buffer_at, buffer_length, length.at(base)) };
    lent.reply(status, &[length], Some(buffer))
}

pub fn isw_text(order: usize, text_length: usize) -> Reply {
    let mut lent = Lent::new();
    let (text, length) = (lent.bytes(text_length), lent.number());
    let base = lent.base();
    let status = unsafe { entries::calduvren_isw_text(order, text.at(base), text_length, length.at(base)) };
    lent.reply(status, &[length], Some(text))
}
