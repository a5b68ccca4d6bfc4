//! The stack: every entry is called with its largest inputs in a thread that has no more stack than the header asks
//! for.

use super::dependence;
use crate::answers::Entry;
use crate::engine;
use crate::inputs::calls::TableCall;
use crate::inputs::tables::{planted, Table};
use crate::model;
use crate::model::breaking::SNI;
use crate::model::isw::MAX_ISW_ORDER;
use crate::model::pool::{list_of, Filed, Filing, CLEAN, FILED_REPORT_BYTES};
use crate::model::reading::{read, MAX_TEXT_BYTES};
use crate::model::records::{to_bytes, MAX_SHARES, MAX_TABLE_BYTES, MAX_WIRES, RECORD_BYTES};
use crate::model::report::report;
use crate::model::sets::{self, count, from_rank, MAX_JOBS, MAX_SIZE};
use crate::model::sizes::Size;
use crate::random::Random;
use crate::reply::Reply;
use crate::tally::Tally;
use std::thread::Builder;

pub const STACK_BYTES: usize = 262_144;
pub const REPORT_BYTES: usize = 512;
/// Of one size, for a pool.
const REPORTS: u64 = 3_000;

/// A call to the engine, and what the model says to it.
struct Call {
    entry: Entry,
    word: &'static str,
    model: Reply,
    engine: Box<dyn Fn() -> Reply + Send>,
}

pub fn run(random: &mut Random, tally: &mut Tally) {
    let mut calls = calls_on_numbers();
    for order in [1, 7] {
        calls.extend(calls_on_text(&largest_text(order)));
    }
    let last = count(MAX_WIRES, MAX_SIZE) - 1;
    let set = from_rank(MAX_WIRES, MAX_SIZE, last);
    let large = planted(random, MAX_WIRES, &set, MAX_SHARES);
    calls.extend(calls_on_table(random, &large, 1, [last - 20, last + 1]));
    // Few enough wires that all sets of seven can be searched.
    let small = Table {
        records: large.records[..12].to_vec(),
        ..large
    };
    calls.extend(calls_on_table(random, &small, MAX_SIZE, [0, count(12, MAX_SIZE)]));
    let answer = |call: Call| {
        let reply = (call.engine)();
        (call, reply)
    };
    let thread = Builder::new().stack_size(STACK_BYTES);
    let thread = thread.spawn(move || calls.into_iter().map(answer).collect::<Vec<(Call, Reply)>>());
    let answered = thread.expect("a thread can be started").join().expect("no call panics");
    for (number, (call, reply)) in answered.iter().enumerate() {
        tally.compare(call.entry, call.word, &call.model, reply, || {
            format!("call {number} with a small stack")
        });
    }
    tally.say(format!(
        "stack           {} calls with the largest inputs in {STACK_BYTES} bytes",
        answered.len()
    ));
}

fn call(entry: Entry, word: &'static str, model: Reply, engine: impl Fn() -> Reply + Send + 'static) -> Call {
    Call {
        entry,
        word,
        model,
        engine: Box::new(engine),
    }
}

fn calls_on_numbers() -> Vec<Call> {
    let last = count(MAX_WIRES, MAX_SIZE) - 1;
    let set = from_rank(MAX_WIRES, MAX_SIZE, last);
    let (wires, size, word) = (MAX_WIRES, MAX_SIZE, "answered");
    let from_rank = model::set_from_rank(wires, size, last, size);
    let from_set = model::rank_from_set(wires, &set);
    let job = model::job(wires, size, MAX_JOBS - 1, MAX_JOBS);
    let isw = model::isw_text(MAX_ISW_ORDER, MAX_TEXT_BYTES);
    let filing = Filing {
        notion: SNI,
        size,
        from: 0,
        to: last + 1,
        clean: 0,
        rank: last,
    };
    let filed = model::filed_report(&filing, FILED_REPORT_BYTES);
    vec![
        call(Entry::FiledReport, "found", filed, move || {
            engine::filed_report(&filing, FILED_REPORT_BYTES)
        }),
        call(Entry::SetCount, word, model::set_count(wires, size), move || {
            engine::set_count(wires, size)
        }),
        call(Entry::SetFromRank, word, from_rank, move || {
            engine::set_from_rank(wires, size, last, size)
        }),
        call(Entry::RankFromSet, word, from_set, move || {
            engine::rank_from_set(wires, &set)
        }),
        call(Entry::Job, word, job, move || {
            engine::job(wires, size, MAX_JOBS - 1, MAX_JOBS)
        }),
        call(Entry::IswText, "written", isw, || {
            engine::isw_text(MAX_ISW_ORDER, MAX_TEXT_BYTES)
        }),
    ]
}

/// As many bytes, wires, masks and open parentheses as there may be. A sum of all shares of a stands without a mask, so
/// that the verdict on it is short at every order.
fn largest_text(order: usize) -> Vec<u8> {
    let masks: Vec<String> = (0..64).map(|k| format!("r{k}")).collect();
    let shares: String = (0..=order).map(|i| format!("a{i} ")).collect();
    let mut lines = vec![format!("{}{shares}{}", "(".repeat(16), ")".repeat(16)), masks.join(" ")];
    lines.resize(order + 1, String::from("((((b0 a0))))"));
    let mut text = format!("ORDER = {order}\nMASKS = [{}]\n{}", masks.join(", "), lines.join("\n"));
    while read(format!("{text} a0").as_bytes(), MAX_TABLE_BYTES).is_ok() {
        text += " a0";
    }
    format!("{text:MAX_TEXT_BYTES$}").into_bytes()
}

fn calls_on_text(text: &[u8]) -> Vec<Call> {
    let reading = read(text, MAX_TABLE_BYTES);
    let reply = model::read_text(&reading);
    let Ok(reading) = reading else {
        unreachable!("the largest text can be read")
    };
    assert!(text.len() == MAX_TEXT_BYTES && reading.wires.len() == MAX_WIRES);
    let Ok(report) = report(text, u64::MAX) else {
        unreachable!("any number may be searched")
    };
    let report = model::report_text(&report, REPORT_BYTES);
    let table = to_bytes(&reading.wires);
    let part = model::text_part(text, &table, MAX_WIRES - 1);
    let size = model::check_size(&Size::of(text), MAX_SIZE);
    let [read, reported, parted, sized] = [(); 4].map(|()| text.to_vec());
    vec![
        call(Entry::ReadText, "read", reply, move || {
            engine::read_text(&read, MAX_TABLE_BYTES)
        }),
        call(Entry::ReportText, "of a gadget", report, move || {
            engine::report_text(&reported, REPORT_BYTES)
        }),
        call(Entry::TextPart, "answered", part, move || {
            engine::text_part(&parted, &table, MAX_WIRES - 1)
        }),
        call(Entry::CheckSize, "told", size, move || {
            engine::check_size(&sized, MAX_SIZE)
        }),
    ]
}

fn calls_on_table(random: &mut Random, table: &Table, order: usize, range: [u64; 2]) -> Vec<Call> {
    let mut calls = Vec::new();
    let TableCall { table, shares, masks } = TableCall::new(random, table);
    for function in 1..=3 {
        let (table, reply) = (table.clone(), model::function_check(&table, shares, masks, function));
        let engine = move || engine::function_check(&table, shares, masks, function);
        calls.push(call(Entry::FunctionCheck, "no", reply, engine));
    }
    for notion in 1..=2 {
        let numbers = [shares, masks, notion, order, MAX_SIZE];
        let Ok(reply) = model::verdict(&table, numbers, u64::MAX) else {
            unreachable!("any number may be searched")
        };
        let word = if reply.numbers[0] == Some(1) { "holds" } else { "broken" };
        for (entry, ask) in engine::VERDICTS {
            let table = table.clone();
            calls.push(call(entry, word, reply.clone(), move || ask(&table, numbers)));
        }
        let wires = table.len() / RECORD_BYTES;
        let (for_set, set) = (table.clone(), from_rank(wires, MAX_SIZE, count(wires, MAX_SIZE) - 1));
        let reply = model::set_dependence(&table, [shares, masks, notion], &set);
        calls.push(call(Entry::SetDependence, dependence::word(&reply), reply, move || {
            engine::set_dependence(&for_set, [shares, masks, notion], &set)
        }));
        let (for_range, numbers) = (table.clone(), [shares, masks, notion, MAX_SIZE, MAX_SIZE]);
        let reply = model::range_check(&table, numbers, range);
        let word = if reply.numbers[0] == Some(1) { "clean" } else { "found" };
        calls.push(call(Entry::RangeCheck, word, reply, move || {
            engine::range_check(&for_range, numbers, range)
        }));
        calls.push(pool(random, &table, [shares, masks, notion]));
    }
    calls
}

/// All ranks of all sizes, in any order.
fn pool(random: &mut Random, table: &[u8], [shares, masks, notion]: [usize; 3]) -> Call {
    let (table, wires, order) = (table.to_vec(), table.len() / RECORD_BYTES, shares - 1);
    let jobs = (1..=order).flat_map(|size| (0..REPORTS).map(move |number| (size, number)));
    let report = |(size, number)| Filed::new([notion, size], sets::job(wires, size, number, REPORTS), CLEAN);
    let mut reports: Vec<Filed> = jobs.map(report).collect();
    random.shuffle(&mut reports);
    let (numbers, list) = ([shares, masks, notion, order], list_of(&reports));
    let reply = model::pool(&table, numbers, &list);
    call(Entry::Pool, "holds", reply, move || {
        engine::pool(&table, numbers, &list)
    })
}
