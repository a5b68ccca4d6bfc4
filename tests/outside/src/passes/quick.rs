//! The directed verdict in time: what the gadgets' folder has gets both verdicts within seconds, at its own order, and a
//! whole report, by the library and by the program; and where nearly every set is left to look at, a directed verdict
//! takes some times as long as the other one, and no longer. No call is waited for without end, and each has no more
//! stack than the header asks for.

use super::programs::{show_some, PROGRAM};
use super::stack::{REPORT_BYTES, STACK_BYTES};
use crate::child::{Call, Input};
use crate::engine;
use crate::inputs::calls::TableCall;
use crate::inputs::files;
use crate::inputs::tables::{record, Table};
use crate::model::breaking::{NI, SNI};
use crate::model::records::{Record, MAX_MASKS, MAX_SHARES, MAX_TABLE_BYTES};
use crate::model::report::{opening, verdict};
use crate::model::sets::MAX_SIZE;
use crate::model::{self, found_by_verdict};
use crate::random::Random;
use crate::reply::Reply;
use crate::tally::Tally;
use std::sync::mpsc::channel;
use std::thread::Builder;
use std::time::{Duration, Instant};

/// For one verdict or one report, on a slow machine too.
const LIMIT: Duration = Duration::from_secs(20);

/// Every text of the gadgets' folder, with the first breaking set for NI and for SNI, none where it holds. The scope has
/// those of texts A, B and C. Source 002 says of figures 8 and 9 that they are 7-SNI, and of the multiplication of Ishai,
/// Sahai and Wagner that it is SNI, with proofs at any order; that of the order 2 example is the gadgets' README's.
const GADGETS: [(&str, [&[u16]; 2]); 13] = [
    ("figure-8", [&[], &[]]),
    ("figure-9-shares", [&[], &[]]),
    ("figure-9", [&[], &[]]),
    ("isw-1", [&[], &[]]),
    ("isw-2", [&[], &[]]),
    ("isw-3", [&[], &[]]),
    ("isw-4", [&[], &[]]),
    ("isw-5", [&[], &[]]),
    ("isw-6", [&[], &[]]),
    ("isw-7", [&[], &[]]),
    ("leak-1", [&[6], &[6]]),
    ("order-2-example", [&[], &[]]),
    ("sum-1", [&[], &[2]]),
];

/// Wires of tables in which nearly every set is left to look at: of so many the sets of up to seven are 23 million.
const WIRES_OF_DENSE: usize = 40;
/// How much longer than the other verdict it may take there.
const TIMES: u32 = 10;
const MORE: Duration = Duration::from_secs(2);

/// The gadget on which the two verdicts are held against each other: 134 million sets, and some 3,700 that grow to more.
const EVERY_SET: &str = "isw-5.txt";
/// At least so many times as long a visit to every set takes there: some thousand were measured.
const LEAST_OF_WALK: f64 = 20.0;

pub fn run(random: &mut Random, tally: &mut Tally) {
    let Some(longest) = gadgets(tally) else { return };
    let Some(reported) = reports(tally) else { return };
    let Some(factor) = dense(random, tally) else { return };
    let Some(walked) = every_set(tally) else { return };
    tally.say(format!(
        "quick           both verdicts of {} gadgets at their own orders, the longest, {}, {:.0} ms; where most sets are \
         left, {factor:.1} times as long as the other verdict at most; {EVERY_SET}, of which that one visits every set, \
         takes it {walked:.0} times as long; their reports, the longest {:.0} ms",
        GADGETS.len(),
        longest.0,
        1e3 * longest.1.as_secs_f64(),
        1e3 * reported.as_secs_f64()
    ));
}

/// What a call gives, and in what time; none where it takes longer than the limit. It has the header's stack and is left
/// to itself then, so that no other should be made.
pub fn within<T: Send + 'static>(limit: Duration, call: impl FnOnce() -> T + Send + 'static) -> Option<(T, Duration)> {
    let (sender, receiver) = channel();
    let counted = engine::count_for_thread();
    let timed = move || {
        counted();
        let start = Instant::now();
        let given = call();
        // Nobody may be waiting any more.
        let _ = sender.send((given, start.elapsed()));
    };
    let thread = Builder::new().stack_size(STACK_BYTES).spawn(timed);
    thread.expect("a thread can be started");
    receiver.recv_timeout(limit).ok()
}

/// The gadget whose verdict took the longest; none where one took too long.
fn gadgets(tally: &mut Tally) -> Option<(&'static str, Duration)> {
    let paths = files::gadgets();
    let names: Vec<_> = paths.iter().filter_map(|path| path.file_stem()?.to_str()).collect();
    if names != GADGETS.map(|(name, _)| name) {
        tally.differs(|| format!("quick: the gadgets are {names:?}, and of others the verdicts are known"));
        return None;
    }
    let mut longest = ("", Duration::ZERO);
    for (path, (name, first)) in paths.iter().zip(GADGETS) {
        let reply = engine::read_text(&files::read(path), MAX_TABLE_BYTES);
        let [Some(order), Some(shares), Some(masks), ..] = reply.numbers else {
            panic!("{name} can be read")
        };
        let [order, shares, masks] = [order, shares, masks].map(|number| number as usize);
        let table: Vec<u8> = reply.written.iter().map(|byte| *byte as u8).collect();
        for (notion, first) in [NI, SNI].into_iter().zip(first) {
            let (table, numbers) = (table.clone(), [shares, masks, notion, order, MAX_SIZE]);
            let Some((reply, time)) = within(LIMIT, move || engine::directed_verdict(&table, numbers)) else {
                tally.differs(|| format!("quick: {name} notion {notion}: no verdict in {LIMIT:?}"));
                return None;
            };
            let wanted = found_by_verdict((!first.is_empty()).then(|| first.to_vec()));
            if reply != wanted {
                tally.differs(|| format!("quick: {name} notion {notion}\n    known:  {wanted}\n    engine: {reply}"));
            }
            if time > longest.1 {
                longest = (name, time);
            }
        }
    }
    Some(longest)
}

/// The longest time that the program took for a gadget; none where it or the library took too long. What has to be
/// printed is known, and does not rest on a search of the model's.
fn reports(tally: &mut Tally) -> Option<Duration> {
    let mut longest = Duration::ZERO;
    for (path, (name, first)) in files::gadgets().into_iter().zip(GADGETS) {
        let text = files::read(&path);
        let wanted = known_report(&text, first);
        let start = Instant::now();
        let outcome = Call::on(Input::File(path)).run(PROGRAM, LIMIT);
        longest = longest.max(start.elapsed());
        let by_library = within(LIMIT, move || engine::report_text(&text, REPORT_BYTES));
        let (Some(_), Some((reply, _))) = (outcome.status, by_library) else {
            tally.differs(|| format!("quick: {name}: no report in {LIMIT:?}"));
            return None;
        };
        if outcome.printed != wanted.as_bytes() {
            let printed = show_some(&outcome.printed);
            tally.differs(|| format!("quick: {name}\n    known:   {wanted:?}\n    program: {printed}"));
        }
        if reply != model::report_text(&wanted, REPORT_BYTES) {
            tally.differs(|| format!("quick: {name}\n    known:   {wanted:?}\n    library: {reply}"));
        }
    }
    Some(longest)
}

/// The report on a text with these first breaking sets.
fn known_report(text: &[u8], first: [&[u16]; 2]) -> String {
    let (mut report, reading) = opening(text);
    let wires = reading.expect("a gadget can be read").wires;
    for (notion, name, set) in [(NI, "NI", first[0]), (SNI, "SNI", first[1])] {
        let set = (!set.is_empty()).then_some(set);
        report += &format!("{name}{}\n", verdict(&wires, notion, set));
    }
    report
}

/// How many times as long as the directed verdict the other one took on a gadget that holds: it visits every set, as the
/// scope asks of it, and its answer alone would not show that. None where one took too long.
fn every_set(tally: &mut Tally) -> Option<f64> {
    let path = files::gadgets().into_iter().find(|path| path.ends_with(EVERY_SET))?;
    let reply = engine::read_text(&files::read(&path), MAX_TABLE_BYTES);
    let [Some(order), Some(shares), Some(masks), ..] = reply.numbers else {
        panic!("{EVERY_SET} can be read")
    };
    let [order, shares, masks] = [order, shares, masks].map(|number| number as usize);
    let table: Vec<u8> = reply.written.iter().map(|byte| *byte as u8).collect();
    let (lent, numbers) = (table.clone(), [shares, masks, NI, order, MAX_SIZE]);
    let by_walk = within(LIMIT, move || engine::verdict(&table, numbers));
    let by_masks = within(LIMIT, move || engine::directed_verdict(&lent, numbers));
    let (Some((_, walk)), Some((_, directed))) = (by_walk, by_masks) else {
        tally.differs(|| format!("quick: {EVERY_SET}: no verdict in {LIMIT:?}"));
        return None;
    };
    let factor = walk.as_secs_f64() / directed.as_secs_f64();
    if factor < LEAST_OF_WALK {
        tally.differs(|| format!("quick: {EVERY_SET}: {walk:?} for every set, {directed:?} for a directed verdict"));
    }
    Some(factor)
}

/// How many times as long as the other verdict it took at most; none where it took too long.
fn dense(random: &mut Random, tally: &mut Tally) -> Option<f64> {
    let mut most: f64 = 0.0;
    for table in dense_tables(random) {
        let call = TableCall::new(random, &table);
        let numbers = [call.shares, call.masks, NI, MAX_SIZE, MAX_SIZE];
        let start = Instant::now();
        let plain = engine::verdict(&call.table, numbers);
        let time = start.elapsed();
        let lent = call.table.clone();
        let limit = TIMES * time + MORE;
        let Some((reply, directed)) = within(limit, move || engine::directed_verdict(&lent, numbers)) else {
            tally.differs(|| {
                format!(
                    "quick: {time:?} for a verdict, over {limit:?} for a directed one: {}",
                    call.show()
                )
            });
            return None;
        };
        // Not what is tried here, but nothing else asks for so many sets of a directed verdict.
        if reply != plain || reply != Reply::answered(&[1], Vec::new()) {
            tally.differs(|| {
                format!(
                    "quick: {}\n    verdict:          {plain}\n    directed: {reply}",
                    call.show()
                )
            });
        }
        most = most.max(directed.as_secs_f64() / time.as_secs_f64());
    }
    Some(most)
}

/// Tables that hold, since no wire has more than one share, with masks in many wires each: drawn bits in all masks, most
/// of them there, drawn bits in a few, a mask that stands in all wires, and a mask in each half of them.
fn dense_tables(random: &mut Random) -> Vec<Table> {
    let half = u64::MAX >> (MAX_MASKS / 2);
    let mut masks = Vec::new();
    masks.push((0..WIRES_OF_DENSE).map(|_| random.next()).collect::<Vec<u64>>());
    masks.push(
        (0..WIRES_OF_DENSE)
            .map(|_| random.next() | random.next() | random.next())
            .collect(),
    );
    masks.push(
        (0..WIRES_OF_DENSE)
            .map(|_| random.next() & random.next() & half)
            .collect(),
    );
    masks.push((0..WIRES_OF_DENSE).map(|_| random.next() & 0xFF).collect());
    masks.push((0..WIRES_OF_DENSE).map(|_| random.next() | 1).collect());
    masks.push((0..WIRES_OF_DENSE).map(|_| random.next() & 0xFE | 1).collect());
    masks.push(vec![1; WIRES_OF_DENSE]);
    masks.push((0..WIRES_OF_DENSE).map(|wire| 1 << (wire % 2)).collect());
    let table = |masks: &Vec<u64>| Table {
        records: masks
            .iter()
            .map(|masks| Record {
                masks: *masks,
                ..record(random, MAX_SHARES, 0, 1)
            })
            .collect(),
        shares: MAX_SHARES,
        masks: MAX_MASKS,
    };
    masks.iter().map(table).collect()
}
