//! The multiplication of Ishai, Sahai and Wagner, written for every order into buffers of every length; and what is read
//! from each text, whose function and verdicts are known beforehand.

use super::examples::A;
use super::{texts, verdicts};
use crate::answers::Entry;
use crate::engine;
use crate::faults;
use crate::inputs::calls::{show_text, TableCall};
use crate::model;
use crate::model::breaking::{NI, SNI};
use crate::model::functions::{COPY, PRODUCT, SUM};
use crate::model::isw::{MAX_ISW_ORDER, RIGHT};
use crate::model::reading::MAX_TEXT_BYTES;
use crate::model::records::{MAX_TABLE_BYTES, RECORD_BYTES};
use crate::model::sets::MAX_SIZE;
use crate::random::Random;
use crate::reply::Reply;
use crate::tally::Tally;

/// Every order up to this one is asked for, and some that only a part of their bits would make small.
pub const HIGHEST: usize = 12;
const HUGE: [usize; 4] = [1 << 32, (1 << 32) + 1, 1 << 63, usize::MAX];
/// Buffers are longer than the text by up to so many bytes.
const MORE: usize = 64;
/// The texts of this folder are named by their orders.
const GADGETS: &str = "gadgets";
/// Up to this order all sets of a text are few enough. Of texts of a higher order those of up to two wires are.
const MOST_SEARCHED: usize = 4;
const SEARCHED_ABOVE: usize = 2;

pub fn run(random: &mut Random, tally: &mut Tally) {
    let mut calls = 0;
    for order in (0..=HIGHEST).chain(HUGE) {
        calls += every_length(tally, order);
    }
    let mut verdicts = 0;
    for order in 1..=MAX_ISW_ORDER {
        let text = written(order);
        is_known(tally, order, &text);
        texts::every_length(random, tally, &text);
        verdicts += table_is_right(tally, order, &text);
    }
    tally.say(format!(
        "isw_text        {calls} calls at {} orders, {MAX_ISW_ORDER} texts read that are the product, as in {GADGETS}, \
          {verdicts} verdicts that hold",
        HIGHEST + 1 + HUGE.len()
    ));
}

/// How many buffers an order was asked to be written to: of every length up to past the text's, for an order that is
/// turned down too, whose text would have one.
fn every_length(tally: &mut Tally, order: usize) -> usize {
    let text = RIGHT.text(order.min(HIGHEST));
    let lengths = (0..=text.len() + MORE).chain([MAX_TEXT_BYTES, MAX_TEXT_BYTES + 1]);
    let mut replies = Vec::new();
    for length in lengths {
        let reply = engine::isw_text(order, length);
        let model = model::isw_text(order, length);
        let input = || format!("order {order} text_length {length}");
        tally.compare(Entry::IswText, "written", &model, &reply, input);
        replies.push((length, reply));
    }
    faults::isw::isw_text(tally, order, &text, &replies);
    replies.len()
}

/// What the engine writes into a buffer that is always long enough.
fn written(order: usize) -> Vec<u8> {
    let reply = engine::isw_text(order, MAX_TEXT_BYTES);
    reply.written.iter().map(|byte| *byte as u8).collect()
}

/// The text of order 1 is the scope's, and those that stand in the gadgets' folder are there byte for byte.
fn is_known(tally: &mut Tally, order: usize, text: &[u8]) {
    if order == 1 && text != A.as_bytes() {
        tally.differs(|| format!("IswText: order 1 is not text A, {}", show_text(text)));
    }
    let path = format!("{GADGETS}/isw-{order}.txt");
    let file = std::fs::read(&path).unwrap_or_else(|why| panic!("{path} can be read: {why}"));
    if file != text {
        tally.differs(|| format!("IswText: order {order} is not {path}, {}", show_text(text)));
    }
}

/// How many verdicts hold on the table that is read from a text. The table has as many wires as it should, each record
/// as the model has it, and computes the product and nothing else.
fn table_is_right(tally: &mut Tally, order: usize, text: &[u8]) -> usize {
    let (masks, shares) = (order * (order + 1) / 2, order + 1);
    // Every mask, every product, and an addition for every item but the first of a line or group.
    let wires = 5 * masks + shares * shares;
    let exact = wires * RECORD_BYTES;
    let numbers = [order, shares, masks, wires].map(|number| number as u64);
    for length in [exact, MAX_TABLE_BYTES] {
        texts::ask_read(tally, text, length);
        let reply = engine::read_text(text, length);
        if reply.status != 0 || reply.numbers[..4] != numbers.map(Some) {
            tally.differs(|| format!("IswText: order {order} read into {length} bytes\n    engine: {reply}"));
        }
    }
    texts::ask_read(tally, text, exact - 1);
    let short = engine::read_text(text, exact - 1);
    if (short.status, short.numbers[4]) != (10, Some(text.len() as u64)) {
        tally.differs(|| format!("IswText: order {order} read into a byte too few\n    engine: {short}"));
    }
    let table = engine::read_text(text, exact).written;
    let table = table.iter().map(|byte| *byte as u8).collect();
    let call = TableCall { table, shares, masks };
    is_product(tally, &call);
    hold(tally, &call, order)
}

fn is_product(tally: &mut Tally, call: &TableCall) {
    for function in [PRODUCT, SUM, COPY] {
        verdicts::ask_function(tally, call, function);
        let reply = engine::function_check(&call.table, call.shares, call.masks, function);
        if reply != Reply::answered(&[u64::from(function == PRODUCT)], Vec::new()) {
            tally.differs(|| format!("IswText: function {function} {}\n    engine: {reply}", call.show()));
        }
    }
}

/// By the engine and by the model, at the text's own order where that does not take too long.
fn hold(tally: &mut Tally, call: &TableCall, order: usize) -> usize {
    let highest = if order <= MOST_SEARCHED { order } else { SEARCHED_ABOVE };
    for notion in [NI, SNI] {
        let reply = verdicts::ask_verdict(tally, call, [notion, highest, MAX_SIZE]);
        if reply != Reply::answered(&[1], Vec::new()) {
            tally.differs(|| format!("IswText: notion {notion} {}\n    engine: {reply}", call.show()));
        }
    }
    [NI, SNI].len()
}
