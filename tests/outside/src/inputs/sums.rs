//! Texts for the notes on sums: gadgets for each function and for none with symbols that are too many, missing or named
//! twice; and breaks by sets whose sums name products, shares of a, shares of b, or some of each, and in which symbols
//! cancel out.

use super::gadgets::Description;
use crate::model::functions::{COPY, PRODUCT, SUM};
use crate::model::records::{MAX_MASKS, MAX_SHARES};
use crate::model::sets::MAX_SIZE;

/// A gadget whose output lines add up to nothing.
const NOTHING: usize = 0;

/// In the lists a stroke parts the texts. These are symbols that are too many or missing, in no order; n is the last
/// share's number. Symbols that a change names twice change nothing of what the output lines add up to.
const CHANGES: &str = "/s00/snn s0n/s10 s01/a0/b0/bn an/r0/r63 r0/r10 r9 r2/s11 s11 r1 r1 a0 a0/\
    r63 bn r2 a0 s10 r10 s0n";

/// A dollar sign is a line end. By sums of every kind of symbols, which stand falling in the text, and by two wires or
/// three that have symbols in common.
const BROKEN: &str = "ORDER = 1$MASKS = []$a1 a0$b0$/ORDER = 1$MASKS = []$b1 b0$a0$/\
    ORDER = 1$MASKS = []$b1 a1 b0 a0$a1$/ORDER = 1$MASKS = []$s10 s01$s11$/ORDER = 1$MASKS = []$a1 s00$a0$/\
    ORDER = 1$MASKS = []$b0 s11$a0$/ORDER = 1$MASKS = [r0]$(r0 b1 a1) (s01 r0)$b0$/\
    ORDER = 2$MASKS = [r0]$r0 s01 a0 a1$r0 s01 a2$r0$/ORDER = 2$MASKS = [r0]$r0 s21 b1$s21 r0 b0 b2$r0 b2$/\
    ORDER = 3$MASKS = [r0, r1]$s01 r0 a0$s01 r1 a1$r0 s01 r1 a2 a3$r1$";

/// A gadget that holds, for the product but for s10.
pub const ANOTHER: &str = "ORDER = 1\nMASKS = [r0]\ns00 r0\ns11 (r0 s01)\n";

pub fn texts() -> Vec<Vec<u8>> {
    let mut texts = vec![longest_note(), all_symbols_in_a_set()];
    for order in 1..=MAX_SIZE {
        for function in [NOTHING, PRODUCT, SUM, COPY] {
            texts.extend(CHANGES.split('/').map(|change| changed(function, order, change)));
        }
    }
    texts.extend(BROKEN.split('/').map(|text| text.replace('$', "\n").into_bytes()));
    texts
}

/// A multiplication that one wire breaks, of so many sets that this is said.
pub fn long_product() -> Vec<u8> {
    changed(PRODUCT, MAX_SIZE, "")
}

/// A gadget for a function at an order with some symbols changed. At odd orders one that stands there is left out, at
/// even ones it is named once more.
fn changed(function: usize, order: usize, change: &str) -> Vec<u8> {
    let mut lines: Vec<Vec<String>> = (0..=order).map(|i| line_for(function, order, i)).collect();
    for (number, symbol) in change.replace('n', &order.to_string()).split_whitespace().enumerate() {
        let place = lines.iter().position(|line| line.iter().any(|own| own == symbol));
        match place {
            Some(place) if order % 2 == 1 => lines[place].retain(|own| own != symbol),
            _ => lines[number % (order + 1)].push(String::from(symbol)),
        }
    }
    let nothing = adding_nothing(order);
    let lines: Vec<String> = lines
        .iter()
        .map(|line| format!("{nothing} {}", line.join(" ")))
        .collect();
    let numbers = lines.iter().flat_map(|line| line.split(' ')).filter_map(mask_number);
    let masks = numbers.max().map_or(0, |highest| highest + 1);
    Description { order, masks, lines }.text()
}

fn line_for(function: usize, order: usize, i: usize) -> Vec<String> {
    match function {
        PRODUCT => (0..=order).map(|j| format!("s{i}{j}")).collect(),
        SUM => vec![format!("a{i}"), format!("b{i}")],
        COPY => vec![format!("a{i}")],
        _ => Vec::new(),
    }
}

/// The start of each line: from order 4 on with a wire that breaks at once, where a verdict could take long.
fn adding_nothing(order: usize) -> &'static str {
    match order {
        ..=3 => "r0 r0",
        _ => "a0 a1 a1 a0 b0 b0",
    }
}

fn mask_number(symbol: &str) -> Option<usize> {
    symbol.strip_prefix('r').and_then(|number| number.parse().ok())
}

/// All shares of a and of b, falling.
fn shares() -> String {
    let named = ["b", "a"].map(|kind| (0..MAX_SHARES).rev().map(|i| format!("{kind}{i} ")).collect::<String>());
    named.concat()
}

/// Of the product one symbol is there, and all that is no product is too many.
fn longest_note() -> Vec<u8> {
    let masks: String = (0..MAX_MASKS).rev().map(|k| format!("r{k} ")).collect();
    changed(NOTHING, MAX_SIZE, &format!("{masks}{}s77", shares()))
}

/// One wire breaks, which names all that is no mask; a mask is in all sums on the way.
fn all_symbols_in_a_set() -> Vec<u8> {
    let pairs = (0..MAX_SHARES)
        .rev()
        .flat_map(|i| (0..MAX_SHARES).rev().map(move |j| (i, j)));
    let products: String = pairs.map(|(i, j)| format!("s{i}{j} ")).collect();
    let others = "r0\n".repeat(MAX_SIZE);
    format!(
        "ORDER = {MAX_SIZE}\nMASKS = [r0]\nr0 {}{products}r0\n{others}",
        shares()
    )
    .into_bytes()
}
