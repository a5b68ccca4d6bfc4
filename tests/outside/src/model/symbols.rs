//! The two first lines and the symbols of a description, by lists of all that may stand there.

use super::records::{Record, MAX_MASKS, MAX_SHARES};
use std::collections::HashMap;
use std::sync::OnceLock;

/// What the two first lines say.
pub struct Heading {
    pub order: usize,
    /// Bit k for mask k.
    pub declared: u64,
}

impl Heading {
    pub fn mask_count(&self) -> usize {
        (0..MAX_MASKS)
            .rev()
            .find(|k| self.declared >> k & 1 == 1)
            .map_or(0, |highest| highest + 1)
    }

    /// What a run of bytes in an output line is.
    pub fn find(&self, run: &[u8]) -> Word {
        match dictionary(self.order).get(run) {
            None => Word::NoSymbol,
            Some(symbol) if symbol.masks & !self.declared != 0 => Word::UndeclaredMask,
            Some(symbol) => Word::Symbol(*symbol),
        }
    }
}

pub enum Word {
    Symbol(Record),
    UndeclaredMask,
    NoSymbol,
}

/// The order, where the line is exactly one of the seven that may stand first.
pub fn order_of(line: &[u8]) -> Option<usize> {
    (1..=7).find(|order| line == format!("ORDER = {order}").as_bytes())
}

/// The declared masks, where the line is exactly as it has to be.
pub fn masks_of(line: &[u8]) -> Option<u64> {
    let names = std::str::from_utf8(line)
        .ok()?
        .strip_prefix("MASKS = [")?
        .strip_suffix(']')?;
    let mut declared = 0;
    if names.is_empty() {
        return Some(declared);
    }
    for name in names.split(", ") {
        let mask = dictionary(1).get(name.as_bytes())?.masks;
        if mask == 0 || declared & mask != 0 {
            return None;
        }
        declared |= mask;
    }
    Some(declared)
}

/// The symbols that a sum names: products, by the share of a and then by that of b, shares of a, of b, and masks.
pub fn names(sum: Record) -> Vec<String> {
    let pairs = (0..MAX_SHARES).flat_map(|i| (0..MAX_SHARES).map(move |j| (i, j)));
    let products = pairs.map(|(i, j)| (format!("s{i}{j}"), Record::product(i, j)));
    let shares_of_a = (0..MAX_SHARES).map(|i| (format!("a{i}"), Record::share_of_a(i)));
    let shares_of_b = (0..MAX_SHARES).map(|j| (format!("b{j}"), Record::share_of_b(j)));
    let masks = (0..MAX_MASKS).map(|k| (format!("r{k}"), Record::mask(k)));
    let all = products.chain(shares_of_a).chain(shares_of_b).chain(masks);
    let named = all.filter(|(_, symbol)| sum.common(*symbol) == *symbol);
    named.map(|(name, _)| name).collect()
}

/// Every symbol that may stand in an output line at an order, all masks among them, by its bytes.
fn dictionary(order: usize) -> &'static HashMap<Vec<u8>, Record> {
    static DICTIONARIES: OnceLock<Vec<HashMap<Vec<u8>, Record>>> = OnceLock::new();
    &DICTIONARIES.get_or_init(|| (0..=7).map(write_dictionary).collect())[order]
}

fn write_dictionary(order: usize) -> HashMap<Vec<u8>, Record> {
    let mut symbols = HashMap::new();
    for i in 0..=order {
        for j in 0..=order {
            symbols.insert(format!("s{i}{j}").into_bytes(), Record::product(i, j));
        }
        symbols.insert(format!("a{i}").into_bytes(), Record::share_of_a(i));
        symbols.insert(format!("b{i}").into_bytes(), Record::share_of_b(i));
    }
    for k in 0..MAX_MASKS {
        symbols.insert(format!("r{k}").into_bytes(), Record::mask(k));
    }
    symbols
}
