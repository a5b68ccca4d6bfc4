//! The function check, by values where all inputs and mask settings can be tried, and by the records' sum.

use super::records::Record;

pub const PRODUCT: usize = 1;
pub const SUM: usize = 2;
pub const COPY: usize = 3;

/// Inputs and mask settings are tried out up to 2 to this power.
const MOST_TRIED_BITS: usize = 9;

pub fn computes(records: &[Record], shares: usize, masks: usize, function: usize) -> bool {
    // Two sums of different products, shares and masks differ in value somewhere; so the sum has to be the function's.
    let by_records = sum_of_outputs(records) == own_sum(shares, function);
    if 2 * shares + masks <= MOST_TRIED_BITS {
        assert_eq!(
            by_records,
            values_are(&outer(records), shares, masks, function),
            "the model contradicts itself"
        );
    }
    by_records
}

fn outer(records: &[Record]) -> Vec<Record> {
    records.iter().copied().filter(|record| record.is_outer()).collect()
}

/// What the output lines add up to.
pub fn sum_of_outputs(records: &[Record]) -> Record {
    outer(records)
        .into_iter()
        .fold(Record::default(), |sum, wire| sum.plus(wire))
}

/// For every input and mask setting, the outer wires' bits add up to the function's.
fn values_are(outer: &[Record], shares: usize, masks: usize, function: usize) -> bool {
    let operand = |shares: u8| shares.count_ones() % 2 == 1;
    let inputs = (0..1u8 << shares).flat_map(|a| (0..1u8 << shares).map(move |b| (a, b)));
    let mut settings = inputs.flat_map(|(a, b)| (0..1u64 << masks).map(move |setting| (a, b, setting)));
    settings.all(|(a, b, setting)| {
        let ones = outer.iter().filter(|wire| wire.value(a, b, setting)).count();
        let wanted = match function {
            PRODUCT => operand(a) && operand(b),
            SUM => operand(a) != operand(b),
            _ => operand(a),
        };
        (ones % 2 == 1) == wanted
    })
}

/// What the output lines of a gadget for the function add up to.
pub fn own_sum(shares: usize, function: usize) -> Record {
    let mut wanted = Record::default();
    for i in 0..shares {
        if function == PRODUCT {
            wanted = (0..shares).fold(wanted, |wanted, j| wanted.plus(Record::product(i, j)));
        }
        if function == SUM {
            wanted = wanted.plus(Record::share_of_b(i));
        }
        if function == SUM || function == COPY {
            wanted = wanted.plus(Record::share_of_a(i));
        }
    }
    wanted
}
