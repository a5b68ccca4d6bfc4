//! Wrong answers on a set's dependence: each has to be told from the engine's on some set.

use crate::model::breaking::{inner, shares_of_a, shares_of_b, sum};
use crate::model::records::Record;
use crate::reply::Reply;
use crate::tally::Tally;

/// Of a, of b, allowed, masked: from the right ones, the wires and the set.
type Wrong = fn([u64; 4], &[Record], &[u16]) -> [u64; 4];

const WRONG: [(&str, Wrong); 9] = [
    (
        "a set's counts of a and b exchanged",
        |[a, b, allowed, masked], _, _| [b, a, allowed, masked],
    ),
    ("a set's counts added", |[a, b, allowed, masked], _, _| {
        [a + b, a + b, allowed, masked]
    }),
    ("a set with a mask has no counts", |[a, b, allowed, masked], _, _| {
        [a * (1 - masked), b * (1 - masked), allowed, masked]
    }),
    ("a set's masks not told", |[a, b, allowed, _], _, _| [a, b, allowed, 0]),
    (
        "a set's mask told by how many are left",
        |[a, b, allowed, _], wires, set| [a, b, allowed, u64::from(sum(wires, set).masks.count_ones())],
    ),
    (
        "a set is allowed as many shares as wires always",
        |[a, b, _, masked], _, set| [a, b, set.len() as u64, masked],
    ),
    (
        "a set is allowed as many shares as inner wires always",
        |[a, b, _, masked], wires, set| [a, b, inner(wires, set) as u64, masked],
    ),
    (
        "a set's share counted though its two uses cancelled",
        |[_, _, allowed, masked], wires, set| {
            let seen = set.iter().map(|wire| wires[usize::from(*wire)]);
            let seen = seen.fold(Record::default(), |seen, wire| seen.plus(wire).plus(seen.common(wire)));
            [shares_of_a(seen) as u64, shares_of_b(seen) as u64, allowed, masked]
        },
    ),
    ("a set's products not counted", |[_, _, allowed, masked], wires, set| {
        let sum = sum(wires, set);
        let [a, b] = [sum.a, sum.b].map(|shares| u64::from(shares.count_ones()));
        [a, b, allowed, masked]
    }),
];
const EMPTY: &str = "the empty set refused";

pub fn name_all(tally: &mut Tally) {
    WRONG.iter().for_each(|(name, _)| tally.expect_fault(name));
    tally.expect_fault(EMPTY);
}

/// On a call that the model answers so.
pub fn set_dependence(tally: &mut Tally, right: [u64; 4], wires: &[Record], set: &[u16], engine: &Reply) {
    for (name, wrong) in &WRONG {
        tally.fault(name, Reply::answered(&wrong(right, wires, set), Vec::new()) != *engine);
    }
    if set.is_empty() {
        tally.fault(EMPTY, engine.status == 0);
    }
}
