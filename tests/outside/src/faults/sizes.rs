//! Wrong answers on the size of a check: each has to be told from the engine's on some text.

use crate::model;
use crate::model::records::{MAX_TABLE_BYTES, MAX_WIRES, RECORD_BYTES};
use crate::model::sets::{count, MAX_SIZE};
use crate::model::sizes::Size;
use crate::model::symbols::order_of;
use crate::model::trees::Fault;
use crate::reply::Reply;
use crate::tally::Tally;

/// The places of numbers in a reply.
const SHARES: usize = 1;
const MASKS: usize = 2;
const WIRES: usize = 3;
const BYTES: usize = 4;
const OFFSET: usize = 5;

/// What is asked: the text, the size of its check, and how many numbers are lent for the sets.
pub struct Asked<'a> {
    pub text: &'a [u8],
    pub size: &'a Result<Size, Fault>,
    pub length: usize,
}

/// From the right answer.
type Wrong = fn(Reply, &Asked) -> Reply;

const NUMBERS: [(&str, Wrong); 8] = [
    ("a check's bytes of one wire less", |right, asked| {
        with_number(right, asked, BYTES, |size| size.bytes - RECORD_BYTES)
    }),
    ("a check's bytes of as many wires as there may be", |right, asked| {
        with_number(right, asked, BYTES, |_| MAX_TABLE_BYTES)
    }),
    ("a check's wires told for its bytes", |right, asked| {
        with_number(right, asked, BYTES, |size| size.wires)
    }),
    ("a check's last wire told for how many there are", |right, asked| {
        with_number(right, asked, WIRES, |size| size.wires - 1)
    }),
    ("a check's order told for its shares", |right, asked| {
        with_number(right, asked, SHARES, |size| size.order)
    }),
    ("a check's masks counted by their names", |right, asked| {
        let heading = asked.text.iter().take_while(|byte| **byte != b']');
        let names = heading.filter(|byte| **byte == b'r').count();
        with_number(right, asked, MASKS, |_| names)
    }),
    ("an offset with a check's size", |mut right, asked| {
        if right.status == 0 {
            right.numbers[OFFSET] = Some(asked.text.len() as u64);
        }
        right
    }),
    ("a check's numbers set to 0 with a refusal", |mut right, _| {
        if right.status != 0 {
            right.numbers[..OFFSET].fill(Some(0));
        }
        right
    }),
];

const SETS: [(&str, Wrong); 11] = [
    ("a check's sizes from 0", |right, asked| {
        with_sets(right, asked, |size| of_sizes(size, 0..size.order))
    }),
    ("a check's sizes from 2", |right, asked| {
        let above = |size: usize| (size + 1).min(MAX_SIZE);
        with_sets(right, asked, |size| of_sizes(size, (1..=size.order).map(above)))
    }),
    ("a check's sizes falling", |right, asked| {
        with_sets(right, asked, |size| of_sizes(size, (1..=size.order).rev()))
    }),
    ("a check's largest size for all", |right, asked| {
        with_sets(right, asked, |size| vec![count(size.wires, size.order); size.order])
    }),
    ("a check's sets added up from size to size", |right, asked| {
        let up_to = |size: &Size, most: usize| size.sets[..most].iter().sum();
        with_sets(right, asked, |size| {
            (1..=size.order).map(|most| up_to(size, most)).collect()
        })
    }),
    ("a check's sets for both notions", |right, asked| {
        with_sets(right, asked, |size| size.sets.iter().map(|sets| 2 * sets).collect())
    }),
    ("a check's sets in 32 bits", |right, asked| {
        with_sets(right, asked, |size| {
            size.sets.iter().map(|sets| sets % (1 << 32)).collect()
        })
    }),
    ("a check's sets out of one wire less", |right, asked| {
        let less = |size: &Size| (1..=size.order).map(|k| count(size.wires - 1, k)).collect();
        with_sets(right, asked, less)
    }),
    ("a check's sets but for the last size", |right, asked| {
        with_sets(right, asked, |size| of_sizes(size, 1..size.order))
    }),
    ("a check's sets past the order", |right, asked| {
        let room = asked.length.min(MAX_SIZE);
        with_sets(right, asked, |size| of_sizes(size, 1..=room))
    }),
    ("a check's numbers past the order set to 0", |mut right, asked| {
        if right.status == 0 {
            right.sets.resize(asked.length, 0);
        }
        right
    }),
];

const READING: [(&str, Wrong); 10] = [
    ("10 for a check of 512 wires", |right, asked| {
        too_short(right, asked, |size| size.wires == MAX_WIRES)
    }),
    ("10 for a table too short, of 4,096 bytes", |right, asked| {
        too_short(right, asked, |size| size.bytes > 4_096)
    }),
    (
        "10 for a table too short, the numbers lent for the sets",
        |right, asked| too_short(right, asked, |size| size.bytes > 8 * asked.length),
    ),
    ("10 where a check's sets have no room", |right, asked| {
        too_short(right, asked, |size| size.order > asked.length)
    }),
    ("a check's offset 0", |right, _| at(right, |_| Some(0))),
    ("a check's offset one byte further", |right, _| {
        at(right, |offset| Some(offset + 1))
    }),
    ("a check's offset not told", |right, _| at(right, |_| None)),
    ("a check's offset told for its bytes", |mut right, _| {
        if right.numbers[OFFSET].is_some() {
            right.numbers.swap(BYTES, OFFSET);
        }
        right
    }),
    ("16 before a text is read", |right, asked| match asked.length {
        0 => Reply::refused(16),
        _ => right,
    }),
    ("16 as soon as a text's order is known", |right, asked| {
        let line = asked.text.split(|byte| *byte == b'\n').next();
        match line.and_then(order_of) {
            Some(order) if asked.length < order => Reply::refused(16),
            _ => right,
        }
    }),
];

const ROOM: [(&str, Wrong); 6] = [
    ("16 for sets with just enough room", |right, asked| match asked.size {
        Ok(size) if asked.length <= size.order => Reply::refused(16),
        _ => right,
    }),
    ("16 where not all sizes have room", |right, asked| match asked.size {
        Ok(_) if asked.length < MAX_SIZE => Reply::refused(16),
        _ => right,
    }),
    ("16 with an offset", |mut right, asked| {
        if right.status == 16 {
            right.numbers[OFFSET] = Some(asked.text.len() as u64);
        }
        right
    }),
    ("16 with a check's numbers", |mut right, asked| {
        if right.status == 16 {
            right.numbers = told(asked).numbers;
        }
        right
    }),
    ("16 with the sets that have room", |mut right, asked| {
        if right.status == 16 {
            right.sets = told(asked).sets[..asked.length].to_vec();
        }
        right
    }),
    (
        "a check's sets cut off where they have no room",
        |right, asked| match right.status {
            16 => Reply {
                sets: told(asked).sets[..asked.length].to_vec(),
                ..told(asked)
            },
            _ => right,
        },
    ),
];

fn all() -> impl Iterator<Item = &'static (&'static str, Wrong)> {
    NUMBERS.iter().chain(&SETS).chain(&READING).chain(&ROOM)
}

pub fn name_all(tally: &mut Tally) {
    all().for_each(|(name, _)| tally.expect_fault(name));
}

/// On a text, with the engine's reply for each length of the numbers lent for the sets.
pub fn check_size(tally: &mut Tally, text: &[u8], size: &Result<Size, Fault>, replies: &[(usize, Reply)]) {
    for (name, wrong) in all() {
        let differs = |(length, engine): &(usize, Reply)| {
            let (length, right) = (*length, model::check_size(size, *length));
            wrong(right, &Asked { text, size, length }) != *engine
        };
        tally.fault(name, replies.iter().any(differs));
    }
}

/// The answer with room for all sizes.
fn told(asked: &Asked) -> Reply {
    model::check_size(asked.size, MAX_SIZE)
}

fn of_sizes(size: &Size, sizes: impl Iterator<Item = usize>) -> Vec<u64> {
    sizes.map(|of| count(size.wires, of)).collect()
}

fn with_number(mut right: Reply, asked: &Asked, place: usize, number: impl Fn(&Size) -> usize) -> Reply {
    if let (0, Ok(size)) = (right.status, asked.size) {
        right.numbers[place] = Some(number(size) as u64);
    }
    right
}

fn with_sets(mut right: Reply, asked: &Asked, sets: impl Fn(&Size) -> Vec<u64>) -> Reply {
    if let (0, Ok(size)) = (right.status, asked.size) {
        right.sets = sets(size);
    }
    right
}

/// 10 at the text's length, as reading has it for a table that is too short.
fn too_short(right: Reply, asked: &Asked, is_short: impl Fn(&Size) -> bool) -> Reply {
    match asked.size {
        Ok(size) if is_short(size) => {
            let mut reply = Reply::refused(10);
            reply.numbers[OFFSET] = Some(asked.text.len() as u64);
            reply
        }
        _ => right,
    }
}

/// A refusal of the text at another offset.
fn at(mut right: Reply, other: impl Fn(u64) -> Option<u64>) -> Reply {
    right.numbers[OFFSET] = right.numbers[OFFSET].and_then(other);
    right
}
