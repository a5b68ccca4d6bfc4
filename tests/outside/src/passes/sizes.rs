//! The size of a check, from texts of every kind, with room for as many numbers of sets as there are, for fewer and for
//! more; and that it is what the engine's own reading and set counts tell.

use crate::answers::Entry;
use crate::engine;
use crate::faults;
use crate::inputs::calls::show_text;
use crate::inputs::damage::{damaged, random_bytes, wrong_lines};
use crate::inputs::files;
use crate::inputs::gadgets;
use crate::inputs::noted::{self, broken_at_once};
use crate::inputs::sums;
use crate::inputs::texts::{sound, with_depth, with_length, with_wires};
use crate::inputs::words;
use crate::model;
use crate::model::records::{MAX_TABLE_BYTES, MAX_WIRES, RECORD_BYTES};
use crate::model::sets::MAX_SIZE;
use crate::model::sizes::Size;
use crate::random::Random;
use crate::reply::Reply;
use crate::tally::Tally;

const SOUND_TEXTS: usize = 3_000;
const DAMAGED_TEXTS: usize = 15_000;
const RANDOM_TEXTS: usize = 5_000;
const TEXTS_AT_LIMITS: usize = 60;
/// More numbers than there are sizes.
const MORE: usize = 40;
/// Of a refused text no order is known, and no length of the numbers is to make a difference.
const LENGTHS_OF_REFUSED: [usize; 4] = [0, 1, MAX_SIZE, MORE];

const ORDERS: [&str; MAX_SIZE] = ["order 1", "2", "3", "4", "5", "6", "7"];
const MOST_WIRES: &str = "512 wires";
const ABOVE_32_BITS: &str = "sets above 32 bits";

pub fn run(random: &mut Random, tally: &mut Tally) {
    tally.expect("sizes", &ORDERS);
    tally.expect("sizes", &[MOST_WIRES, ABOVE_32_BITS]);
    let mut agree = 0;
    let known = [known(), at_most_wires(), beyond_all_limits(), wrong_lines()].concat();
    known.iter().for_each(|text| agree += every_length(tally, text));
    for _ in 0..SOUND_TEXTS {
        let items = random.pick(&[2, 3, 4]);
        let text = match random.chance(70) {
            true => sound(random, items),
            false => gadgets::any(random, MAX_SIZE).text(),
        };
        agree += every_length(tally, &text);
    }
    for _ in 0..DAMAGED_TEXTS {
        let text = match random.chance(60) {
            true => sound(random, 3),
            false => gadgets::any(random, 4).text(),
        };
        agree += every_length(tally, &damaged(random, &text));
    }
    for _ in 0..RANDOM_TEXTS {
        agree += every_length(tally, &random_bytes(random));
    }
    for text in at_limits(random) {
        agree += every_length(tally, &text);
    }
    tally.say(format!(
        "check_size      {agree} texts whose size is that of the engine's own reading and set counts"
    ));
}

/// The gadgets, and the texts that the programs get.
fn known() -> Vec<Vec<u8>> {
    let paths = files::gadgets().into_iter().chain(files::listed());
    let texts = paths.map(|path| files::read(&path)).collect();
    [texts, noted::texts(), sums::texts(), words::texts()].concat()
}

/// At every order texts of as many wires as there may be, one less and one more. One more is refused whatever stands
/// behind the last line.
fn at_most_wires() -> Vec<Vec<u8>> {
    let mut texts = Vec::new();
    for order in 1..=MAX_SIZE {
        for wires in MAX_WIRES - 1..=MAX_WIRES + 1 {
            let text = broken_at_once(order, wires);
            let told = Size::of(&text).map_or(MAX_WIRES + 1, |size| size.wires);
            assert_eq!(told, wires, "the text has as many wires as it should");
            texts.push([text.as_slice(), b"\n  \n "].concat());
            texts.push(text[..text.len() - 1].to_vec());
            texts.push(text);
        }
    }
    texts
}

/// Texts of a length that needs more than 16 bits, and one that is empty.
fn beyond_all_limits() -> Vec<Vec<u8>> {
    let lengths = [0, 4_096, 4_097, 5_000, 65_535, 65_536, 65_550];
    let text = |length| [b' ', b'\n', b'a'].map(|byte| vec![byte; length]);
    lengths.into_iter().flat_map(text).collect()
}

fn at_limits(random: &mut Random) -> Vec<Vec<u8>> {
    let mut texts = Vec::new();
    for _ in 0..TEXTS_AT_LIMITS {
        let wires = random.between(MAX_WIRES - 4, MAX_WIRES + 4);
        let length = random.between(4_094, 4_098);
        let depth = random.between(14, 18);
        texts.push(with_wires(random, wires));
        texts.push(with_length(random, length));
        texts.push(with_depth(random, depth));
    }
    let injured: Vec<Vec<u8>> = texts.iter().map(|text| damaged(random, text)).collect();
    [texts, injured].concat()
}

/// The text with numbers lent for no sizes, for all but one, for all, for one more, for every size there is, and for
/// more. How many texts agree with the engine's own reading, one or none.
fn every_length(tally: &mut Tally, text: &[u8]) -> usize {
    let size = Size::of(text);
    let lengths = match &size {
        Ok(Size { order, .. }) => vec![0, order - 1, *order, order + 1, MAX_SIZE, MAX_SIZE + 1, MORE],
        Err(_) => LENGTHS_OF_REFUSED.to_vec(),
    };
    let word = size
        .as_ref()
        .map_or_else(|fault| fault.cause.number_and_word().1, |_| "told");
    let mut replies = Vec::new();
    for length in lengths {
        let reply = engine::check_size(text, length);
        let input = || format!("sets_length {length} {}", show_text(text));
        tally.compare(Entry::CheckSize, word, &model::check_size(&size, length), &reply, input);
        replies.push((length, reply));
    }
    faults::sizes::check_size(tally, text, &size, &replies);
    if let Ok(size) = &size {
        count_kinds(tally, size);
    }
    usize::from(agrees(tally, text))
}

fn count_kinds(tally: &mut Tally, size: &Size) {
    tally.occurs("sizes", ORDERS[size.order - 1]);
    if size.wires == MAX_WIRES {
        tally.occurs("sizes", MOST_WIRES);
    }
    if size.sets.iter().any(|sets| *sets > u64::from(u32::MAX)) {
        tally.occurs("sizes", ABOVE_32_BITS);
    }
}

/// Whether the size that the engine tells is what its own reading and set counts tell, whatever the model says.
fn agrees(tally: &mut Tally, text: &[u8]) -> bool {
    let size = engine::check_size(text, MAX_SIZE);
    let right = match size.status {
        0 => is_read_so(text, &size) && is_counted_so(&size),
        _ => is_refused_so(text, &size),
    };
    if !right {
        tally.differs(|| {
            format!(
                "CheckSize is not what is read or counted: {}\n    engine: {size}",
                show_text(text)
            )
        });
    }
    right
}

/// Read into a table of just the bytes told, and of more, the text gives the same numbers and takes up just these bytes;
/// with a byte less the table is too short.
fn is_read_so(text: &[u8], size: &Reply) -> bool {
    let bytes = size.numbers[4].map_or(0, |bytes| bytes as usize);
    let enough = |length: usize| {
        let read = engine::read_text(text, length);
        read.status == 0 && read.numbers[..4] == size.numbers[..4] && read.written.len() == bytes
    };
    let less = engine::read_text(text, bytes.saturating_sub(1));
    let too_short = (less.status, less.numbers[4]) == (10, Some(text.len() as u64));
    let lengths = [bytes, bytes + 1, bytes + RECORD_BYTES, MAX_TABLE_BYTES];
    too_short && lengths.into_iter().all(enough)
}

fn is_counted_so(size: &Reply) -> bool {
    let [order, wires] = [0, 3].map(|place| size.numbers[place].unwrap_or(0) as usize);
    let counts = (1..=order).map(|of| engine::set_count(wires, of).numbers[0]);
    counts.eq(size.sets.iter().copied().map(Some))
}

fn is_refused_so(text: &[u8], size: &Reply) -> bool {
    let read = engine::read_text(text, MAX_TABLE_BYTES);
    (read.status, read.numbers[4]) == (size.status, size.numbers[5])
}
