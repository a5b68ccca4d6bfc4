//! The guards themselves: stray writes are made on purpose, at every place around and in lent memory, and have to be
//! seen.

use crate::engine::Lent;
use crate::random::Random;
use crate::tally::Tally;

const GUARDED: isize = 64;
/// As many as one more than there are sizes of sets.
const NUMBERS: usize = 8;

pub fn run(random: &mut Random, tally: &mut Tally) {
    let mut seen = 0;
    for place in (-GUARDED..0).chain(10..10 + GUARDED) {
        seen += u32::from(stray_byte_is_seen(random, place));
    }
    seen += u32::from(altered_number_is_seen()) + u32::from(altered_input_is_seen());
    seen += (0..NUMBERS)
        .map(|place| u32::from(altered_in_a_row_is_seen(place)))
        .sum::<u32>();
    let made = 2 * GUARDED as u32 + 2 + NUMBERS as u32;
    tally.say(format!("guards          {made} stray writes made, {seen} seen"));
    if seen != made {
        tally.differs(|| String::from("guards: a stray write is not seen"));
    }
}

/// A byte is altered `place` bytes from the start of a lent buffer of ten bytes.
fn stray_byte_is_seen(random: &mut Random, place: isize) -> bool {
    let mut lent = Lent::new();
    let buffer = lent.bytes(10);
    let byte: *mut u8 = buffer.at(lent.base());
    // The guards belong to the same block as the buffer, so the place is in it.
    unsafe { *byte.wrapping_offset(place) ^= 1 << random.below(8) };
    !lent.reply(0, &[], Some(buffer)).rest_kept
}

fn altered_number_is_seen() -> bool {
    let mut lent = Lent::new();
    let number = lent.number();
    let number_at: *mut u64 = number.at(lent.base());
    unsafe { *number_at = 1 };
    lent.reply(11, &[number], None).numbers[0] == Some(1)
}

/// Of lent numbers that lie in a row one is altered, in its highest byte alone.
fn altered_in_a_row_is_seen(place: usize) -> bool {
    let mut lent = Lent::new();
    let row = lent.numbers(NUMBERS);
    let row_at: *mut u64 = row.at(lent.base());
    unsafe { *row_at.add(place) ^= 1 << 63 };
    let reply = lent.reply(0, &[], Some(row));
    reply.sets.len() == place + 1 && reply.sets[place] >> 63 == 0 && reply.rest_kept
}

fn altered_input_is_seen() -> bool {
    let mut lent = Lent::new();
    let text = lent.bytes_with(b"ORDER = 1");
    let text_at: *mut u8 = text.at(lent.base());
    unsafe { *text_at.wrapping_add(8) = b'2' };
    !lent.reply(0, &[], None).rest_kept
}
