//! The memory that is lent to one call: all of it lies in one block, each piece between guards, and the whole block is
//! compared with its state before the call.

use crate::reply::{Reply, MOST_NUMBERS};
use std::cell::Cell;

const GUARD_BYTES: usize = 64;

/// Every byte of the filling has its top bit set and its lowest clear. No answer looks like it: a number is below 2^63,
/// a wire number below 512, a report and a text are in ASCII, the last byte of a record (the high byte of a length) is
/// at most 16, and that of a filed report is all ones or, as part of a rank below 2^56, 0.
const FILLING_BITS: u64 = 0x8080_8080_8080_8080;
const CLEAR_BITS: u64 = 0x0101_0101_0101_0101;

thread_local! {
    /// The filling changes from call to call, so that a stray write of an equal byte is not hidden twice. Each thread
    /// counts its own calls, so that no filling depends on what another thread does at the time.
    static CALLS: Cell<u64> = const { Cell::new(0) };
}

/// For a thread that is started for one call: the call is counted here, and what is given back is done there first.
pub fn count_for_thread() -> impl FnOnce() + Send {
    let calls = CALLS.replace(CALLS.get() + 1);
    move || CALLS.set(calls)
}

/// The bytes of a number, whether it is lent alone or in a row.
const NUMBER_BYTES: usize = 8;

/// A lent piece: its first byte in the block, how many elements, bytes in each.
#[derive(Clone, Copy)]
pub struct Piece {
    start: usize,
    elements: usize,
    width: usize,
}

pub struct Lent {
    block: Vec<u64>,
    before: Vec<u64>,
    filling: u64,
    end: usize,
}

impl Lent {
    pub fn new() -> Lent {
        let calls = CALLS.replace(CALLS.get() + 1);
        Lent {
            block: Vec::new(),
            before: Vec::new(),
            filling: calls.wrapping_mul(0xD6E8_FEB8_6659_FD93),
            end: 0,
        }
    }

    /// Bytes start at an odd address, as nothing is promised on where they start.
    pub fn bytes(&mut self, elements: usize) -> Piece {
        self.place(Piece {
            start: 3,
            elements,
            width: 1,
        })
    }

    /// Wire numbers start at an address that is even and no more.
    pub fn wire_numbers(&mut self, elements: usize) -> Piece {
        self.place(Piece {
            start: 2,
            elements,
            width: 2,
        })
    }

    pub fn number(&mut self) -> Piece {
        self.numbers(1)
    }

    /// Numbers in a row, which start at an address that suits them.
    pub fn numbers(&mut self, elements: usize) -> Piece {
        self.place(Piece {
            start: 0,
            elements,
            width: NUMBER_BYTES,
        })
    }

    pub fn bytes_with(&mut self, contents: &[u8]) -> Piece {
        let piece = self.bytes(contents.len());
        view(&mut self.block)[piece.start..piece.start + contents.len()].copy_from_slice(contents);
        piece
    }

    pub fn wire_numbers_with(&mut self, contents: &[u16]) -> Piece {
        let piece = self.wire_numbers(contents.len());
        for (place, wire) in contents.iter().enumerate() {
            let at = piece.start + 2 * place;
            view(&mut self.block)[at..at + 2].copy_from_slice(&wire.to_ne_bytes());
        }
        piece
    }

    /// The piece's `start` comes in as what the address leaves when divided by 8.
    fn place(&mut self, piece: Piece) -> Piece {
        let start = (self.end + GUARD_BYTES).next_multiple_of(8) + piece.start;
        self.end = start + piece.elements * piece.width;
        for index in self.block.len()..(self.end + GUARD_BYTES).div_ceil(8) {
            let mixed = (self.filling ^ index as u64).wrapping_mul(0x9E37_79B9_7F4A_7C15);
            self.block.push((mixed | FILLING_BITS) & !CLEAR_BITS);
        }
        Piece { start, ..piece }
    }

    /// Called once, when all is placed: remembers the block and gives its address.
    pub fn base(&mut self) -> *mut u8 {
        self.before = self.block.clone();
        self.block.as_mut_ptr().cast()
    }

    /// Reads off what the call may have written, puts it back, and sees that then all is as before.
    pub fn reply(&mut self, status: u64, numbers: &[Piece], buffer: Option<Piece>) -> Reply {
        let mut reply = Reply::refused(status);
        assert!(numbers.len() <= MOST_NUMBERS);
        for (place, number) in numbers.iter().enumerate() {
            let (now, was) = (self.block[number.start / 8], self.before[number.start / 8]);
            reply.numbers[place] = (now != was).then_some(now);
            self.block[number.start / 8] = was;
        }
        match buffer {
            Some(piece) if piece.width == NUMBER_BYTES => reply.sets = self.take_written(piece, element),
            Some(piece) => reply.written = self.take_written(piece, |bytes| element(bytes) as u16),
            None => {}
        }
        reply.rest_kept = self.block == self.before;
        reply
    }

    fn take_written<T>(&mut self, piece: Piece, element: fn(&[u8]) -> T) -> Vec<T> {
        let range = piece.start..piece.start + piece.elements * piece.width;
        let before = &view(&mut self.before)[range.clone()];
        let now = &mut view(&mut self.block)[range];
        let altered = (0..now.len())
            .rev()
            .find(|&at| now[at] != before[at])
            .map_or(0, |at| at / piece.width + 1);
        let elements = now[..altered * piece.width].chunks_exact(piece.width);
        let written = elements.map(element).collect();
        now.copy_from_slice(before);
        written
    }
}

/// A byte, a wire number or a number.
fn element(bytes: &[u8]) -> u64 {
    match bytes {
        [byte] => u64::from(*byte),
        [first, second] => u64::from(u16::from_ne_bytes([*first, *second])),
        number => u64::from_ne_bytes(number.try_into().expect("a number has eight bytes")),
    }
}

fn view(block: &mut [u64]) -> &mut [u8] {
    // A block of words is a block of eight times as many bytes, at an address that suits any byte.
    unsafe { std::slice::from_raw_parts_mut(block.as_mut_ptr().cast(), block.len() * 8) }
}

impl Piece {
    /// Where the piece lies in the block that starts at `base`.
    pub fn at<T>(self, base: *mut u8) -> *mut T {
        base.wrapping_add(self.start).cast()
    }

    pub fn elements(self) -> usize {
        self.elements
    }
}
