//! Arguments of the programs, of any bytes that a program may be given.

use std::ffi::OsString;
use std::os::unix::ffi::OsStringExt;

pub fn of(arguments: &[&[u8]]) -> Vec<OsString> {
    arguments
        .iter()
        .map(|bytes| OsString::from_vec(bytes.to_vec()))
        .collect()
}

/// Arguments that are no number, each alone.
pub const NO_NUMBERS: [&[u8]; 30] = [
    b"",
    b" ",
    b" 1",
    b"1 ",
    b"1\n",
    b"\t1",
    b"1 2",
    b"00",
    b"01",
    b"07",
    b"007",
    b"+1",
    b"-1",
    b"-0",
    b"a",
    b"1a",
    b"a1",
    b"1.0",
    b"1,",
    b"0x1",
    b"1e0",
    b"0b1",
    b"r0",
    b"-h",
    b"--help",
    b"--",
    // The digit's neighbours in ASCII, a digit of another script, and a byte that begins no character.
    b"/",
    b":",
    b"\xD9\xA1",
    b"1\xFF",
];
