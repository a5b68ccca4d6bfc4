//! Texts for the notes of the program `report`: refusals at every place of a line and of a text, with bytes that can
//! not be shown; breaks by several wires, with long parts, and where line numbers are not those of output lines; and
//! texts of so many sets that the program says so, each broken by a single wire so that it ends at once.

use super::gadgets::{self, End};
use crate::model::lines::REACH;
use crate::model::notes::{sets, SETS_IN_A_SECOND};
use crate::model::reading::MAX_TEXT_BYTES;
use crate::model::records::MAX_WIRES;
use crate::model::sets::MAX_SIZE;

/// In the lists a stroke parts the texts, and a dollar sign is a line end.
const WRONG_HEADINGS: &str = "/$/ORDER = 8$MASKS = []$a0$a1$/ORDER = 1\r$MASKS = []\r$a0\r$a1\r$/\tORDER = 1$/\
    ORDER = 1/ORDER = 1$/ORDER = 1$$MASKS = []$/ORDER = 1$MASKS = [r0, r0]$a0$a1$/ORDER = 1$MASKS = []\r$a0\r$a1\r$/\
    ORDER = 1$MASKS = [r0,\tr1]$a0$a1$/ORDER = 1$MASKS = [r0, r1";

/// Behind the two first lines for order 1 and mask 0.
const WRONG_OUTPUTS: &str = "/$/   /$  $ /a0/a0$/a0$$/a0$   /a0$  r0 $$ $/a0$a1$b0/a0$$a1$  b0 b1$/a0$a1$ $\t$/\
    a0 a2$a1$/a0$$  $s02/a0 r00$a1/a0 r1$a1$/a0$a1 r63/a0 r0)$a1$/)$a1$/a0 ()$a1$/a0$b0 ( )$/(a0 r0$a1$/a0$(a1/\
    a0$(a1$/a0$((a1)  $$/a0$ (((  /a0 | r0$a1$/|$|$/a0$a1|/a0\r$a1\r$/a0 \r$a1$/$\r$a0$a1$/a0$a1 b1\r/a0\tb0$a1$/\
    \ta0$a1$/a0 b0 \t \t$a1$/a0 ? b0$a1$/? ?$a1$/a0 ?\t?$a1$/a0 ~ b0$a1$";

/// By one wire and by several, inner and outer, under SNI alone and under both notions with different sets.
const BROKEN: &str = "ORDER = 1$MASKS = [r0]$s00 r0$s11 (s01 s10) r0$/ORDER = 1$MASKS = []$a0 b0$a1 b1$/\
    ORDER = 1$MASKS = []$$  $a0 b0$$$a1 b1/ORDER = 1$MASKS = []$ a0  ( (a1)b1 )$ $   a1$$/\
    ORDER = 2$MASKS = [r0]$r0 a0 a1 a2$a1$b2$/ORDER = 2$MASKS = [r0]$$r0  (a0 a1)  a2$ $$((a1))$ b2$  /\
    ORDER = 2$MASKS = [r0, r1]$a0 r0$a1 r0$a2 r1$/ORDER = 2$MASKS = [r0, r1]$$$a2 r1$ $a1 r0$  a0 r0/\
    ORDER = 3$MASKS = [r0, r1]$(r0 a0 a1) r1$(r0 a2 a3) r1$a1$a2$";

/// Bytes on both sides of the printing ones, and the two that could be mixed up with what is shown.
const ODD_BYTES: [u8; 10] = [0, b'\t', b'\r', 31, b' ', b'?', b'~', 127, 128, 255];

/// From so many seconds on, a time is said in other words. The first is where it is said at all.
const BORDERS: [u64; 5] = [5, 120, 7_200, 172_800, 63_072_000];

const ORDER_7: &str = "ORDER = 7\nMASKS = []\n";
const LONG_LINE: usize = 4_000;

pub fn texts() -> Vec<Vec<u8>> {
    [
        listed(),
        windows(),
        ends(),
        odd_bytes(),
        too_long(),
        broken(),
        far_down(),
        high_wires(),
        many_sets(),
    ]
    .concat()
}

fn listed() -> Vec<Vec<u8>> {
    let outputs = WRONG_OUTPUTS
        .split('/')
        .map(|lines| format!("ORDER = 1$MASKS = [r0]${lines}"));
    let deep = format!("ORDER = 1$MASKS = []$a0$ ({}a0", "(b0 ".repeat(16));
    let wires = format!("ORDER = 1$MASKS = []$a0{}$a1", " a0".repeat(MAX_WIRES - 2));
    let mut texts: Vec<String> = WRONG_HEADINGS.split('/').map(String::from).collect();
    texts.extend(outputs);
    texts.extend(["$", "$ $", ""].map(|end| format!("{deep}{end}")));
    texts.extend(["$", "$ $", "$  ", ""].map(|end| format!("{wires}{end}")));
    texts.iter().map(|text| text.replace('$', "\n").into_bytes()).collect()
}

/// So many bytes of symbols of order 7, which differ for some hundred bytes, and then of spaces.
fn symbols(length: usize) -> Vec<u8> {
    let products = (0..length / 4).map(|k| format!("s{}{} ", k / 8 % 8, k % 8));
    let mut bytes = products.collect::<String>().into_bytes();
    bytes.resize(length, b' ');
    bytes
}

/// A bar with so many bytes of its line before it, and so many from it on.
fn bar(before: usize, from: usize) -> Vec<u8> {
    let text = [ORDER_7.as_bytes(), &symbols(before), b"|", &symbols(from - 1)].concat();
    [&text, "\na1\n".as_bytes()].concat()
}

/// Lines around the limits of what is shown, and long ones.
fn windows() -> Vec<Vec<u8>> {
    let mut texts = Vec::new();
    for before in [0, 1, REACH - 1, REACH, REACH + 1, REACH + 2, LONG_LINE / 2] {
        for from in [1, 2, REACH - 1, REACH, REACH + 1, REACH + 2, LONG_LINE / 2] {
            texts.push(bar(before, from));
        }
    }
    for before in [0, REACH, REACH + 1] {
        texts.push(bar(before, LONG_LINE - before));
    }
    for from in [1, REACH, REACH + 1] {
        texts.push(bar(LONG_LINE - from, from));
    }
    texts
}

/// Refusals at the end of a line or of the text, so many bytes after the line's start.
fn ends() -> Vec<Vec<u8>> {
    let mut texts = Vec::new();
    for before in [1, REACH - 1, REACH, REACH + 1, REACH + 2, LONG_LINE] {
        let (few, open) = (symbols(before), [b"(", symbols(before - 1).as_slice()].concat());
        for line in [few, open] {
            let text = [ORDER_7.as_bytes(), &line].concat();
            texts.push([&text, "\n".as_bytes()].concat());
            texts.push(text);
        }
    }
    texts
}

/// An odd byte at the mark, at the last place that is shown, and at the first that is not.
fn odd_bytes() -> Vec<Vec<u8>> {
    let mut texts = Vec::new();
    for byte in ODD_BYTES {
        for from in [1, REACH - 1, REACH] {
            let mut text = bar(REACH, LONG_LINE / 2);
            text[ORDER_7.len() + REACH + from] = byte;
            texts.push(text);
        }
        texts.push([ORDER_7.as_bytes(), b"s00 ", &[byte], b" |"].concat());
        // Before the mark no symbol is wrong, unless the text is too long to be looked at.
        for before in [0, 1, REACH, REACH + 1] {
            let mut text = symbols(MAX_TEXT_BYTES + 1);
            text[MAX_TEXT_BYTES - before] = byte;
            texts.push(text);
        }
    }
    texts
}

/// Texts that are too long, with line ends here and there; what follows the byte that is too many is not read.
fn too_long() -> Vec<Vec<u8>> {
    let mut texts = Vec::new();
    for length in [1, 2, REACH + 1, REACH + 2, LONG_LINE].map(|more| MAX_TEXT_BYTES + more) {
        for before in [0, 1, 2, REACH, REACH + 1, REACH + 2, LONG_LINE] {
            let mut text = symbols(length);
            text[MAX_TEXT_BYTES - before] = b'\n';
            texts.push(text);
        }
        let mut text = symbols(length);
        text[MAX_TEXT_BYTES - 1..=MAX_TEXT_BYTES].fill(b'\n');
        texts.push(text);
    }
    texts
}

fn broken() -> Vec<Vec<u8>> {
    // All sums on the way have a mask, which is added once more in the end.
    let sum = format!("r0{} a1 r0", " a0 b0".repeat(61));
    let gap = " ".repeat(LONG_LINE - 100);
    // Only four sums together break: those before and after the run from a0 to a1, and those of that from a2 to a4.
    let four_sums = format!("r0{gap}r1 a0 r2 a1 r3 r4 r5 a2 r2 a3 a4 r6");
    let long_parts = [
        format!("ORDER = 1$MASKS = [r0]$$b0${sum}$"),
        format!("ORDER = 1$MASKS = [r0, r1]$$({sum}) r1$b0"),
        format!("ORDER = 1$MASKS = [r0]$r0{gap}a0 a1 r0$ b0$"),
        format!("ORDER = 4$MASKS = [r0, r1, r2, r3, r4, r5, r6]${four_sums}$r0$r0$r0$r0"),
    ];
    let texts = BROKEN.split('/').map(String::from).chain(long_parts);
    let spread_out = (2..=4).map(|order| spread_out(&gadgets::late(order, End::Share, 1).text()));
    texts
        .map(|text| text.replace('$', "\n").into_bytes())
        .chain(spread_out)
        .collect()
}

/// A refusal and a break in a line whose number has one, two, three or four digits.
fn far_down() -> Vec<Vec<u8>> {
    let mut texts = Vec::new();
    for skipped in [6, 7, 14, 95, 96, 97, 98, 254, 300, 996, 997, 1_500] {
        for outputs in ["a0 b0 | r0\na1\n", "a0 b1 a1\na1\n", "a0\na1\nb0\n"] {
            texts.push(format!("ORDER = 1\nMASKS = []\n{}{outputs}", "\n".repeat(skipped)).into_bytes());
        }
    }
    texts
}

/// A break by one wire with so many before it: all others carry a mask, or hold at most one share.
fn high_wires() -> Vec<Vec<u8>> {
    let text = |before: usize| {
        let sums = " a0".repeat(before - 4);
        format!("ORDER = 1\nMASKS = [r0]\na0 r0{sums}\na0 (a1 a0)\n").into_bytes()
    };
    [9, 10, 99, 100, 127, 128, 255, 256, 257, 300, 383, 384, 499, 500, 509]
        .map(text)
        .to_vec()
}

/// The same output lines, with many spaces for each and with others between them that are skipped.
fn spread_out(text: &[u8]) -> Vec<u8> {
    let text = String::from_utf8(text.to_vec()).expect("a gadget is of plain letters");
    let mut lines = text.splitn(3, '\n');
    let mut line = || lines.next().expect("a text has lines");
    let (first, second, outputs) = (line(), line(), line());
    let outputs = outputs.replace(' ', &" ".repeat(120)).replace('\n', "\n\n  \n");
    format!("{first}\n{second}\n   \n{outputs}").into_bytes()
}

/// At every order the last text below each border in time and the first that is not, as far as there are such.
fn many_sets() -> Vec<Vec<u8>> {
    let mut texts = vec![broken_at_once(3, MAX_WIRES)];
    for order in 4..=MAX_SIZE {
        for border in BORDERS {
            let reaches = |wires: &usize| sets(*wires, order) >= border * SETS_IN_A_SECOND;
            if let Some(wires) = (1..=MAX_WIRES).find(reaches) {
                texts.extend([wires - 1, wires].map(|wires| broken_at_once(order, wires)));
            }
        }
        texts.push(broken_at_once(order, MAX_WIRES));
    }
    texts
}

/// A text of so many wires that one wire breaks under either notion.
pub fn broken_at_once(order: usize, wires: usize) -> Vec<u8> {
    // Two for the symbols of the first line and one for each addition there, one for each of the other lines.
    let again = " a0".repeat(wires - 3 - order);
    let others = "a0\n".repeat(order);
    format!("ORDER = {order}\nMASKS = []\na0 a1{again}\n{others}").into_bytes()
}
