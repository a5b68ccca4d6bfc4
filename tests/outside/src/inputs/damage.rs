//! Damaged texts: one to three small injuries to a sound text, texts of random bytes, and wrong first, second and
//! output lines in all combinations.

use crate::random::Random;

/// Bytes that mean something in a text, and some that do not.
const BYTES: &[u8] = b" ()|\n0123456789sabrORDEMK=[],\t\r\x00\x7f\x80\xff";

/// Symbols that some texts allow and some do not, and what is none.
const WORDS: [&str; 16] = [
    "r0", "r1", "r7", "r31", "r63", "r64", "r07", "s11", "s77", "s80", "a7", "b8", "s1", "|", "((", "))",
];

pub fn damaged(random: &mut Random, text: &[u8]) -> Vec<u8> {
    let mut text = text.to_vec();
    for _ in 0..random.pick(&[1, 1, 1, 2, 3]) {
        if !text.is_empty() {
            injure(random, &mut text);
        }
    }
    text
}

fn injure(random: &mut Random, text: &mut Vec<u8>) {
    // The first lines are a small part of a text: they are hit on purpose, now and then.
    let reach = if random.chance(15) {
        text.len().min(30)
    } else {
        text.len()
    };
    let at = random.below(reach);
    match random.below(10) {
        0 => text[at] ^= 1 << random.below(8),
        1 => text[at] = random.pick(BYTES),
        2 => text.insert(at, random.pick(BYTES)),
        3 => {
            text.remove(at);
        }
        4 => text.truncate(at),
        5 => swap_lines(random, text),
        6 => exchange_words(random, text),
        7 => double_line(random, text),
        8 => replace_word(random, text),
        _ => {
            let end = (at + random.between(1, 12)).min(text.len());
            text.drain(at..end);
        }
    }
}

fn swap_lines(random: &mut Random, text: &mut Vec<u8>) {
    let mut lines: Vec<&[u8]> = text.split(|byte| *byte == b'\n').collect();
    let (one, other) = (random.below(lines.len()), random.below(lines.len()));
    lines.swap(one, other);
    *text = lines.join(&b'\n');
}

fn double_line(random: &mut Random, text: &mut Vec<u8>) {
    let mut lines: Vec<&[u8]> = text.split(|byte| *byte == b'\n').collect();
    let line = random.below(lines.len());
    lines.insert(line, lines[line]);
    *text = lines.join(&b'\n');
}

/// Exchanges two runs between spaces, parentheses or line ends, each with what ends it.
fn exchange_words(random: &mut Random, text: &mut Vec<u8>) {
    let mut words: Vec<&[u8]> = text.split_inclusive(|byte| b" ()\n".contains(byte)).collect();
    let (one, other) = (random.below(words.len()), random.below(words.len()));
    words.swap(one, other);
    *text = words.concat();
}

/// Puts a word that may be wrong in the place of one that was right, with what ended that one.
fn replace_word(random: &mut Random, text: &mut Vec<u8>) {
    let mut words: Vec<&[u8]> = text.split_inclusive(|byte| b" ()\n".contains(byte)).collect();
    let place = random.below(words.len());
    let end = words[place].len() - 1;
    let word = random.pick(&WORDS).as_bytes();
    let ended = [word, &words[place][end..]].concat();
    words[place] = &ended;
    *text = words.concat();
}

pub fn random_bytes(random: &mut Random) -> Vec<u8> {
    let length = random.below(60);
    let mut text = if random.chance(50) {
        b"ORDER = 1\nMASKS = [r0]\n".to_vec()
    } else {
        Vec::new()
    };
    text.extend((0..length).map(|_| random.pick(BYTES)));
    text
}

const FIRST_LINES: &str = "ORDER = 1$/ORDER = 1/ORDER = 0$/ORDER = 8$/ORDER = 12$/ORDER = 1 $/ ORDER = 1$/order = 1$/\
    ORDER = 1\r$/ORDER =1$/ORDER = $/ORDER = 1\t$/$ORDER = 1$/$";

const SECOND_LINES: &str = "MASKS = [r0]$/MASKS = []$/MASKS = [r0]/MASKS = []/MASKS = [r63, r0]$/MASKS = [r0, r0]$/\
    MASKS = [r00]$/MASKS = [r01]$/MASKS = [r64]$/MASKS = [r0,r1]$/MASKS = [r0,  r1]$/MASKS = [r0, ]$/MASKS = [, r0]$/\
    MASKS = [ ]$/MASKS = [r0] $/ MASKS = [r0]$/MASKS = [r0$/MASKS = [$/MASKS = r0]$/MASKS = [r]$/MASKS = [a0]$/\
    MASKS = [r0 r1]$/MASKS = [R0]$/masks = []$/MASKS = []]$/MASKS = [r+1]$/MASKS = [r0]\r$/$/";

const OUTPUT_LINES: &str = "\
    a0$a1$/a0$a1/a0/a0$//$/   /a0$a1$b0$/a0$a1$  |/a0$a1$  )/a0$a1$ ((((/a0$a1$ $ $/()$a0$/( )$a0$/a0 ()$a1$/\
    (a0$a1$/a0$(a1/a0$((a1)$/(a0/a0)$a1$/)$a1$/a0|a1$a1$/|$|$/a0$a1|/s02$a0$/s20$a0$/s99$a0$/a2$a0$/b9$a0$/\
    r1$a0$/r63$a0$/r64$a0$/r00$a0$/r$a0$/r-1$a0$/R0$a0$/s0$a0$/s000$a0$/s00s01$a0$/a0\tb0$a0$/a0\r$a1\r$/\
    ((a0))$((a1))$/(a0)(a1)$(a0)b0(b1)$/a0a1$b0$/a$b$/s$s$/(a0 (a1 a0))$(((b0) b1))$/r0 r0$r0$/a0 a0$a0$/\
    (|)$a0$/a0 r1 |$a0$/(a0 r1$a0$/x)$a0$/s00 s01 s10 s11$r0 r0$/S00$A0$/a0,b0$a1$/a0$$$a1/a0$(((a1))/\
    (a0 b0)$(a1 b1)/a0$a1$\t$";

/// Every first line with every second line and every rest. In the lists a stroke parts the kinds, and a dollar sign is
/// a line end.
pub fn wrong_lines() -> Vec<Vec<u8>> {
    let mut texts = Vec::new();
    for first in FIRST_LINES.split('/') {
        for second in SECOND_LINES.split('/') {
            for rest in OUTPUT_LINES.split('/') {
                texts.push([first, second, rest].concat().replace('$', "\n").into_bytes());
            }
        }
    }
    texts
}
