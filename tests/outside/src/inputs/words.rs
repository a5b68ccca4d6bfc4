//! Texts for the operands that a report names after a break: a alone, b alone and both, under each notion, with counts
//! on both sides of what is allowed, and under SNI others than under NI.

use super::gadgets::{late, End};

/// Texts of order 1 with mask 0, of which a dollar sign is a line end, and the operands worked out by hand for NI and
/// SNI; none where the notion holds.
pub const BY_HAND: [(&str, [Option<&str>; 2]); 23] = [
    ("s00 r0$s11 (s01 s10) r0", [Some("both"), Some("both")]),
    ("a0 b0$a1 b1", [None, Some("both")]),
    ("s00$s11", [None, Some("both")]),
    ("a0$a1", [None, Some("a")]),
    ("b0$b1", [None, Some("b")]),
    ("a0 a1$r0", [Some("a"), Some("a")]),
    ("b0 b1$r0", [Some("b"), Some("b")]),
    ("a0 b0 b1 a1$r0", [Some("b"), Some("b")]),
    ("b0 (a0 a1) b1$r0", [Some("a"), Some("a")]),
    ("s00 s10$r0", [Some("a"), Some("both")]),
    ("s00 s01$r0", [Some("b"), Some("both")]),
    ("(s00 s10) r0$r0", [Some("a"), Some("a")]),
    ("(s00 s01) r0$r0", [Some("b"), Some("b")]),
    ("(s00 s11) r0$r0", [Some("both"), Some("both")]),
    ("r0 a0 a1 b0 r0$r0", [Some("a"), Some("both")]),
    ("r0 b0 b1 a1 r0$r0", [Some("b"), Some("both")]),
    // Under SNI an outer wire breaks that stands before the one that breaks NI.
    ("b0$a0 a1", [Some("a"), Some("b")]),
    ("a1$b1 b0", [Some("b"), Some("a")]),
    ("a0$s01 s10", [Some("both"), Some("a")]),
    ("b1$s01 s10", [Some("both"), Some("b")]),
    // Of the other operand both shares stand in the line, and one of them or both cancel.
    ("r0 a0 b0 a1 b1 b1 r0$r0", [Some("a"), Some("both")]),
    ("r0 b0 a0 b1 a0 r0$r0", [Some("b"), Some("b")]),
    ("r0 s00 s01 s10 s00 s10 s11 r0$r0", [Some("a"), Some("both")]),
];

/// Orders, and of how many shares of an operand a sum is made to depend on.
const COUNTS: [(usize, &[usize]); 4] = [(1, &[0, 1, 2]), (2, &[0, 1, 2, 3]), (3, &[1, 2, 4]), (7, &[0, 1, 8])];

pub fn texts() -> Vec<Vec<u8>> {
    let by_hand = BY_HAND.iter().map(|(lines, _)| text_by_hand(lines));
    let made = [by_one_wire(), by_two_lines(), by_chains()].concat();
    by_hand.chain(made).collect()
}

pub fn text_by_hand(lines: &str) -> Vec<u8> {
    format!("ORDER = 1\nMASKS = [r0]\n{}\n", lines.replace('$', "\n")).into_bytes()
}

/// Each number of shares of a with each of b, by single shares and by products, in an outer wire and in an inner one.
fn by_one_wire() -> Vec<Vec<u8>> {
    let mut texts = Vec::new();
    for (order, counts) in COUNTS {
        for of_a in counts {
            for of_b in counts {
                // What no single wire breaks would take long at the largest order.
                if order <= 3 || of_a.max(of_b) > &1 {
                    texts.extend(with_counts(order, *of_a, *of_b));
                }
            }
        }
    }
    texts
}

fn with_counts(order: usize, of_a: usize, of_b: usize) -> Vec<Vec<u8>> {
    let of_a_alone = (0..of_a).map(|i| format!("a{i} "));
    let singles = of_a_alone.chain((0..of_b).map(|j| format!("b{j} "))).collect();
    let mut sums: Vec<String> = vec![singles];
    if of_a > 0 && of_b > 0 {
        let by_a = (0..of_a).map(|i| format!("s{i}{order} "));
        sums.push(by_a.chain((0..of_b - 1).map(|j| format!("s0{j} "))).collect());
    }
    let others = "r0\n".repeat(order);
    let lines = sums
        .iter()
        .flat_map(|sum| [format!("r0 {sum}r0"), format!("(r0 {sum}r0) r1")]);
    lines
        .map(|line| format!("ORDER = {order}\nMASKS = [r0, r1]\n{line}\n{others}").into_bytes())
        .collect()
}

/// An output that breaks SNI by one operand or by both, and a line that breaks NI by one or by both.
fn by_two_lines() -> Vec<Vec<u8>> {
    let mut texts = Vec::new();
    for order in 1..=4 {
        for output in ["a0", "b0", "s00"] {
            for line in ["a0 a1", "b0 b1", "s01 s10"] {
                let others = "r0\n".repeat(order - 1);
                texts.push(format!("ORDER = {order}\nMASKS = [r0]\n{output}\n{line}\n{others}").into_bytes());
            }
        }
    }
    texts
}

/// Sets of as many wires as the order, whose sum depends on one share more of an operand, or of both. Of the other one
/// it depends on none or on as many as there are wires. The first wire of the set is inner, or it is outer.
fn by_chains() -> Vec<Vec<u8>> {
    let kinds: [fn(usize) -> String; 5] = [
        |i| format!("a{i}"),
        |i| format!("b{i}"),
        |i| format!("s{i}{i}"),
        |i| if i == 0 { String::from("a0") } else { format!("s{i}{i}") },
        |i| if i == 0 { String::from("b0") } else { format!("s{i}{i}") },
    ];
    let mut texts = Vec::new();
    for order in 2..=4 {
        for kind in kinds {
            let mut gadget = late(order, End::Share, 1);
            for line in &mut gadget.lines {
                *line = (0..=order).fold(line.clone(), |line, i| line.replace(&format!("a{i}"), &kind(i)));
            }
            texts.push(gadget.text());
            // Without the mask of its own.
            gadget.lines[0] = format!("{} r0", kind(0));
            texts.push(gadget.text());
        }
    }
    texts
}
