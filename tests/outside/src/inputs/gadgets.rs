//! Descriptions of gadgets from the literature and near misses of them: multiplication of Ishai, Sahai and Wagner,
//! refreshing in a ring or pair by pair, sums and plain copies. And some that are made for a break of a given size.

use crate::model::records::{MAX_MASKS, MAX_SHARES, MAX_WIRES};
use crate::random::Random;

/// A description before it becomes bytes.
pub struct Description {
    pub order: usize,
    pub masks: usize,
    pub lines: Vec<String>,
}

impl Description {
    fn new(order: usize, masks: usize, line: impl Fn(usize) -> String) -> Description {
        Description {
            order,
            masks,
            lines: (0..=order).map(line).collect(),
        }
    }

    pub fn text(&self) -> Vec<u8> {
        let names: Vec<String> = (0..self.masks).map(|k| format!("r{k}")).collect();
        let lines = self.lines.join("\n");
        format!("ORDER = {}\nMASKS = [{}]\n{lines}\n", self.order, names.join(", ")).into_bytes()
    }
}

/// How the two products of a pair of shares are added to the pair's mask.
#[derive(Clone, Copy)]
pub enum Cross {
    /// The right way: the mask is there before the second product comes.
    MaskFirst,
    /// The products meet without the mask, as in the scope's example B.
    MaskLast,
    /// One mask serves all pairs.
    OneMask,
    NoMask,
}

const CROSSES: [Cross; 6] = [
    Cross::MaskFirst,
    Cross::MaskFirst,
    Cross::MaskFirst,
    Cross::MaskLast,
    Cross::OneMask,
    Cross::NoMask,
];

/// The number of the mask for the shares i and j, i below j; with all pairs below j shares, also how many there are.
fn pair(i: usize, j: usize) -> usize {
    j * (j - 1) / 2 + i
}

fn cross_term(i: usize, j: usize, cross: Cross) -> String {
    let (low, high) = (i.min(j), i.max(j));
    let mask = if matches!(cross, Cross::OneMask) {
        0
    } else {
        pair(low, high)
    };
    match (i < j, cross) {
        (_, Cross::NoMask) => format!("s{i}{j}"),
        (true, _) => format!("r{mask}"),
        (false, Cross::MaskLast) => format!("((s{low}{high} s{high}{low}) r{mask})"),
        (false, _) => format!("((r{mask} s{low}{high}) s{high}{low})"),
    }
}

/// Line i of the result is share i times share i, and for each other share the pair's mask or its masked products.
pub fn multiplication(order: usize, cross: impl Fn(usize, usize) -> Cross) -> Description {
    Description::new(order, pair(0, order + 1), |i| {
        let others = (0..=order)
            .filter(|j| *j != i)
            .map(|j| cross_term(i, j, cross(i.min(j), i.max(j))));
        format!("s{i}{i} {}", others.collect::<Vec<_>>().join(" "))
    })
}

/// Copies with a fresh mask for each pair of shares.
fn pair_refresh(order: usize) -> Description {
    Description::new(order, pair(0, order + 1), |i| {
        let others = (0..=order)
            .filter(|j| *j != i)
            .map(|j| format!(" r{}", pair(i.min(j), i.max(j))));
        format!("a{i}{}", others.collect::<String>())
    })
}

/// What ends the chain of masks of a gadget that is made for a late break.
#[derive(Clone, Copy, PartialEq)]
pub enum End {
    /// The last share: the sums of the chain add up to all shares, one more than there are sums.
    Share,
    /// A mask that is nowhere else, so that nothing breaks.
    Mask,
}

/// A gadget of an order from 2 that no set of fewer wires than the order breaks, under either notion.
pub fn late(order: usize, end: End, padding: usize) -> Description {
    late_by(order, order, end, padding)
}

/// A gadget of an order that no set of fewer wires than `size` breaks, from 2 to the order, under either notion. Each of
/// so many lines adds one share to the chain, a sum that shares a mask with the sum of the line before and one with that
/// of the line after, and then a mask of its own, so that the outer wire is of no use. Only all sums of the chain
/// together have no mask left. The next line is padding, the sum of so many masks that are nowhere else. The other lines
/// are one of these masks each.
pub fn late_by(size: usize, order: usize, end: End, padding: usize) -> Description {
    let own = |i: usize| size - 1 + i;
    let (end, padding) = match end {
        End::Share => (format!("a{size}"), own(size)..own(size) + padding),
        End::Mask => (format!("r{}", own(size)), own(size) + 1..own(size) + 1 + padding),
    };
    Description::new(order, padding.end, |i| match i {
        0 => format!("(a0 r0) r{}", own(0)),
        i if i < size - 1 => format!("((a{i} r{}) r{i}) r{}", i - 1, own(i)),
        i if i < size => format!("((a{i} r{}) {end}) r{}", i - 1, own(i)),
        i if i == size => padding.clone().map(|k| format!("r{k}")).collect::<Vec<_>>().join(" "),
        _ => format!("r{}", padding.end - 1),
    })
}

/// A gadget for a copy at the highest order with some 500 wires, of which nearly each carries many masks. Each line adds its
/// share and nearly all masks, every two lines the same ones, always in another order; so few
/// wires add up to a sum without masks, as neighbours on a line do. NI holds, since a share stands in the wires of one line alone.
pub fn dense(random: &mut Random) -> Description {
    // Of the wires 64 are masks and 8 are shares; all others are additions, on each line as many as masks.
    let added = (MAX_WIRES - MAX_MASKS - MAX_SHARES) / MAX_SHARES;
    let mut masks: Vec<usize> = (0..MAX_MASKS).collect();
    let mut lines = Vec::new();
    for i in 0..MAX_SHARES {
        match i % 2 {
            0 => random.shuffle(&mut masks),
            _ => random.shuffle(&mut masks[..added]),
        }
        let added = masks[..added].iter().map(|k| format!(" r{k}"));
        lines.push(format!("a{i}{}", added.collect::<String>()));
    }
    Description {
        order: MAX_SHARES - 1,
        masks: MAX_MASKS,
        lines,
    }
}

/// A gadget of an order from 1 to `most`, right or nearly so.
pub fn any(random: &mut Random, most: usize) -> Description {
    let order = random.between(1, most);
    let next = |i: usize| (i + 1) % (order + 1);
    let mut gadget = match random.below(8) {
        0..=2 => {
            let (usual, unusual) = (random.pick(&CROSSES), random.pick(&CROSSES));
            let place = (random.below(order), random.between(1, order));
            multiplication(order, |i, j| if (i, j) == place { unusual } else { usual })
        }
        3 => Description::new(order, order + 1, |i| format!("a{i} r{i} r{}", next(i))),
        4 => pair_refresh(order),
        5 => Description::new(order, 0, |i| format!("a{i} b{i}")),
        6 => Description::new(order, 0, |i| format!("a{i}")),
        _ => Description::new(order, order + 1, |i| format!("(a{i} r{i}) (b{i} r{})", next(i))),
    };
    if random.chance(40) {
        exchange_symbols(random, &mut gadget);
    }
    gadget
}

/// Puts one symbol of a description in the place of another, parentheses kept.
fn exchange_symbols(random: &mut Random, gadget: &mut Description) {
    let lines = gadget.lines.join(" ");
    let symbols: Vec<&str> = lines.split([' ', '(', ')']).filter(|word| !word.is_empty()).collect();
    let (old, new) = (random.pick(&symbols), random.pick(&symbols));
    let number = random.below(gadget.lines.len());
    let line = &mut gadget.lines[number];
    // A whole symbol: r1 is not the start of r12.
    let whole = |at: &usize| !line[at + old.len()..].starts_with(|next: char| next.is_ascii_digit());
    if let Some(at) = line.match_indices(old).map(|(at, _)| at).find(whole) {
        line.replace_range(at..at + old.len(), new);
    }
}
