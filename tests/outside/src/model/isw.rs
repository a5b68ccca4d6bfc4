//! The multiplication of Ishai, Sahai and Wagner, written for an order, and the program `isw`, which prints it.

pub const MAX_ISW_ORDER: usize = 7;

/// To the program, digits that are more than these are no number.
pub const MOST_DIGITS: usize = 32;

pub const USAGE: &str = "isw: usage: isw ORDER    (a number from 1 to 7; the text goes to standard output)\n";
pub const REFUSED: &str = "isw: refused 23: the order has to be a number from 1 to 7\n";

/// How a text is written. The right way is `RIGHT`; the faults of the self-check put one wrong thing in its place.
pub struct Writer {
    /// The pairs of shares i < j at an order. The masks are numbered over them, the first with `first`.
    pub pairs: fn(usize) -> Vec<(usize, usize)>,
    pub first: usize,
    /// What line i begins with.
    pub own: fn(usize) -> String,
    /// The other shares at an order, as line i goes through them.
    pub others: fn(usize, usize) -> Vec<usize>,
    /// The items of line i for another share j, from the pair's mask, i and j: where j > i, and where it is not. A wrong
    /// writer leaves an item out by an empty one.
    pub above: fn(usize, usize, usize) -> String,
    pub below: fn(usize, usize, usize) -> String,
    /// A line of such items, its end included.
    pub line: fn(Vec<String>) -> String,
}

pub const RIGHT: Writer = Writer {
    pairs: |order| {
        let of_share = |i| (i + 1..=order).map(move |j| (i, j));
        (0..=order).flat_map(of_share).collect()
    },
    first: 0,
    own: |i| format!("s{i}{i}"),
    others: |order, i| (0..=order).filter(|j| *j != i).collect(),
    above: |mask, _, _| format!("r{mask}"),
    below: |mask, i, j| format!("((r{mask} s{j}{i}) s{i}{j})"),
    line: |items| items.join(" ") + "\n",
};

impl Writer {
    /// The text for any order, also for one that the library turns down: a wrong library might write it.
    pub fn text(&self, order: usize) -> String {
        let pairs = (self.pairs)(order);
        let names: Vec<String> = (0..pairs.len()).map(|k| format!("r{}", self.first + k)).collect();
        let head = format!("ORDER = {order}\nMASKS = [{}]\n", names.join(", "));
        (0..=order).fold(head, |text, i| text + &self.output_line(&pairs, order, i))
    }

    fn output_line(&self, pairs: &[(usize, usize)], order: usize, i: usize) -> String {
        let item = |j: usize| {
            let number = pairs.iter().position(|pair| *pair == (i.min(j), i.max(j)));
            let mask = self.first + number.expect("any two shares are a pair");
            match j > i {
                true => (self.above)(mask, i, j),
                false => (self.below)(mask, i, j),
            }
        };
        let mut items = vec![(self.own)(i)];
        items.extend((self.others)(order, i).into_iter().map(item));
        items.retain(|item| !item.is_empty());
        (self.line)(items)
    }
}

/// A number is digits, the first no 0 unless it stands alone.
pub fn number(argument: &[u8]) -> Option<u128> {
    let form = match argument {
        [] => false,
        [b'0'] => true,
        [first, ..] => *first != b'0' && argument.len() <= MOST_DIGITS,
    };
    if !form || !argument.iter().all(u8::is_ascii_digit) {
        return None;
    }
    // Digits are ASCII, and 32 of them are below 2 to the 107th.
    std::str::from_utf8(argument).ok()?.parse().ok()
}

/// What the program prints for its arguments, and what it says on standard error.
pub fn program(arguments: &[&[u8]]) -> [String; 2] {
    let nothing = String::new();
    let order = match arguments {
        [argument] => number(argument),
        _ => None,
    };
    match order {
        None => [nothing, String::from(USAGE)],
        Some(order) if (1..=MAX_ISW_ORDER as u128).contains(&order) => [RIGHT.text(order as usize), nothing],
        Some(_) => [nothing, String::from(REFUSED)],
    }
}
