//! One output line: cut into marks, built up into a tree from the inside out, with every fault of the line noted.

use super::records::Record;
use super::symbols::{Heading, Word};

const MOST_OPEN: usize = 16;

/// Why a text is refused, in the scope's order for one offset. What the scope gives one number but several causes has a
/// case for each, so that the tests can see that each was reached.
#[derive(Clone, Copy, PartialEq, Eq, PartialOrd, Ord)]
pub enum Cause {
    TextTooLong,
    FirstLine,
    SecondLine,
    LineTooMany,
    TooDeep,
    Bar,
    NoSymbol,
    UndeclaredMask,
    NoneOpen,
    NothingInside,
    StillOpen,
    LinesTooFew,
    TooManyWires,
    TableTooShort,
}

impl Cause {
    /// The scope's number, and a word that tells the causes of one number apart.
    pub fn number_and_word(self) -> (u64, &'static str) {
        match self {
            Cause::TextTooLong => (1, ""),
            Cause::FirstLine => (2, ""),
            Cause::SecondLine => (3, ""),
            Cause::NoSymbol => (4, ""),
            Cause::UndeclaredMask => (5, ""),
            Cause::NoneOpen => (6, "none open"),
            Cause::NothingInside => (6, "nothing inside"),
            Cause::StillOpen => (6, "still open"),
            Cause::Bar => (7, ""),
            Cause::TooDeep => (8, ""),
            Cause::LineTooMany => (9, "too many"),
            Cause::LinesTooFew => (9, "too few"),
            Cause::TooManyWires => (10, "wires"),
            Cause::TableTooShort => (10, "table"),
        }
    }
}

/// Compared by offset first: the least fault of a text is its refusal.
#[derive(Clone, Copy, PartialEq, Eq, PartialOrd, Ord)]
pub struct Fault {
    pub offset: usize,
    pub cause: Cause,
}

/// A symbol or a group in parentheses, and the bytes of the text it takes, its parentheses included.
pub struct Item {
    pub from: usize,
    pub to: usize,
    pub kind: Kind,
}

pub enum Kind {
    Symbol(Record),
    Group(Vec<Item>),
}

/// A group that is not closed yet: where it was opened and its items so far.
struct OpenGroup {
    from: usize,
    items: Vec<Item>,
}

/// The items of the line that takes the bytes `from` up to, without, `to`. After a fault the rest of the line is read
/// as well as can be: faults further on never count.
pub fn read_line(text: &[u8], from: usize, to: usize, heading: &Heading, faults: &mut Vec<Fault>) -> Vec<Item> {
    let mut groups = vec![OpenGroup {
        from,
        items: Vec::new(),
    }];
    let mut at = from;
    while at < to {
        let end = end_of_mark(text, at, to);
        let fault = match text[at] {
            b' ' => None,
            b'|' => Some(Cause::Bar),
            b'(' => open(&mut groups, at),
            b')' => close(&mut groups, at),
            _ => add_symbol(&mut groups, at, end, heading.find(&text[at..end])),
        };
        faults.extend(fault.map(|cause| Fault { offset: at, cause }));
        at = end;
    }
    if groups.len() > 1 {
        faults.push(Fault {
            offset: to,
            cause: Cause::StillOpen,
        });
    }
    groups.swap_remove(0).items
}

/// A mark is a space, a bar, a parenthesis, or the longest run without them.
fn end_of_mark(text: &[u8], at: usize, to: usize) -> usize {
    let parts = |byte: u8| matches!(byte, b' ' | b'|' | b'(' | b')');
    if parts(text[at]) {
        return at + 1;
    }
    (at..to).find(|place| parts(text[*place])).unwrap_or(to)
}

fn open(groups: &mut Vec<OpenGroup>, at: usize) -> Option<Cause> {
    let already_open = groups.len() - 1;
    groups.push(OpenGroup {
        from: at,
        items: Vec::new(),
    });
    (already_open >= MOST_OPEN).then_some(Cause::TooDeep)
}

fn close(groups: &mut Vec<OpenGroup>, at: usize) -> Option<Cause> {
    if groups.len() == 1 {
        return Some(Cause::NoneOpen);
    }
    let group = groups.pop().expect("one is open");
    if group.items.is_empty() {
        return Some(Cause::NothingInside);
    }
    add(
        groups,
        Item {
            from: group.from,
            to: at + 1,
            kind: Kind::Group(group.items),
        },
    );
    None
}

fn add_symbol(groups: &mut [OpenGroup], from: usize, to: usize, word: Word) -> Option<Cause> {
    match word {
        Word::Symbol(symbol) => {
            add(
                groups,
                Item {
                    from,
                    to,
                    kind: Kind::Symbol(symbol),
                },
            );
            None
        }
        Word::UndeclaredMask => Some(Cause::UndeclaredMask),
        Word::NoSymbol => Some(Cause::NoSymbol),
    }
}

fn add(groups: &mut [OpenGroup], item: Item) {
    groups
        .last_mut()
        .expect("the line itself is never closed")
        .items
        .push(item);
}
