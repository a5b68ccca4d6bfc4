//! Texts of so many sets that nobody looks at each: such as directed searches are done with at once, and such as no
//! search is done with. And the model's report on a text of any number of sets.

use super::calls::show_text;
use super::gadgets::{self, Cross, End};
use crate::model::breaking::TooMany;
use crate::model::plan::in_all;
use crate::model::report::{directed_report, report};
use crate::model::sets::MAX_SIZE;
use crate::model::sizes::Size;
use crate::random::Random;

/// From so many sets on, not each is looked at: the model would take seconds and more.
const LEAST_OF_FAR: u64 = 120_000_000;
/// Of such a text so many sets are looked at, in case that it breaks by few wires.
const MOST_OF_FAR: u64 = 20_000;

/// Masks that stand beside a chain, so that the sets are many. With more of them the model's search would take long.
const PADDING: usize = 28;
const TEXTS: usize = 30;
/// A text is drawn only where the model's directed search looks at no more sets than this for a notion.
const MOST_OF_DRAWN: u64 = 1_000_000;

/// A text is long where the model's directed search is not done after so many sets, which takes no second. It would go on
/// for days.
const LEAST_OF_LONG: u64 = 20_000_000;

/// Gadgets for the product and for a copy but for some symbols, and drawn ones. Most of them hold.
pub fn texts(random: &mut Random) -> Vec<Vec<u8>> {
    let mut product = gadgets::multiplication(MAX_SIZE, |_, _| Cross::MaskFirst);
    product.lines[MAX_SIZE] = product.lines[MAX_SIZE].replace("s77 ", "");
    let mut texts = vec![product.text(), gadgets::late(MAX_SIZE, End::Mask, PADDING).text()];
    while texts.len() < TEXTS {
        let text = gadgets::any(random, MAX_SIZE).text();
        if is_far(&text) && matches!(report_or_far(&text, MOST_OF_DRAWN), Ok((_, true))) {
            texts.push(text);
        }
    }
    texts
}

/// Gadgets whose first breaking set has so many wires under either notion.
pub fn late() -> Vec<(Vec<u8>, usize)> {
    let late = |size| (gadgets::late_by(size, MAX_SIZE, End::Share, PADDING).text(), size);
    (4..=MAX_SIZE).map(late).collect()
}

/// Gadgets whose masks stand in most wires, so that most sets are left to a directed search too: one for a copy, and one
/// with another function, on which there is a second note.
pub fn long(random: &mut Random) -> [Vec<u8>; 2] {
    let copy = gadgets::dense(random);
    let mut other = gadgets::dense(random);
    other.lines[MAX_SIZE] = other.lines[MAX_SIZE].replace('a', "b");
    let text = |gadget: gadgets::Description| {
        let text = gadget.text();
        let is_long = is_far(&text) && directed_report(&text, LEAST_OF_LONG).is_err();
        assert!(is_long, "too few sets to be long: {}", show_text(&text));
        text
    };
    [copy, other].map(text)
}

/// The report, by looking at every set as far as that is no long work, else by directed searches, which `most` bounds;
/// and whether by these.
pub fn report_or_far(text: &[u8], most: u64) -> Result<(String, bool), TooMany> {
    let every = if is_far(text) { MOST_OF_FAR } else { u64::MAX };
    match report(text, every) {
        Ok(report) => Ok((report, false)),
        Err(TooMany) => Ok((directed_report(text, most)?, true)),
    }
}

fn is_far(text: &[u8]) -> bool {
    Size::of(text).is_ok_and(|size| in_all(&size) >= LEAST_OF_FAR)
}
