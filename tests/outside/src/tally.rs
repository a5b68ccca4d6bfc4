//! The books of a run: what was compared and how often each answer came, what had to occur, which wrong models were
//! noticed, and the differences.

use crate::answers::{Answer, Entry, REQUIRED};
use crate::reply::Reply;
use std::collections::BTreeMap;

const MOST_SHOWN: usize = 10;

#[derive(Default)]
pub struct Tally {
    answers: BTreeMap<(Entry, Answer), u64>,
    expected: Vec<(&'static str, &'static str)>,
    occurred: BTreeMap<(&'static str, &'static str), u64>,
    noticed: Vec<(String, u64)>,
    lines: Vec<String>,
    differences: u64,
    /// The first of the differences.
    shown: Vec<String>,
}

impl Tally {
    /// Compares the two replies to one input and counts the answer that the model gives. The word is that of an answer,
    /// or of a refused text's cause.
    pub fn compare(
        &mut self,
        entry: Entry,
        word: &'static str,
        model: &Reply,
        engine: &Reply,
        input: impl Fn() -> String,
    ) {
        let has_word = match entry {
            // 16 is no refusal of the text.
            Entry::CheckSize => model.status != 16,
            Entry::ReadText => true,
            _ => model.status == 0,
        };
        let word = if has_word { word } else { "" };
        *self.answers.entry((entry, (model.status, word))).or_default() += 1;
        if model != engine {
            self.differs(|| format!("{entry:?} {}\n    model:  {model}\n    engine: {engine}", input()));
        }
    }

    /// Counts a difference, and keeps it to be shown if it is among the first.
    pub fn differs(&mut self, what: impl Fn() -> String) {
        self.differences += 1;
        if self.shown.len() < MOST_SHOWN {
            self.shown.push(what());
        }
    }

    /// Names what the inputs have to bring about, those of this pass or of another.
    pub fn expect(&mut self, group: &'static str, kinds: &[&'static str]) {
        self.expected.extend(kinds.iter().map(|kind| (group, *kind)));
    }

    pub fn occurs(&mut self, group: &'static str, kind: &'static str) {
        *self.occurred.entry((group, kind)).or_default() += 1;
    }

    /// Names a wrong model that has to be noticed.
    pub fn expect_fault(&mut self, name: &str) {
        self.noticed.push((String::from(name), 0));
    }

    /// Counts an input on which a wrong model does not say what the engine says.
    pub fn fault(&mut self, name: &str, differs: bool) {
        let known = self.noticed.iter_mut().find(|known| known.0 == name);
        known.expect("a fault is named first").1 += u64::from(differs);
    }

    pub fn say(&mut self, line: String) {
        self.lines.push(line);
    }

    /// Takes over the books of a pass that comes after those that are in here. Both name the same wrong models.
    pub fn merge(&mut self, next: Tally) {
        for (answer, times) in next.answers {
            *self.answers.entry(answer).or_default() += times;
        }
        self.expected.extend(next.expected);
        for (kind, times) in next.occurred {
            *self.occurred.entry(kind).or_default() += times;
        }
        for (name, times) in next.noticed {
            let known = self.noticed.iter_mut().find(|known| known.0 == name);
            known.expect("both name the same faults").1 += times;
        }
        self.lines.extend(next.lines);
        self.differences += next.differences;
        self.shown.extend(next.shown);
        self.shown.truncate(MOST_SHOWN);
    }

    /// Shows the first differences.
    pub fn print_differences(&self) {
        self.shown.iter().for_each(|what| println!("DIFFERENCE {what}"));
    }

    /// Prints the books; whether there is no difference, nothing that was not reached and no fault unnoticed.
    pub fn print(&self) -> bool {
        let mut missing = Vec::new();
        for (entry, name, required) in REQUIRED {
            self.print_entry(entry, name, required, &mut missing);
        }
        self.print_occurrences(&mut missing);
        self.lines.iter().for_each(|line| println!("{line}"));
        for (name, times) in &self.noticed {
            println!("fault           {name}: noticed {times} times");
            if *times == 0 {
                missing.push(format!("fault unnoticed: {name}"));
            }
        }
        missing.iter().for_each(|what| println!("NEVER REACHED {what}"));
        if self.differences > 0 {
            println!(
                "differences     {}, of which at most {MOST_SHOWN} are shown above",
                self.differences
            );
        }
        self.differences == 0 && missing.is_empty()
    }

    fn print_entry(&self, entry: Entry, name: &str, required: &[Answer], missing: &mut Vec<String>) {
        let all: u64 = self
            .answers
            .iter()
            .filter(|((of, _), _)| *of == entry)
            .map(|(_, times)| times)
            .sum();
        let (mut answers, mut refusals, mut said) = (Vec::new(), Vec::new(), 0);
        for (status, word) in required {
            let times = self.answers.get(&(entry, (*status, *word))).copied().unwrap_or(0);
            said += times;
            match (*status, *word) {
                (0, word) => answers.push(format!("{word} {times}")),
                (status, "") => refusals.push(format!("{status}: {times}")),
                (status, word) => refusals.push(format!("{status} {word}: {times}")),
            }
            if times == 0 {
                missing.push(format!("{name}: {status} {word}"));
            }
        }
        assert_eq!(said, all, "an answer of {name} that the scope does not give it");
        println!(
            "{name:15} {all} compared: {}, refused {}",
            answers.join(", "),
            refusals.join(", ")
        );
    }

    fn print_occurrences(&self, missing: &mut Vec<String>) {
        let is_expected = |kind: &(&'static str, &'static str)| self.expected.contains(kind);
        assert!(self.occurred.keys().all(is_expected), "what occurs is expected");
        for kinds in self.expected.chunk_by(|one, next| one.0 == next.0) {
            let mut counts = Vec::new();
            for (group, kind) in kinds {
                let times = self.occurred.get(&(*group, *kind)).copied().unwrap_or(0);
                counts.push(format!("{kind} {times}"));
                if times == 0 {
                    missing.push(format!("{group}: {kind}"));
                }
            }
            println!("{:15} {}", kinds[0].0, counts.join(", "));
        }
    }
}
