//! The two entries that give a verdict, side by side: status, numbers and every wire number of the buffer have to be the
//! same, on tables of every kind, at every order, whatever the size of the first breaking set, and where they refuse. A
//! part of the tables gets the model's own verdict too.

use crate::answers::Entry;
use crate::engine;
use crate::faults;
use crate::inputs::calls::{notion, set_length, TableCall};
use crate::inputs::files;
use crate::inputs::searches::{sets_up_to, CHANGED, KINDS};
use crate::inputs::tables::Table;
use crate::inputs::HUGE;
use crate::model;
use crate::model::breaking::{NI, SNI};
use crate::model::records::{parse, MAX_SHARES, MAX_TABLE_BYTES};
use crate::model::sets::MAX_SIZE;
use crate::random::Random;
use crate::reply::Reply;
use crate::tally::Tally;

const TURNS: usize = 20_000;
/// The order is lowered until there are no more sets than this. Of 14 wires all sets of up to seven are less.
const MOST_SETS: u64 = 17_000;
/// The same for one changed gadget in so many: isw-4 keeps its order.
const MOST_SETS_OF_LARGE: u64 = 1_500_000;
const ONE_IN_LARGE: usize = 60;
/// One table in so many is judged by the model, where it has no more sets than this, and by wrong directed searches.
const ONE_IN_OF_MODEL: usize = 31;
const ONE_IN_OF_FAULTS: usize = 131;
const MOST_SETS_OF_MODEL: u64 = 10_000;
/// One table in so many is also lent in a wrong way.
const ONE_IN_WRONG: usize = 7;

/// So often each of these has to come, or the pass says nothing: a first breaking set of a size under a notion, a verdict
/// that holds, an order, either answer to a kind of table, a refusal, and the answers that the model gives.
const LEAST_OF_SIZE: u64 = 4_000;
const LEAST_OF_HOLDS: u64 = 50_000;
const LEAST_OF_ORDER: u64 = 20_000;
const LEAST_OF_KIND: u64 = 500;
const LEAST_OF_REFUSAL: u64 = 100;
const LEAST_OF_MODEL: u64 = 3_000;
const FIRST_REFUSAL: u64 = 11;
const LAST_REFUSAL: u64 = 16;

/// How often everything came.
#[derive(Default)]
struct Counts {
    tables: u64,
    /// By notion: holds, and then each size of the set shown.
    answers: [[u64; MAX_SIZE + 1]; 2],
    orders: [u64; MAX_SHARES],
    /// By kind: broken and holds.
    kinds: [[u64; 2]; KINDS.len()],
    refusals: [u64; 6],
    by_model: u64,
}

pub fn run(random: &mut Random, tally: &mut Tally) {
    let gadgets = read_gadgets();
    let mut counts = Counts::default();
    for turn in 0..TURNS {
        for (kind, (_, times, make)) in KINDS.iter().enumerate() {
            for _ in 0..*times {
                let table = make(random, &gadgets);
                compare_all(random, tally, &mut counts, &table, [turn, kind]);
            }
        }
    }
    counts.tell(tally);
}

/// Both notions at one order; and what is done to some of the tables only.
fn compare_all(random: &mut Random, tally: &mut Tally, counts: &mut Counts, table: &Table, [turn, kind]: [usize; 2]) {
    let call = TableCall::new(random, table);
    let most = match KINDS[kind].0 == CHANGED && turn % ONE_IN_LARGE == 0 {
        true => MOST_SETS_OF_LARGE,
        false => MOST_SETS,
    };
    let order = any_order(random, table, most);
    let few = sets_up_to(table.records.len(), order) <= MOST_SETS_OF_MODEL;
    counts.tables += 1;
    for notion in [NI, SNI] {
        let numbers = [notion, order, random.between(order, 9)];
        let reply = compare(tally, &call, numbers);
        counts.orders[order] += 1;
        counts.kinds[kind][usize::from(reply.numbers[0] == Some(1))] += 1;
        // More than seven wires are a difference already.
        counts.answers[notion - 1][reply.written.len().min(MAX_SIZE)] += 1;
        if few && turn % ONE_IN_OF_MODEL == 0 {
            counts.by_model += 1;
            ask_model(tally, &call, numbers);
        }
        if few && turn % ONE_IN_OF_FAULTS == 0 {
            faults::directed::verdict(tally, &table.records, notion, order, &reply);
        }
    }
    if turn % ONE_IN_WRONG == 0 {
        let status = wrong_call(random, tally, call, order);
        if (FIRST_REFUSAL..=LAST_REFUSAL).contains(&status) {
            counts.refusals[(status - FIRST_REFUSAL) as usize] += 1;
        }
    }
}

/// The tables that the engine reads from the gadgets' texts.
fn read_gadgets() -> Vec<Table> {
    let read = |path: std::path::PathBuf| {
        let reply = engine::read_text(&files::read(&path), MAX_TABLE_BYTES);
        let [_, Some(shares), Some(masks), ..] = reply.numbers else {
            panic!("{} can be read", path.display())
        };
        let table: Vec<u8> = reply.written.iter().map(|byte| *byte as u8).collect();
        Table {
            records: parse(&table),
            shares: shares as usize,
            masks: masks as usize,
        }
    };
    files::gadgets().into_iter().map(read).collect()
}

/// The highest that does not take too long, mostly.
fn any_order(random: &mut Random, table: &Table, most: u64) -> usize {
    let mut order = match random.chance(80) {
        true => table.shares - 1,
        false => random.between(1, table.shares - 1),
    };
    while order > 1 && sets_up_to(table.records.len(), order) > most {
        order -= 1;
    }
    order
}

/// The reply of the directed search, which has to be the other's.
fn compare(tally: &mut Tally, call: &TableCall, [notion, order, set_length]: [usize; 3]) -> Reply {
    let numbers = [call.shares, call.masks, notion, order, set_length];
    let [plain, directed] = engine::VERDICTS.map(|(_, ask)| ask(&call.table, numbers));
    if plain != directed || !directed.rest_kept {
        tally.differs(|| {
            let input = format!("notion {notion} order {order} set_length {set_length} {}", call.show());
            format!("alike: {input}\n    verdict:          {plain}\n    directed verdict: {directed}")
        });
    }
    directed
}

fn ask_model(tally: &mut Tally, call: &TableCall, [notion, order, set_length]: [usize; 3]) {
    let numbers = [call.shares, call.masks, notion, order, set_length];
    let Ok(model) = model::verdict(&call.table, numbers, u64::MAX) else {
        unreachable!("any number may be searched")
    };
    let word = if model.numbers[0] == Some(1) { "holds" } else { "broken" };
    let input = || format!("notion {notion} order {order} set_length {set_length} {}", call.show());
    let reply = engine::directed_verdict(&call.table, numbers);
    tally.compare(Entry::DirectedVerdict, word, &model, &reply, input);
}

/// The status of a call with up to two injuries to the table, and numbers that may be wrong too.
fn wrong_call(random: &mut Random, tally: &mut Tally, mut call: TableCall, order: usize) -> u64 {
    for _ in 0..random.below(3) {
        call.injure(random);
    }
    let huge = random.pick(&HUGE);
    // None above 2 that may be answered, as an injured table may be a larger one.
    let order = match random.chance(70) {
        true => order.min(2),
        false => random.pick(&[0, call.shares, 8, 9, huge]),
    };
    let numbers = [notion(random), order, set_length(random, order)];
    compare(tally, &call, numbers).status
}

impl Counts {
    fn tell(&self, tally: &mut Tally) {
        let mut few = Vec::new();
        let mut need = |what: String, times: u64, least: u64| {
            if times < least {
                few.push(format!("{what}: {times}, and not {least}"));
            }
        };
        for (name, answers) in ["NI", "SNI"].iter().zip(&self.answers) {
            need(format!("{name} holds"), answers[0], LEAST_OF_HOLDS);
            for (size, times) in answers.iter().enumerate().skip(1) {
                need(format!("{name} broken by {size}"), *times, LEAST_OF_SIZE);
            }
        }
        for (order, times) in self.orders.iter().enumerate().skip(1) {
            need(format!("order {order}"), *times, LEAST_OF_ORDER);
        }
        for ((name, _, _), [broken, holds]) in KINDS.iter().zip(&self.kinds) {
            need(format!("{name}, broken"), *broken, LEAST_OF_KIND);
            need(format!("{name}, holds"), *holds, LEAST_OF_KIND);
        }
        for (number, times) in (FIRST_REFUSAL..).zip(&self.refusals) {
            need(format!("refused {number}"), *times, LEAST_OF_REFUSAL);
        }
        need(String::from("answers of the model"), self.by_model, LEAST_OF_MODEL);
        few.iter()
            .for_each(|what| tally.differs(|| format!("alike: too few: {what}")));
        self.say(tally);
    }

    fn say(&self, tally: &mut Tally) {
        let list = |numbers: &[u64]| numbers.iter().map(u64::to_string).collect::<Vec<_>>().join(" ");
        let [ni, sni] = &self.answers;
        let (orders, refusals) = (list(&self.orders[1..]), list(&self.refusals));
        tally.say(format!(
            "alike           both verdicts on {} tables: NI holds {}, broken by 1 to 7 wires {}, SNI holds {}, broken {}; \
             at orders 1 to 7 {orders}; refused 11 to 16 {refusals}; {} answers of the model too",
            self.tables,
            ni[0],
            list(&ni[1..]),
            sni[0],
            list(&sni[1..]),
            self.by_model
        ));
        let kinds = KINDS.iter().zip(&self.kinds);
        let kinds = kinds.map(|((name, _, _), [broken, holds])| format!("{name} {holds}/{broken}"));
        tally.say(format!(
            "alike           holds/broken by kind: {}",
            kinds.collect::<Vec<_>>().join(", ")
        ));
    }
}
