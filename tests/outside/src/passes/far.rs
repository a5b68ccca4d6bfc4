//! Directed verdicts on tables of up to 512 wires at every order, where the other verdict would take up to months. The
//! first breaking set is known by the way in which the tables are made. Small ones get the other verdict too, so that
//! what is known is tried as well.

use super::quick::within;
use crate::answers::Entry;
use crate::engine;
use crate::inputs::calls::TableCall;
use crate::inputs::known::known;
use crate::inputs::searches::sets_up_to;
use crate::model::breaking::{NI, SNI};
use crate::model::found_by_verdict;
use crate::model::records::MAX_WIRES;
use crate::model::sets::MAX_SIZE;
use crate::random::Random;
use crate::tally::Tally;
use std::time::Duration;

const TABLES: usize = 6_000;
const WIRES: [usize; 6] = [MAX_WIRES, MAX_WIRES, MAX_WIRES - 1, 300, 100, 24];
/// The other verdict is asked for where it looks at no more sets than this.
const MOST_SETS: u64 = 200_000;
const LIMIT: Duration = Duration::from_secs(20);

/// So often each answer has to come, of tables that the other verdict can not be asked for.
const LEAST: u64 = 50;
const LEAST_OF_BOTH: u64 = 200;

pub fn run(random: &mut Random, tally: &mut Tally) {
    // By notion: holds, and then each size of the set shown.
    let mut answers = [[0; MAX_SIZE + 1]; 2];
    let mut by_both = 0;
    for _ in 0..TABLES {
        let wires = random.pick(&WIRES);
        let known = known(random, wires);
        let call = TableCall::new(random, &known.table);
        let order = known.order;
        let few = sets_up_to(known.table.records.len(), order) <= MOST_SETS;
        for (notion, first) in [NI, SNI].into_iter().zip(known.first) {
            let numbers = [call.shares, call.masks, notion, order, random.between(order, 9)];
            let wanted = found_by_verdict(first);
            let word = if wanted.written.is_empty() { "holds" } else { "broken" };
            let input = || format!("notion {notion} order {order} {}", call.show());
            let lent = call.table.clone();
            let Some((reply, _)) = within(LIMIT, move || engine::directed_verdict(&lent, numbers)) else {
                tally.differs(|| format!("far: no directed verdict in {LIMIT:?}: {}", input()));
                return;
            };
            tally.compare(Entry::DirectedVerdict, word, &wanted, &reply, input);
            if few {
                let plain = engine::verdict(&call.table, numbers);
                tally.compare(Entry::Verdict, word, &wanted, &plain, input);
                by_both += 1;
            } else {
                answers[notion - 1][wanted.written.len()] += 1;
            }
        }
    }
    let [ni, sni] = answers.map(|counts| counts.map(|count| count.to_string()).join(" "));
    tally.say(format!(
        "far             {TABLES} tables of up to {MAX_WIRES} wires; too large for the other verdict, holds and broken by \
         1 to 7 wires: NI {ni}, SNI {sni}; {by_both} answers by both"
    ));
    if answers.concat().iter().any(|times| *times < LEAST) || by_both < LEAST_OF_BOTH {
        tally.differs(|| String::from("far: an answer came too rarely"));
    }
}
