//! Which refusal a pool gives where there are several: reports of every kind beside each other, one wrong report among
//! a thousand, and calls that fail any choice of conditions.

use super::pools::{ask, compare, three_wires};
use super::verdicts::call_that_fails;
use crate::engine;
use crate::inputs::calls::{hex, TableCall};
use crate::inputs::pools::Searched;
use crate::model::breaking::{NI, SNI};
use crate::model::pool::{list_of, Filed, CLEAN};
use crate::model::records::RECORD_BYTES;
use crate::random::Random;
use crate::reply::Reply;
use crate::tally::Tally;

const MANY: usize = 1_000;
/// So often every choice of conditions that are not met: of the refusals 11 to 15, and then 25 and 26.
const TURNS: usize = 10;
const CONDITIONS: [u64; 7] = [11, 12, 13, 14, 15, 25, 26];
/// The last of them that are about the list.
const OF_LIST: usize = 2;
/// Of the lists of three kinds one in so many is held against the wrong pools too.
const ONE_IN: usize = 3;

pub fn run(random: &mut Random, tally: &mut Tally) {
    for notion in [NI, SNI] {
        let searched = three_wires(random, notion);
        kinds_in_threes(random, tally, &searched);
        among_many(random, tally, &searched);
    }
    let calls: usize = (0..TURNS).map(|_| all_conditions(random, tally)).sum();
    tally.say(format!(
        "pool            {calls} calls that fail none to all of {} conditions, the first told",
        CONDITIONS.len()
    ));
}

/// Clean reports and true finds.
fn sound(searched: &Searched) -> Vec<Filed> {
    let reports = [1, 2].map(|size| {
        let found = searched.ranks(size, [0, 3], true)[0];
        [CLEAN, found].map(|found| searched.report(size, [0, 3], found))
    });
    reports.concat()
}

/// Finds that do not break: each a 26.
fn untrue(searched: &Searched) -> Vec<Filed> {
    let rank = |size| searched.ranks(size, [0, 3], false)[0];
    [1, 2].map(|size| searched.report(size, [0, 3], rank(size))).to_vec()
}

/// Reports with one thing wrong, each a 25. That with 1 as its first filling byte is as of a check under way.
fn wrong(notion: usize) -> Vec<Filed> {
    let clean = Filed::new([notion, 1], [0, 3], CLEAN);
    let found = |range, found| Filed::new([notion, 1], range, found);
    let notion = clean.notion;
    vec![
        Filed { notion: 0, ..clean },
        Filed {
            notion: 3 - notion,
            ..clean
        },
        Filed { notion: 3, ..clean },
        Filed { size: 0, ..clean },
        Filed { size: 3, ..clean },
        Filed { size: 8, ..clean },
        Filed {
            filling: [1, 0, 0, 0, 0, 0],
            ..clean
        },
        Filed {
            filling: [0, 0, 0, 0, 0, 128],
            ..clean
        },
        Filed {
            filling: [0, 3, 3, 0, 0, 0],
            ..clean
        },
        Filed {
            from: 3,
            to: 2,
            ..clean
        },
        Filed { to: 4, ..clean },
        Filed { to: u64::MAX, ..clean },
        Filed {
            from: u64::MAX,
            to: u64::MAX,
            ..clean
        },
        found([0, 2], 2),
        found([1, 3], 0),
        found([1, 1], 1),
        found([0, 3], u64::MAX - 1),
    ]
}

fn kinds_in_threes(random: &mut Random, tally: &mut Tally, searched: &Searched) {
    let call = TableCall::new(random, &searched.table);
    let kinds = [sound(searched), untrue(searched), wrong(searched.notion)].concat();
    let mut lists = 0;
    for (one, other) in kinds.iter().flat_map(|one| kinds.iter().map(move |other| (one, other))) {
        for last in &kinds {
            let list = list_of(&[*one, *other, *last]);
            lists += 1;
            match lists % ONE_IN {
                0 => drop(ask(tally, &call, [searched.notion, searched.order], &list)),
                _ => drop(compare(tally, &call, [searched.notion, searched.order], &list)),
            }
        }
    }
}

/// A thousand reports of which one is wrong, the last, the first or any, sometimes behind a find that does not break.
fn among_many(random: &mut Random, tally: &mut Tally, searched: &Searched) {
    let call = TableCall::new(random, &searched.table);
    let (sound, untrue) = (sound(searched), untrue(searched));
    for report in [wrong(searched.notion), untrue.clone(), sound.clone()].concat() {
        for place in [MANY - 1, 0, random.below(MANY)] {
            for is_behind_untrue in [false, true] {
                let mut reports: Vec<Filed> = (0..MANY).map(|_| random.pick(&sound)).collect();
                if is_behind_untrue {
                    reports[place / 2] = random.pick(&untrue);
                }
                reports[place] = report;
                compare(tally, &call, [searched.notion, searched.order], &list_of(&reports));
            }
        }
    }
}

/// How many calls are made, one for each choice of conditions that are not met.
fn all_conditions(random: &mut Random, tally: &mut Tally) -> usize {
    for failed in 0..1 << CONDITIONS.len() {
        let fails = |refusal| failed >> CONDITIONS.iter().position(|one| *one == refusal).unwrap_or(0) & 1 == 1;
        let of_table = failed & ((1 << (CONDITIONS.len() - OF_LIST)) - 1);
        let (mut call, [notion, order, _]) = call_that_fails(random, of_table);
        // A wire of nothing, which does not break alone.
        call.table.splice(0..0, [0; RECORD_BYTES]);
        let list = list_that_fails(random, notion, fails(25), fails(26));
        let reply = engine::pool(&call.table, [call.shares, call.masks, notion, order], &list);
        let right = match CONDITIONS.get(failed.trailing_zeros() as usize) {
            Some(first) => reply == Reply::refused(*first),
            None => reply.status == 0,
        };
        if !right {
            let input = format!("notion {notion} order {order} reports {} {}", hex(&list), call.show());
            tally.differs(|| format!("Pool {input}\n    fails {failed:07b} of {CONDITIONS:?}\n    engine: {reply}"));
        }
    }
    1 << CONDITIONS.len()
}

/// In any order: a clean report, one that is a 25 or a list too long, and one that is a 26 where wire 0 does not break.
fn list_that_fails(random: &mut Random, notion: usize, is_wrong: bool, is_untrue: bool) -> Vec<u8> {
    let mut reports = vec![Filed::new([notion, 1], [0, 1], CLEAN)];
    let is_too_long = is_wrong && random.chance(20);
    if is_wrong && !is_too_long {
        // Of a notion that is none, any report is wrong.
        let (size, huge) = (random.pick(&[0, 8]), [u64::MAX - 1, u64::MAX]);
        let ways = [
            ([notion, size], [0, 0]),
            ([notion, 1], [1, 0]),
            ([notion, 1], huge),
            ([0, 1], [0, 0]),
        ];
        let (numbers, range) = random.pick(&ways);
        reports.push(Filed::new(numbers, range, CLEAN));
    }
    if is_untrue {
        reports.push(Filed::new([notion, 1], [0, 1], 0));
    }
    random.shuffle(&mut reports);
    let mut list = list_of(&reports);
    if is_too_long {
        list.push(0);
    }
    list
}
