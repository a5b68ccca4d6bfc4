//! Lists of thousands of reports on the sets of seven out of 512 wires, in every order, whole and with one rank
//! missing, and of as many as there may be jobs. What is uncovered is known by the way in which they are made. No call
//! is waited for without end.

use super::quick::within;
use crate::answers::Entry;
use crate::engine;
use crate::inputs::calls::TableCall;
use crate::inputs::tables::planted;
use crate::model;
use crate::model::breaking::{breaks, NI, SNI};
use crate::model::pool::{list_of, Filed, BROKEN, CLEAN, HOLDS, UNCOVERED};
use crate::model::records::{MAX_SHARES, MAX_WIRES};
use crate::model::sets::{count, from_rank, job, MAX_JOBS, MAX_SIZE};
use crate::passes::pools::word;
use crate::random::Random;
use crate::reply::Reply;
use crate::tally::Tally;
use std::time::Duration;

/// For one pool, on a slow machine too.
const LIMIT: Duration = Duration::from_secs(5);
const REPORTS: usize = 4_000;
const NUMBERS: [usize; 2] = [NI, MAX_SIZE];

type Order = fn(&mut Random, &mut Vec<Filed>);

const ORDERS: [(&str, Order); 6] = [
    ("rising", |_, _| {}),
    ("falling", |_, reports| reports.reverse()),
    ("shuffled", |random, reports| random.shuffle(reports)),
    ("every second one, then the others", |_, reports| {
        *reports = every_second(reports, 0)
            .chain(every_second(reports, 1))
            .copied()
            .collect();
    }),
    ("by halves", |_, reports| *reports = by_halves(reports)),
    ("from both ends", |_, reports| {
        let ends = reports
            .iter()
            .zip(reports.iter().rev())
            .flat_map(|(one, other)| [*one, *other]);
        *reports = ends.take(reports.len()).collect();
    }),
];

/// Which rank is missing.
#[derive(Clone, Copy)]
enum Hole {
    None,
    First,
    Last,
    Between,
}

/// How ranges lie over each other.
#[derive(Clone, Copy)]
enum Over {
    /// Each ends where it ended, or where one of the next three does.
    Next,
    AllFromFirst,
    AllToLast,
}

struct Pooled {
    call: TableCall,
    calls: usize,
    longest: Duration,
}

pub fn run(random: &mut Random, tally: &mut Tally) {
    let (call, rank) = with_a_break(random);
    let mut pooled = Pooled {
        call,
        calls: 0,
        longest: Duration::ZERO,
    };
    let complete = pooled.every_order(random, tally).is_some()
        && pooled.overlapping(random, tally).is_some()
        && pooled.with_finds(random, tally, rank).is_some()
        && pooled.as_many_as_jobs(random, tally).is_some();
    if complete {
        let (lists, longest) = (pooled.calls, 1e3 * pooled.longest.as_secs_f64());
        tally.say(format!(
            "long pools      {lists} lists of up to {MAX_JOBS} reports on {MAX_WIRES} wires, at most {longest:.0} ms"
        ));
    }
}

/// A table, and a rank whose set breaks while that of the next rank does not.
fn with_a_break(random: &mut Random) -> (TableCall, u64) {
    loop {
        let rank = random.next() % (count(MAX_WIRES, MAX_SIZE) - 1);
        let [set, next] = [rank, rank + 1].map(|rank| from_rank(MAX_WIRES, MAX_SIZE, rank));
        let table = planted(random, MAX_WIRES, &set, MAX_SHARES);
        if breaks(&table.records, &set, NUMBERS[0]) && !breaks(&table.records, &next, NUMBERS[0]) {
            return (TableCall::new(random, &table), rank);
        }
    }
}

impl Pooled {
    /// None where a call took too long, when no other should be made.
    fn ask(&mut self, tally: &mut Tally, reports: &[Filed], known: &Reply, what: &str) -> Option<()> {
        let ([notion, order], list) = (NUMBERS, list_of(reports));
        let TableCall { table, shares, masks } = self.call.clone();
        let numbers = [shares, masks, notion, order];
        let model = model::pool(&table, numbers, &list);
        let Some((reply, time)) = within(LIMIT, move || engine::pool(&table, numbers, &list)) else {
            tally.differs(|| format!("long pools: {what}, {} reports: no answer in {LIMIT:?}", reports.len()));
            return None;
        };
        tally.compare(Entry::Pool, word(&model), &model, &reply, || format!("of {what}"));
        if reply != *known {
            tally.differs(|| format!("long pools: {what}\n    known:  {known}\n    engine: {reply}"));
        }
        self.calls += 1;
        self.longest = self.longest.max(time);
        Some(())
    }

    /// Every order of the list, with no rank missing and with one at each place.
    fn every_order(&mut self, random: &mut Random, tally: &mut Tally) -> Option<()> {
        for (name, order) in ORDERS {
            for hole in [Hole::None, Hole::First, Hole::Last, Hole::Between] {
                let mut ranges = cut(random, REPORTS);
                let known = answer(make_hole(random, &mut ranges, hole));
                let mut reports = of_all_sizes(&ranges);
                order(random, &mut reports);
                self.ask(tally, &reports, &known, name)?;
            }
        }
        Some(())
    }

    /// The same where ranges lie over each other.
    fn overlapping(&mut self, random: &mut Random, tally: &mut Tally) -> Option<()> {
        for (name, order) in ORDERS {
            for hole in [Hole::None, Hole::First, Hole::Last] {
                for over in [Over::Next, Over::AllFromFirst, Over::AllToLast] {
                    let mut ranges = cut(random, REPORTS);
                    let known = answer(make_hole(random, &mut ranges, hole));
                    stretch(random, &mut ranges, over);
                    let mut reports = of_all_sizes(&ranges);
                    order(random, &mut reports);
                    self.ask(tally, &reports, &known, name)?;
                }
            }
        }
        Some(())
    }

    /// One report has found the set that breaks; then another one claims the next, which does not; then one is of
    /// another notion.
    fn with_finds(&mut self, random: &mut Random, tally: &mut Tally, rank: u64) -> Option<()> {
        let ranges = cut(random, REPORTS);
        let mut reports = of_all_sizes(&ranges);
        let has_rank =
            |report: &Filed| usize::from(report.size) == MAX_SIZE && (report.from..report.to).contains(&rank);
        let place = reports.iter().position(has_rank).expect("every rank is in a range");
        reports[place].found = rank;
        random.shuffle(&mut reports);
        let known = Reply::answered(&[BROKEN, MAX_SIZE as u64, rank], Vec::new());
        self.ask(tally, &reports, &known, "a find")?;
        reports.push(Filed::new([NUMBERS[0], MAX_SIZE], [rank, rank + 2], rank + 1));
        self.ask(tally, &reports, &Reply::refused(26), "two finds")?;
        let last = reports.len() - 1;
        reports[random.below(last)].notion = SNI as u8;
        self.ask(tally, &reports, &Reply::refused(25), "two finds and another notion")
    }

    /// All jobs of the largest division, whole, and with one rank missing between two of them.
    fn as_many_as_jobs(&mut self, random: &mut Random, tally: &mut Tally) -> Option<()> {
        let jobs = (0..MAX_JOBS).map(|number| job(MAX_WIRES, MAX_SIZE, number, MAX_JOBS));
        let jobs: Vec<[u64; 2]> = jobs.collect();
        let [rising, falling, shuffled, ..] = ORDERS;
        let lists = [
            (rising, Hole::None),
            (falling, Hole::None),
            (shuffled, Hole::None),
            (shuffled, Hole::Between),
        ];
        for ((name, order), hole) in lists {
            let mut ranges = jobs.clone();
            let known = answer(make_hole(random, &mut ranges, hole));
            let mut reports = of_all_sizes(&ranges);
            order(random, &mut reports);
            self.ask(tally, &reports, &known, name)?;
        }
        Some(())
    }
}

/// All ranks of the largest size, cut at drawn places into so many ranges, none empty, rising.
fn cut(random: &mut Random, ranges: usize) -> Vec<[u64; 2]> {
    let sets = count(MAX_WIRES, MAX_SIZE);
    let part = sets / ranges as u64;
    let inner = (1..ranges as u64).map(|place| place * part + random.next() % part);
    let mut bounds = vec![0];
    bounds.extend(inner);
    bounds.push(sets);
    bounds.windows(2).map(|pair| [pair[0], pair[1]]).collect()
}

/// Takes one rank away; which, if any.
fn make_hole(random: &mut Random, ranges: &mut [[u64; 2]], hole: Hole) -> Option<u64> {
    let last = ranges.len() - 1;
    match hole {
        Hole::None => None,
        Hole::First => {
            ranges[0][0] += 1;
            Some(0)
        }
        Hole::Last => {
            ranges[last][1] -= 1;
            Some(ranges[last][1])
        }
        Hole::Between => {
            let place = random.below(last);
            ranges[place][1] -= 1;
            Some(ranges[place][1])
        }
    }
}

/// No rank is covered by this that was not.
fn stretch(random: &mut Random, ranges: &mut [[u64; 2]], over: Over) {
    let last = ranges.len() - 1;
    let (least, most) = (ranges[0][0], ranges[last][1]);
    for place in 0..=last {
        let next = last.min(place + random.below(4));
        match over {
            Over::Next => ranges[place][1] = ranges[next][1],
            Over::AllFromFirst => ranges[place][0] = least,
            Over::AllToLast => ranges[place][1] = most,
        }
    }
}

fn answer(uncovered: Option<u64>) -> Reply {
    match uncovered {
        None => Reply::answered(&[HOLDS], Vec::new()),
        Some(rank) => Reply::answered(&[UNCOVERED, MAX_SIZE as u64, rank], Vec::new()),
    }
}

/// Clean reports: one for each smaller size, and then those of the largest.
fn of_all_sizes(ranges: &[[u64; 2]]) -> Vec<Filed> {
    let notion = NUMBERS[0];
    let smaller = (1..MAX_SIZE).map(|size| Filed::new([notion, size], [0, count(MAX_WIRES, size)], CLEAN));
    let largest = ranges.iter().map(|range| Filed::new([notion, MAX_SIZE], *range, CLEAN));
    smaller.chain(largest).collect()
}

fn every_second(reports: &[Filed], from: usize) -> impl Iterator<Item = &Filed> {
    reports.iter().skip(from).step_by(2)
}

/// The middle, then the middles of both halves, and so on.
fn by_halves(reports: &[Filed]) -> Vec<Filed> {
    let mut halves = vec![reports];
    let mut ordered = Vec::new();
    while !halves.is_empty() {
        let mut smaller = Vec::new();
        for half in halves.iter().filter(|half| !half.is_empty()) {
            let (before, rest) = half.split_at(half.len() / 2);
            ordered.push(rest[0]);
            smaller.extend([before, &rest[1..]]);
        }
        halves = smaller;
    }
    ordered
}
