//! Whole searches that are divided: every job of every size is checked, filed and pooled by the engine's own functions,
//! and the pool has to come to the engine's own verdict. With a job left out that is what is told, unless a set was
//! found. Where every clean report is true, whatever its ranks and whichever set was found, holds and broken are the
//! verdict's.

use super::{filed, pools};
use crate::engine;
use crate::inputs::calls::TableCall;
use crate::inputs::pools::{Says, Searched};
use crate::inputs::searches::sets_up_to;
use crate::inputs::tables::Table;
use crate::model::breaking::{NI, SNI};
use crate::model::pool::{list_of, Filing, BROKEN, FILED_REPORT_BYTES, HOLDS, UNCOVERED};
use crate::model::records::RECORD_BYTES;
use crate::model::sets::MAX_SIZE;
use crate::passes::verdicts::any_table;
use crate::random::Random;
use crate::reply::Reply;
use crate::tally::Tally;

const TABLES: usize = 1_200;
const MOST_SETS: u64 = 2_500;
/// Of a table with no more sets than this, lists of drawn ranges are pooled too.
const MOST_SETS_OF_DRAWN: u64 = 300;
const DRAWN: usize = 3;

const GROUP: &str = "campaigns";
const ALL_HOLD: &str = "all jobs, holds";
const ALL_BROKEN: &str = "all jobs, broken";
const LEFT_OUT: &str = "a job left out, uncovered";
const LEFT_OUT_BROKEN: &str = "a job left out, broken";
const TRUE_HOLDS: &str = "drawn ranges, holds";
const FIRST: &str = "drawn ranges, the verdict's set";
const LATER: &str = "drawn ranges, a later set";
const OPEN: &str = "drawn ranges, uncovered though broken";

/// One job of one size, as it was filed.
struct Job {
    size: usize,
    from: u64,
    to: u64,
    is_clean: bool,
    report: Vec<u8>,
}

/// A table with a notion and an order, and the engine's verdict.
struct Campaign {
    call: TableCall,
    notion: usize,
    order: usize,
    verdict: Reply,
}

pub fn run(random: &mut Random, tally: &mut Tally) {
    tally.expect(GROUP, &[ALL_HOLD, ALL_BROKEN, LEFT_OUT, LEFT_OUT_BROKEN]);
    tally.expect(GROUP, &[TRUE_HOLDS, FIRST, LATER, OPEN]);
    for _ in 0..TABLES {
        let table = any_table(random);
        for notion in [NI, SNI] {
            let campaign = Campaign::new(random, &table, notion);
            let mut jobs = campaign.jobs(random, tally);
            random.shuffle(&mut jobs);
            campaign.with_all(tally, &jobs);
            campaign.with_one_left_out(random, tally, &jobs);
            campaign.with_drawn_ranges(random, tally, &table);
        }
    }
}

impl Campaign {
    fn new(random: &mut Random, table: &Table, notion: usize) -> Campaign {
        let call = TableCall::new(random, table);
        let mut order = random
            .between(1, table.shares - 1)
            .max(random.between(1, table.shares - 1));
        while order > 1 && sets_up_to(table.records.len(), order) > MOST_SETS {
            order -= 1;
        }
        let verdict = engine::verdict(&call.table, [call.shares, call.masks, notion, order, order]);
        Campaign {
            call,
            notion,
            order,
            verdict,
        }
    }

    fn wires(&self) -> usize {
        self.call.table.len() / RECORD_BYTES
    }

    fn range_check(&self, size: usize, range: [u64; 2]) -> Reply {
        let numbers = [self.call.shares, self.call.masks, self.notion, size, MAX_SIZE];
        engine::range_check(&self.call.table, numbers, range)
    }

    /// All jobs of all sizes, each size divided by itself; there may be more jobs than sets.
    fn jobs(&self, random: &mut Random, tally: &mut Tally) -> Vec<Job> {
        let mut jobs = Vec::new();
        for size in 1..=self.order {
            let machines = random.pick(&[1, 1, 2, 3, 7, 20]);
            jobs.extend((0..machines).map(|job| self.job(tally, size, [job, machines])));
        }
        jobs
    }

    fn job(&self, tally: &mut Tally, size: usize, [job, jobs]: [u64; 2]) -> Job {
        let [Some(from), Some(to), ..] = engine::job(self.wires(), size, job, jobs).numbers else {
            panic!("job {job} of {jobs} has ranks")
        };
        let [Some(clean), _, rank, ..] = self.range_check(size, [from, to]).numbers else {
            panic!("the ranks of a job are checked")
        };
        let filing = Filing {
            notion: self.notion,
            size,
            from,
            to,
            clean,
            // Where it is clean the call wrote none, and what a caller has there is not looked at.
            rank: rank.unwrap_or(u64::MAX),
        };
        let reply = filed::ask(tally, &filing, FILED_REPORT_BYTES, false);
        Job {
            size,
            from,
            to,
            is_clean: clean == 1,
            report: reply.written.iter().map(|byte| *byte as u8).collect(),
        }
    }

    fn pool(&self, tally: &mut Tally, list: &[u8]) -> Reply {
        let [_, reply] = pools::compare(tally, &self.call, [self.notion, self.order], list);
        reply
    }

    fn with_all(&self, tally: &mut Tally, jobs: &[Job]) {
        let reply = self.pool(tally, &reports(jobs.iter()));
        let [answer, size, rank, ..] = reply.numbers;
        let (kind, right) = match self.verdict.numbers[0] {
            Some(1) => (ALL_HOLD, reply == Reply::answered(&[HOLDS], Vec::new())),
            _ => {
                let shown = (answer, size) == (Some(BROKEN), self.verdict.numbers[1]);
                (ALL_BROKEN, shown && self.set_at(size, rank) == self.verdict.written)
            }
        };
        tally.occurs(GROUP, kind);
        self.expect(tally, right, "all jobs", &reply);
    }

    /// The set at a rank of a size, as the engine has it.
    fn set_at(&self, size: Option<u64>, rank: Option<u64>) -> Vec<u16> {
        let (size, rank) = (size.unwrap_or(0) as usize, rank.unwrap_or(0));
        engine::set_from_rank(self.wires(), size, rank, MAX_SIZE).written
    }

    /// A job with ranks is missing. Where no other found a set, its first rank is told.
    fn with_one_left_out(&self, random: &mut Random, tally: &mut Tally, jobs: &[Job]) {
        let with_ranks: Vec<usize> = (0..jobs.len()).filter(|at| jobs[*at].from < jobs[*at].to).collect();
        if with_ranks.is_empty() {
            return;
        }
        let out = random.pick(&with_ranks);
        let rest = || jobs.iter().enumerate().filter(|(at, _)| *at != out).map(|(_, job)| job);
        let reply = self.pool(tally, &reports(rest()));
        let missing = [UNCOVERED, jobs[out].size as u64, jobs[out].from];
        let (kind, right) = match rest().all(|job| job.is_clean) {
            true => (LEFT_OUT, reply == Reply::answered(&missing, Vec::new())),
            false => (LEFT_OUT_BROKEN, self.is_broken(&reply)),
        };
        tally.occurs(GROUP, kind);
        self.expect(tally, right, "one job left out", &reply);
    }

    /// Both pool and verdict are broken, and the set at the place shown breaks.
    fn is_broken(&self, reply: &Reply) -> bool {
        let [Some(BROKEN), Some(size), Some(rank), ..] = reply.numbers else {
            return false;
        };
        let checked = self.range_check(size as usize, [rank, rank + 1]);
        self.verdict.numbers[0] == Some(0) && checked.numbers[0] == Some(0)
    }

    /// Reports on any ranges, the clean ones true, with any set that breaks where one does.
    fn with_drawn_ranges(&self, random: &mut Random, tally: &mut Tally, table: &Table) {
        if sets_up_to(self.wires(), self.order) > MOST_SETS_OF_DRAWN {
            return;
        }
        let searched = Searched::new(table.clone(), self.notion, self.order);
        for _ in 0..DRAWN {
            let list = list_of(&searched.list(random, Says::Any));
            let reply = pools::ask(tally, &self.call, [self.notion, self.order], &list);
            let is_broken = self.verdict.numbers[0] == Some(0);
            let [answer, size, rank, ..] = reply.numbers;
            let right = match answer {
                Some(HOLDS) => !is_broken,
                Some(BROKEN) => self.is_broken(&reply),
                _ => answer == Some(UNCOVERED),
            };
            self.expect(tally, right, "drawn ranges", &reply);
            match answer {
                Some(HOLDS) => tally.occurs(GROUP, TRUE_HOLDS),
                Some(BROKEN) if self.set_at(size, rank) == self.verdict.written => tally.occurs(GROUP, FIRST),
                Some(BROKEN) => tally.occurs(GROUP, LATER),
                _ if is_broken => tally.occurs(GROUP, OPEN),
                _ => {}
            }
        }
    }

    fn expect(&self, tally: &mut Tally, right: bool, what: &str, reply: &Reply) {
        if !right {
            let Campaign {
                notion, order, verdict, ..
            } = self;
            tally.differs(|| {
                let input = format!("notion {notion} order {order} {}", self.call.show());
                format!("campaigns: {what}: {input}\n    verdict: {verdict}\n    pool:    {reply}")
            });
        }
    }
}

fn reports<'a>(jobs: impl Iterator<Item = &'a Job>) -> Vec<u8> {
    jobs.flat_map(|job| job.report.iter().copied()).collect()
}
