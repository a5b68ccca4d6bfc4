//! Jobs: every job of many divisions, that the jobs of a division lie end to end, and jobs that do not exist.

use crate::answers::Entry;
use crate::engine;
use crate::faults;
use crate::inputs::HUGE;
use crate::model;
use crate::model::records::MAX_WIRES;
use crate::model::sets::{count, MAX_JOBS, MAX_SIZE};
use crate::random::Random;
use crate::reply::Reply;
use crate::tally::Tally;

const RANDOM_JOBS: usize = 50_000;

pub fn run(random: &mut Random, tally: &mut Tally) {
    for (wires, size) in [
        (0, 0),
        (0, 1),
        (5, 2),
        (7, 3),
        (9, 7),
        (24, 2),
        (75, 4),
        (512, 1),
        (512, 4),
        (512, 7),
    ] {
        for jobs in (1..=20).chain([100, 1000, 4097]) {
            division(tally, wires, size, jobs);
        }
    }
    division(tally, MAX_WIRES, MAX_SIZE, MAX_JOBS);
    division(tally, MAX_WIRES, MAX_SIZE, MAX_JOBS - 1);
    division(tally, 24, 2, MAX_JOBS);
    for _ in 0..RANDOM_JOBS {
        let (wires, size) = (any_wires(random), any_size(random));
        let jobs = any_jobs(random);
        let job = any_job(random, jobs);
        ask(tally, wires, size, job, jobs);
    }
}

fn ask(tally: &mut Tally, wires: usize, size: usize, job: u64, jobs: u64) -> Reply {
    let reply = engine::job(wires, size, job, jobs);
    let model = model::job(wires, size, job, jobs);
    let input = || format!("wires {wires} size {size} job {job} jobs {jobs}");
    tally.compare(Entry::Job, "answered", &model, &reply, input);
    faults::job(tally, wires, size, [job, jobs], &reply);
    reply
}

/// All jobs of one division: the first starts at 0, each next one where the last ended, and the last ends at the count.
fn division(tally: &mut Tally, wires: usize, size: usize, jobs: u64) {
    let mut reached = Some(0);
    for job in 0..jobs {
        let [from, to, ..] = ask(tally, wires, size, job, jobs).numbers;
        if from != reached || to < from {
            tally.differs(|| format!("Job {job} of {jobs}, wires {wires} size {size}: does not start at {reached:?}"));
        }
        reached = to;
    }
    if reached != Some(count(wires, size)) {
        tally.differs(|| format!("Job: the {jobs} jobs for wires {wires} size {size} end at {reached:?}"));
    }
}

fn any_wires(random: &mut Random) -> usize {
    let huge = random.pick(&HUGE);
    match random.below(20) {
        0 => random.pick(&[513, 514, huge]),
        1..=8 => MAX_WIRES,
        _ => random.below(MAX_WIRES + 1),
    }
}

fn any_size(random: &mut Random) -> usize {
    let huge = random.pick(&HUGE);
    match random.below(20) {
        0 => random.pick(&[8, 9, huge]),
        _ => random.between(0, MAX_SIZE),
    }
}

fn any_jobs(random: &mut Random) -> u64 {
    match random.below(10) {
        0 => random.pick(&[0, MAX_JOBS + 1, MAX_JOBS + 2, u64::MAX, 1 << 32, (1 << 32) + 5]),
        1..=3 => MAX_JOBS,
        _ => 1 + random.next() % MAX_JOBS,
    }
}

fn any_job(random: &mut Random, jobs: u64) -> u64 {
    match random.below(10) {
        0 => random.pick(&[jobs, u64::MAX, 1 << 32, jobs | 1 << 32]),
        1 => jobs.saturating_sub(1),
        _ => random.next() % jobs.max(1),
    }
}
