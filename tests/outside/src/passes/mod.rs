//! The passes of a run. Each compares some entries with the model on inputs of its own, drawn from its own stream of
//! random numbers, so that a change to one pass leaves the inputs of the others as they were.

mod alike;
mod campaigns;
mod dependence;
pub mod examples;
mod far;
mod filed;
mod guards;
mod header;
mod isw;
mod isw_program;
mod jobs;
mod large;
mod long_pools;
mod noted;
mod plan_program;
mod pool_lists;
mod pool_refusals;
mod pools;
mod programs;
mod quick;
mod ranges;
mod refusals;
mod reports;
mod seams;
mod sets;
mod sizes;
mod stack;
mod texts;
mod verdicts;
mod walks;
mod watcher;
mod words;

use crate::faults;
use crate::random::Random;
use crate::tally::Tally;
use std::panic::resume_unwind;
use std::thread::{scope, Builder};

type Pass = fn(&mut Random, &mut Tally);

/// The two threads, with about as much to do each. All passes that start programs or have limits in time are the
/// first's, so that no two of them run at the same time. No pass writes a file or changes anything for the process as a
/// whole.
const FIRST: usize = 0;
const SECOND: usize = 1;

/// For each thread, as much as the process itself usually has.
const STACK_BYTES: usize = 8 << 20;

const PASSES: [(usize, Pass); 31] = [
    (SECOND, guards::run),
    (SECOND, examples::run),
    (SECOND, sets::run),
    (SECOND, jobs::run),
    (SECOND, verdicts::run),
    (SECOND, ranges::run),
    (SECOND, large::run),
    (SECOND, texts::run),
    (SECOND, reports::run),
    (SECOND, watcher::run),
    (FIRST, stack::run),
    (SECOND, header::run),
    (FIRST, programs::run),
    (SECOND, refusals::run),
    (SECOND, dependence::run),
    (SECOND, words::run),
    (SECOND, isw::run),
    (FIRST, isw_program::run),
    (FIRST, sizes::run),
    (FIRST, plan_program::run),
    (SECOND, walks::run),
    (FIRST, seams::run),
    (SECOND, alike::run),
    (FIRST, far::run),
    (FIRST, quick::run),
    (FIRST, pools::run),
    (FIRST, pool_lists::run),
    (FIRST, pool_refusals::run),
    (FIRST, filed::run),
    (FIRST, campaigns::run),
    (FIRST, long_pools::run),
];

/// Each pass has books of its own, which are put together in the order of the passes, whichever ends first. Where a
/// pass panics, the differences up to then are shown all the same.
pub fn run_all(seed: u64, tally: &mut Tally) {
    faults::name_all(tally);
    let start = Random::new(seed).next();
    let mut tallies: [Tally; PASSES.len()] = Default::default();
    let mut work = [Vec::new(), Vec::new()];
    for (number, ((thread, pass), tally)) in PASSES.into_iter().zip(&mut tallies).enumerate() {
        faults::name_all(tally);
        work[thread].push((pass, Random::new(start.wrapping_add(number as u64)), tally));
    }
    let ends = scope(|threads| {
        let started = work.map(|passes| {
            let run = || {
                for (pass, mut random, tally) in passes {
                    pass(&mut random, tally);
                }
            };
            let thread = Builder::new().stack_size(STACK_BYTES).spawn_scoped(threads, run);
            thread.expect("a thread can be started")
        });
        started.map(|thread| thread.join())
    });
    tallies.into_iter().for_each(|next| tally.merge(next));
    tally.print_differences();
    for end in ends {
        end.unwrap_or_else(|panic| resume_unwind(panic));
    }
}
