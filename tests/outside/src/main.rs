//! The outside tests of Calduvren: a model of the scope, written apart from the engine, is compared with the engine
//! through its C interface on many inputs, and with the programs `report`, `isw` and `plan` as they were built. The one
//! argument is the seed, a number.

mod answers;
mod child;
mod engine;
mod faults;
mod inputs;
mod model;
mod passes;
mod random;
mod reply;
mod tally;

use std::process::ExitCode;
use std::time::Instant;

const USUAL_SEED: u64 = 2002;

fn main() -> ExitCode {
    let seed = match std::env::args().nth(1).map(|seed| seed.parse()) {
        None => USUAL_SEED,
        Some(Ok(seed)) => seed,
        Some(Err(_)) => {
            eprintln!("outside: the seed is a number");
            return ExitCode::from(2);
        }
    };
    println!("seed            {seed}");
    let start = Instant::now();
    let mut tally = tally::Tally::default();
    passes::run_all(seed, &mut tally);
    let good = tally.print();
    println!("time            {:.1} s", start.elapsed().as_secs_f64());
    if good {
        println!("outside: no difference");
        ExitCode::SUCCESS
    } else {
        println!("outside: FAILED");
        ExitCode::FAILURE
    }
}
