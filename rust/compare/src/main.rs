//! `compare [ROUNDS] [SEED]`: so many small cases, and one of full size to each 500 of them. Prints
//! what was seen; at a difference the smallest case found that shows it, and ends with status 1.

use std::env;
use std::panic;
use std::process::ExitCode;
use std::time::Instant;

use compare::ours::Ours;
use compare::run::{checking, run};
use compare::second::Second;

const ROUNDS: u64 = 200_000;
const SEED: u64 = 1;

fn main() -> ExitCode {
    let arguments: Vec<String> = env::args().skip(1).collect();
    let numbers: Result<Vec<u64>, _> = arguments.iter().map(|word| word.parse()).collect();
    let (rounds, seed) = match numbers.as_deref() {
        Ok([]) => (ROUNDS, SEED),
        Ok([rounds]) => (*rounds, SEED),
        Ok([rounds, seed]) => (*rounds, *seed),
        _ => {
            eprintln!("usage: compare [ROUNDS] [SEED]");
            return ExitCode::from(2);
        }
    };
    // a call that panics is a difference like any other, and told as one
    let tell = panic::take_hook();
    panic::set_hook(Box::new(move |cause| {
        if !checking() {
            tell(cause);
        }
    }));
    let start = Instant::now();
    match run(&Second, &Ours, rounds, seed) {
        Ok(tally) => {
            print!("{tally}");
            println!("no difference (seed {seed}, {:.0} s)", start.elapsed().as_secs_f64());
            ExitCode::SUCCESS
        }
        Err(found) => {
            println!("difference in {}", found.difference);
            println!("first seen in case {} of seed {seed}; the smallest found:", found.number);
            print!("{}", found.case);
            ExitCode::FAILURE
        }
    }
}
