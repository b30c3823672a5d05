//! Compares a cycle lister, a program given by `--program`, with the reference's listing.

use caisson_tests::compare::arguments::Arguments;
use caisson_tests::compare::listings::{listings_of_examples, listings_of_seed};
use std::process::ExitCode;

/// How many seeds it takes.
const LISTINGS: u64 = 1_000;

fn main() -> ExitCode {
    let arguments = Arguments::read();
    let Some(program) = &arguments.program else {
        eprintln!("--program must name the lister");
        return ExitCode::from(2);
    };
    if let Err(difference) = listings_of_examples(program) {
        difference.report("the examples");
        return ExitCode::FAILURE;
    }
    println!("first seed {}", arguments.seed);
    let seeds = arguments.seeds(LISTINGS);
    for seed in seeds.clone() {
        if let Err(difference) = listings_of_seed(program, seed) {
            difference.report(&format!("seed {seed}"));
            return ExitCode::FAILURE;
        }
    }
    println!("{} listings, no difference", seeds.count());
    ExitCode::SUCCESS
}
