//! Compares the library with the reference on random images, on random lists of calls, on random replays, on
//! random raisings, on random prunings, on random filings and on random gate tables.

use caisson_tests::compare::arguments::Arguments;
use caisson_tests::compare::check;
use caisson_tests::compare::difference::Difference;
use caisson_tests::compare::engine::LIBRARY;
use caisson_tests::compare::filing;
use caisson_tests::compare::gates;
use caisson_tests::compare::lists;
use caisson_tests::compare::pruning;
use caisson_tests::compare::raising;
use caisson_tests::compare::replays;
use std::process::ExitCode;

/// How many seeds a comparison takes: with these it meets all that it has to.
const CHECKS: u64 = 1_500;
const LISTS: u64 = 3_000;
const REPLAYS: u64 = 2_500;
const RAISINGS: u64 = 1_000;
const PRUNINGS: u64 = 200;
const FILINGS: u64 = 80;
const GATES: u64 = 20_000;

fn main() -> ExitCode {
    let arguments = Arguments::read();
    println!("first seed {}", arguments.seed);
    let equal = compare_checks(&arguments)
        && compare_lists(&arguments)
        && compare_replays(&arguments)
        && compare_raisings(&arguments)
        && compare_prunings(&arguments)
        && compare_filings(&arguments)
        && compare_gates(&arguments);
    if equal {
        println!("no difference");
        ExitCode::SUCCESS
    } else {
        println!("FAILED");
        ExitCode::FAILURE
    }
}

/// Takes seeds in order until two answers differ.
fn each_seed(
    arguments: &Arguments,
    own: u64,
    mut compare: impl FnMut(u64) -> Result<(), Difference>,
) -> bool {
    for seed in arguments.seeds(own) {
        if let Err(difference) = compare(seed) {
            difference.report(&format!("seed {seed}"));
            return false;
        }
    }
    true
}

fn compare_checks(arguments: &Arguments) -> bool {
    let mut tallies = check::Tallies::default();
    if let Err(difference) = check::fixed_images(&mut tallies) {
        difference.report("the fixed images");
        return false;
    }
    let equal = each_seed(arguments, CHECKS, |seed| {
        check::images_of_seed(seed, &mut tallies)
    });
    tallies.print();
    equal && all_met(tallies.missing())
}

fn compare_lists(arguments: &Arguments) -> bool {
    // Not in the tallies below: random designs have to meet the operands and journals by themselves.
    if let Err(difference) = lists::operations(&mut lists::Tallies::default()) {
        difference.report("the operations");
        return false;
    }
    if let Err(difference) = lists::longest_journals(&mut lists::Tallies::default()) {
        difference.report("the longest journals");
        return false;
    }
    let mut tallies = lists::Tallies::default();
    if let Err(difference) = lists::longest_runs(&mut tallies) {
        difference.report("the longest runs");
        return false;
    }
    let equal = each_seed(arguments, LISTS, |seed| {
        lists::lists_of_seed(seed, &mut tallies)
    });
    tallies.print();
    equal && all_met(tallies.missing())
}

fn compare_replays(arguments: &Arguments) -> bool {
    // Not in the tallies below: random traces have to meet the reasons by themselves.
    let fixed = replays::about_null()
        .and_then(|()| replays::longest_replays(&LIBRARY, &mut replays::Tallies::default()));
    if let Err(difference) = fixed {
        difference.report("the longest replays");
        return false;
    }
    let mut tallies = replays::Tallies::default();
    let equal = each_seed(arguments, REPLAYS, |seed| {
        replays::replays_of_seed(&LIBRARY, seed, &mut tallies)
    });
    tallies.print();
    equal && all_met(tallies.missing())
}

fn compare_raisings(arguments: &Arguments) -> bool {
    let mut tallies = raising::Tallies::default();
    if let Err(difference) = raising::fixed_images(&mut tallies) {
        difference.report("the fixed raisings");
        return false;
    }
    let equal = each_seed(arguments, RAISINGS, |seed| {
        raising::raisings_of_seed(seed, &mut tallies)
    });
    tallies.print();
    equal && all_met(tallies.missing())
}

fn compare_prunings(arguments: &Arguments) -> bool {
    let mut tallies = pruning::Tallies::default();
    let fixed = pruning::about_null().and_then(|()| pruning::fixed_images(&LIBRARY, &mut tallies));
    if let Err(difference) = fixed {
        difference.report("the fixed prunings");
        return false;
    }
    let equal = each_seed(arguments, PRUNINGS, |seed| {
        pruning::prunings_of_seed(&LIBRARY, seed, &mut tallies)
    });
    tallies.print();
    equal && all_met(tallies.missing())
}

fn compare_filings(arguments: &Arguments) -> bool {
    let mut tallies = filing::Tallies::default();
    let fixed = filing::about_null().and_then(|()| filing::fixed_images(&LIBRARY, &mut tallies));
    if let Err(difference) = fixed {
        difference.report("the fixed filings");
        return false;
    }
    let equal = each_seed(arguments, FILINGS, |seed| {
        filing::filings_of_seed(&LIBRARY, seed, &mut tallies)
    });
    tallies.print();
    equal && all_met(tallies.missing())
}

fn compare_gates(arguments: &Arguments) -> bool {
    let mut tallies = gates::Tallies::default();
    if let Err(difference) = gates::fixed_tables(&mut tallies) {
        difference.report("the fixed gate tables");
        return false;
    }
    let equal = each_seed(arguments, GATES, |seed| {
        gates::tables_of_seed(seed, &mut tallies)
    });
    tallies.print();
    equal && all_met(tallies.missing())
}

fn all_met(missing: Vec<String>) -> bool {
    if !missing.is_empty() {
        println!("never met: {missing:?}");
    }
    missing.is_empty()
}
