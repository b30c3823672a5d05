//! Tries demand 3 on the library with random pairs of matching lists, of lists and replays on a design and an edited
//! one, of replays, and of runs of gate tables.

use caisson_tests::compare::arguments::Arguments;
use caisson_tests::compare::difference::Difference;
use caisson_tests::compare::edits::{edit_pairs_of_seed, EditFindings};
use caisson_tests::compare::engine::LIBRARY;
use caisson_tests::compare::gate_independence::{gate_pairs_of_seed, GateFindings};
use caisson_tests::compare::groups::Groups;
use caisson_tests::compare::independence::{pairs_of_seed, Findings};
use caisson_tests::compare::replay_independence::{replay_pairs_of_seed, ReplayFindings};
use std::ops::Range;
use std::process::ExitCode;

/// How many seeds each part takes: with these it meets all that it has to.
const LISTS: u64 = 2_500;
const EDITS: u64 = 1_200;
const REPLAYS: u64 = 2_000;
const GATES: u64 = 15_000;

fn main() -> ExitCode {
    match compare(&Arguments::read()) {
        Ok(()) => ExitCode::SUCCESS,
        Err(why) => {
            println!("FAILED: {why}");
            ExitCode::FAILURE
        }
    }
}

fn compare(arguments: &Arguments) -> Result<(), String> {
    compare_groups(arguments.seed)?;
    println!("first seed {}", arguments.seed);
    let mut lists = Findings::default();
    each_seed(arguments.seeds(LISTS), "", |seed| {
        pairs_of_seed(&LIBRARY, seed, &mut lists)
    })?;
    lists.print();
    let mut edits = EditFindings::default();
    each_seed(arguments.seeds(EDITS), " of edits", |seed| {
        edit_pairs_of_seed(&LIBRARY, seed, &mut edits)
    })?;
    edits.print();
    let mut replays = ReplayFindings::default();
    each_seed(arguments.seeds(REPLAYS), " of replays", |seed| {
        replay_pairs_of_seed(&LIBRARY, seed, &mut replays)
    })?;
    replays.print();
    let mut gates = GateFindings::default();
    each_seed(arguments.seeds(GATES), " of gates", |seed| {
        gate_pairs_of_seed(seed, &mut gates)
    })?;
    gates.print();
    if lists.able() && edits.able() && replays.able() && gates.able() {
        return Ok(());
    }
    Err("this test would not have found a difference".to_owned())
}

/// Takes seeds in order until two views differ.
fn each_seed(
    seeds: Range<u64>,
    part: &str,
    mut compare: impl FnMut(u64) -> Result<(), Difference>,
) -> Result<(), String> {
    for seed in seeds {
        if let Err(difference) = compare(seed) {
            difference.report(&format!("seed {seed}{part}"));
            return Err("views differ".to_owned());
        }
    }
    Ok(())
}

/// The stored designs with two groups and with one body for both.
fn compare_groups(seed: u64) -> Result<(), String> {
    let groups = Groups::stored()?;
    let known = groups
        .compare(&LIBRARY, seed)
        .map_err(|difference| difference.text)?;
    println!(
        "two groups and one body for both: {} states, all views equal",
        known.len()
    );
    Ok(())
}
