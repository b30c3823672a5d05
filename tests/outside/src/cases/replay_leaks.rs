//! Demand 3 finds replays that leak, and the traces that chance makes meet every reason.

use super::replay_mistakes::{engine, judged, same_port, write};
use crate::answer::Answer;
use crate::compare::engine::{Replay, REFERENCE};
use crate::compare::replay_independence::{replay_pairs_of_seed, ReplayFindings};
use crate::compare::replays::{replays_of_seed, Tallies, NEVER};
use crate::reference;
use crate::reference::refusal;
use crate::trace::Record;

/// Each of these tells a party by its own registers what others have recorded.
#[test]
fn leaks_of_replays_are_found() {
    let leaks: [(&str, Replay); 3] = [
        ("a later record supersedes any port's", one_of_a_cycle),
        ("a cycle without records is left out", skips_empty_cycles),
        ("a superseded record ends the replay", ends_early),
    ];
    for (what, replay) in leaks {
        let engine = engine(replay);
        let mut findings = ReplayFindings::default();
        let mut seeds = 1..=400;
        let found = seeds.any(|seed| replay_pairs_of_seed(&engine, seed, &mut findings).is_err());
        assert!(found, "{what}");
    }
}

fn one_of_a_cycle(
    image: &[u8],
    registers: &mut [u8],
    targets: &mut [u8],
    trace: &[Record],
    cycles: u32,
) -> Answer {
    let answer = judged(image, registers, targets, trace, cycles);
    let groups = trace.chunk_by(|one, other| one.cycle == other.cycle);
    let last: Vec<Record> = groups.map(|records| records[records.len() - 1]).collect();
    if answer.number == 0 {
        reference::replay(image, registers, targets, &last, cycles);
    }
    answer
}

fn skips_empty_cycles(
    image: &[u8],
    registers: &mut [u8],
    targets: &mut [u8],
    trace: &[Record],
    cycles: u32,
) -> Answer {
    let answer = judged(image, registers, targets, trace, cycles);
    if answer.number == 0 {
        for records in trace.chunk_by(|one, other| one.cycle == other.cycle) {
            for record in records {
                write(image, registers, record);
            }
            reference::run(image, registers, targets, 1);
        }
    }
    answer
}

fn ends_early(
    image: &[u8],
    registers: &mut [u8],
    targets: &mut [u8],
    trace: &[Record],
    cycles: u32,
) -> Answer {
    let answer = judged(image, registers, targets, trace, cycles);
    let mut pairs = trace.windows(2);
    let end = pairs.position(|pair| same_port(&pair[0], &pair[1]));
    match end {
        Some(place) if answer.number == 0 => {
            reference::replay(
                image,
                registers,
                targets,
                &trace[..place],
                trace[place].cycle + 1,
            );
        }
        _ => {
            reference::replay(image, registers, targets, trace, cycles);
        }
    }
    answer
}

/// The traces that chance makes meet every reason; so do those of demand 3.
#[test]
fn replays_are_met() {
    let mut tallies = Tallies::default();
    for seed in 1..=200 {
        let equal = replays_of_seed(&REFERENCE, seed, &mut tallies);
        assert!(equal.is_ok(), "seed {seed}");
    }
    // Spoiled images are too few here.
    let never = [NEVER, refusal::IMAGE].concat();
    assert_eq!(tallies.missing_but(&never), [""; 0]);
    let mut findings = ReplayFindings::default();
    for seed in 1..=100 {
        let equal = replay_pairs_of_seed(&REFERENCE, seed, &mut findings);
        assert!(equal.is_ok(), "seed {seed}");
    }
    assert!(findings.able());
}
