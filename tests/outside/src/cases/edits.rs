//! Request E14: when an edit is out of sight of a level, and that demand 3 across two designs could be seen to fail.

use crate::answer::Answer;
use crate::compare::edits::{edit_pairs_of_seed, EditFindings};
use crate::compare::engine::{Engine, REFERENCE};
use crate::compare::independence::{pairs_of_seed, Findings};
use crate::designs;
use crate::generate::edit::edited;
use crate::generate::random::Random;
use crate::reference;
use crate::table::Table;
use crate::trace::Record;

/// The states whose bodies may differ at a level.
fn editable(table: &Table, level: u8) -> Vec<usize> {
    let states = 0..table.states.len();
    states
        .filter(|&state| table.may_be_edited(state, level))
        .collect()
}

/// The two groups: states 4 and 5 are high.
#[test]
fn high_bodies_of_two_groups() {
    let table = designs::two_groups();
    assert_eq!(editable(&table, 0), [4, 5]);
    // From above everything is seen.
    assert_eq!(editable(&table, 1), [0; 0]);
}

/// Labels 1 and 2 cannot be compared: each sees the other's edits no more than those above it.
#[test]
fn neighbours_cannot_be_compared() {
    let mut table = Table::new(&[15, 10, 12, 8]);
    for label in 0..4 {
        let goto = table.goto(label);
        table.state(0, label, goto);
    }
    assert_eq!(editable(&table, 0), [1, 2, 3]);
    assert_eq!(editable(&table, 1), [2, 3]);
    assert_eq!(editable(&table, 2), [1, 3]);
    assert_eq!(editable(&table, 3), [0; 0]);
}

/// A parameter's label is not fixed, whatever its bounds.
#[test]
fn bound_labels_are_not_excepted() {
    let table = designs::one_group();
    let bound = |&state: &usize| table.states[state].label >= 16;
    let states = 0..table.states.len();
    assert!(states.clone().any(|state| bound(&state)));
    for level in 0..table.rows.len() as u8 {
        assert!(!editable(&table, level).iter().any(bound));
    }
}

/// Other node numbers are the same bodies; all else of a body counts.
#[test]
fn bodies_apart_from_numbers() {
    let mut random = Random::new(14);
    let table = designs::two_groups();
    let mut numbered = table.clone();
    while numbered == table {
        numbered.renumber(&mut random);
    }
    assert!((0..2).all(|level| table.is_edited_out_of_sight(&numbered, level)));
    for at in 0..table.expressions.len() {
        let mut changed = table.clone();
        // A constant for a register, a register for another, an operation for another.
        changed.expressions[at].kind ^= 1;
        assert!(
            !table.is_edited_out_of_sight(&changed, 1),
            "expression {at}"
        );
    }
    for at in 0..table.commands.len() {
        let mut changed = table.clone();
        changed.commands[at].which += 1;
        assert!(!table.is_edited_out_of_sight(&changed, 1), "command {at}");
    }
    let mut changed = table.clone();
    changed
        .expressions
        .iter_mut()
        .for_each(|node| node.c ^= u16::from(node.kind == 0));
    assert!(!table.is_edited_out_of_sight(&changed, 1));
}

/// Records have to be equal, at every level.
#[test]
fn records_are_not_edited() {
    let table = designs::two_groups();
    let changes: [fn(&mut Table); 6] = [
        |table| table.rows[1] ^= 1,
        |table| table.registers[2].reset += 1,
        |table| table.registers[2].width = 31,
        |table| table.registers[3].label = 1,
        |table| table.states[5].label = 0,
        |table| table.takes(5, &[(1, 1)]),
    ];
    for (number, change) in changes.iter().enumerate() {
        let mut other = table.clone();
        change(&mut other);
        let sees = |level| table.is_edited_out_of_sight(&other, level);
        assert!(!sees(0) && !sees(1), "change {number}");
    }
}

/// An edit of high bodies is out of sight of the low level, and in sight of the high one.
#[test]
fn edits_of_two_groups() {
    let table = designs::two_groups();
    let mut random = Random::new(1);
    let high = edited(&table, &[4, 5], &mut random);
    assert!(table.is_edited_out_of_sight(&high, 0));
    assert!(!table.is_edited_out_of_sight(&high, 1));
    let low = edited(&table, &[2], &mut random);
    assert!(!table.is_edited_out_of_sight(&low, 0));
}

/// Pairs that the reference runs have equal views, and meet all that the test asks for.
#[test]
fn edits_are_met() {
    let mut findings = EditFindings::default();
    for seed in 1..=70 {
        let equal = edit_pairs_of_seed(&REFERENCE, seed, &mut findings);
        assert!(equal.is_ok(), "seed {seed}");
    }
    assert!(findings.met());
}

/// Each of these tells a party by its own registers how long its neighbour's bodies are. Within one design that
/// is nothing new.
#[test]
fn leaks_of_edits_are_found() {
    let leaks = [
        Engine {
            run: tells_length,
            ..REFERENCE
        },
        Engine {
            step_back: tells_length_back,
            ..REFERENCE
        },
        Engine {
            replay: tells_length_replayed,
            ..REFERENCE
        },
    ];
    for (number, engine) in leaks.iter().enumerate() {
        let mut within = Findings::default();
        for seed in 1..=10 {
            let equal = pairs_of_seed(engine, seed, &mut within);
            assert!(equal.is_ok(), "leak {number} within one design");
        }
        let mut findings = EditFindings::default();
        let mut seeds = 1..=400;
        let found = seeds.any(|seed| edit_pairs_of_seed(engine, seed, &mut findings).is_err());
        assert!(found, "leak {number}");
    }
}

/// The lowest bit of the first register becomes that of the number of nodes.
fn tell(image: &[u8], registers: &mut [u8]) {
    let nodes = image.len() / 8;
    if let Some(lowest) = registers.first_mut() {
        *lowest = *lowest & 0xFE | (nodes % 2) as u8;
    }
}

fn tells_length(image: &[u8], registers: &mut [u8], targets: &mut [u8], cycles: u32) -> Answer {
    let mut judged = reference::run(image, registers, targets, 0);
    if cycles > 1_000_000 {
        return reference::run(image, registers, targets, cycles);
    }
    for _ in 0..cycles {
        judged = reference::run(image, registers, targets, 1);
        tell(image, registers);
    }
    judged.count = cycles as usize;
    judged
}

fn tells_length_back(
    image: &[u8],
    registers: &mut [u8],
    targets: &mut [u8],
    journal: &mut [u8],
    cycles: u32,
) -> Answer {
    let answer = reference::step_back(image, registers, targets, journal, cycles);
    if answer.count > 0 {
        tell(image, registers);
    }
    answer
}

fn tells_length_replayed(
    image: &[u8],
    registers: &mut [u8],
    targets: &mut [u8],
    trace: &[Record],
    cycles: u32,
) -> Answer {
    let answer = reference::replay(image, registers, targets, trace, cycles);
    if answer.number == 0 && cycles > 0 {
        tell(image, registers);
    }
    answer
}
