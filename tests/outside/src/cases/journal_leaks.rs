//! Demand 3 with journals could be seen to fail, and the calls on journals that chance makes meet every reason.

use crate::answer::Answer;
use crate::compare::areas;
use crate::compare::calls::Call;
use crate::compare::chance::{any_lengths, disturb};
use crate::compare::engine::{Engine, REFERENCE};
use crate::compare::independence::{pairs_of_seed, Findings};
use crate::compare::journal_chance::{
    any_journal_call, any_journal_length, any_room, disturb_journal,
};
use crate::compare::reasons::{note_call, Lent};
use crate::compare::tally::Tally;
use crate::generate::random::Random;
use crate::generate::{any_design, Size};
use crate::reference;

/// Demand 3 finds a journal that tells a party what it must not see: each of these engines answers as it should
/// and keeps every other promise.
#[test]
fn leaks_of_journals_are_found() {
    let leaks = [
        Engine {
            run_journalled: saves_changes_alone,
            ..REFERENCE
        },
        Engine {
            step_back: goes_back_one_more,
            ..REFERENCE
        },
    ];
    for (number, engine) in leaks.iter().enumerate() {
        let mut findings = Findings::default();
        let mut seeds = 1..=400;
        let found = seeds.any(|seed| pairs_of_seed(engine, seed, &mut findings).is_err());
        assert!(found, "leak {number}");
    }
}

/// A saved state that is the same as the last one is not saved again.
fn saves_changes_alone(
    image: &[u8],
    registers: &mut [u8],
    targets: &mut [u8],
    journal: &mut [u8],
    cycles: u32,
) -> Answer {
    let judged = reference::run_journalled(
        image,
        &mut registers.to_vec(),
        &mut targets.to_vec(),
        &mut journal.to_vec(),
        cycles,
    );
    if judged.number != 0 {
        return judged;
    }
    let state = registers.len() + targets.len();
    for _ in 0..cycles {
        reference::run_journalled(image, registers, targets, journal, 1);
        let count = u32::from_le_bytes(*journal.first_chunk().unwrap());
        let last = &journal[4..][..count as usize * state];
        let same =
            count > 1 && last[last.len() - 2 * state..][..state] == last[last.len() - state..];
        if same {
            journal[..4].copy_from_slice(&(count - 1).to_le_bytes());
        }
    }
    judged
}

/// Goes back one cycle more where the saved registers have an odd sum.
fn goes_back_one_more(
    image: &[u8],
    registers: &mut [u8],
    targets: &mut [u8],
    journal: &mut [u8],
    cycles: u32,
) -> Answer {
    let answer = reference::step_back(image, registers, targets, journal, cycles);
    let sum: u32 = registers.iter().map(|&byte| u32::from(byte)).sum();
    if answer.count > 0 && sum % 2 == 1 {
        reference::step_back(image, registers, targets, journal, 1);
    }
    answer
}

/// Calls on journals meet every reason.
#[test]
fn journals_are_met() {
    let mut random = Random::new(33);
    let mut tallies = [Tally::default(), Tally::default()];
    for _ in 0..250 {
        let size = Size::random(&mut random);
        let table = any_design(&mut random, size);
        let image = table.image();
        let room = any_room(&table, &mut random);
        let mut areas = areas::Areas::new(&table, room, &mut random);
        REFERENCE.make(Call::Reset, &image, areas.whole());
        areas.set_count(0);
        for _ in 0..30 {
            disturb(&mut areas, &table, &mut random);
            disturb_journal(&mut areas, &table, &mut random);
            let call = any_journal_call(&mut areas, &mut random);
            let mut lengths = any_lengths(&areas, &mut random);
            lengths.journal = any_journal_length(&mut areas, call, &mut random);
            let mut before = areas.clone();
            let answer = REFERENCE.make(call, &image, areas.lend(lengths));
            let areas::Lent {
                registers,
                targets,
                journal,
            } = before.lend(lengths);
            let lent = Lent {
                image: &image,
                registers,
                targets,
                journal,
            };
            let tally = &mut tallies[usize::from(matches!(call, Call::StepBack { .. }))];
            tally.add(answer, image.len());
            note_call(tally, call, &lent, answer);
        }
    }
    assert_eq!(tallies[0].missing_of(&[14, 15, 21]), [""; 0]);
    assert_eq!(tallies[1].missing_of(&[14, 21, 22]), [""; 0]);
}
