//! Journalled run and step back on bytes, request E9. A refusal changes no lent byte.
//!
//! A journal begins with the number of cycles that it has saved. Behind it stand, the oldest first, the areas
//! as they were before each of these cycles: registers, then targets with their bindings.

use super::calls::{answer, judge, judge_areas, judge_lengths, judge_run, store};
use super::limits::COUNT_BYTES;
use super::machine::Machine;
use super::refusal::Refusal;
use crate::answer::Answer;
use std::ops::Range;

pub fn run_journalled(
    image: &[u8],
    registers: &mut [u8],
    targets: &mut [u8],
    journal: &mut [u8],
    cycles: u32,
) -> Answer {
    answer(try_run_journalled(
        image, registers, targets, journal, cycles,
    ))
}

pub fn step_back(
    image: &[u8],
    registers: &mut [u8],
    targets: &mut [u8],
    journal: &mut [u8],
    cycles: u32,
) -> Answer {
    answer(try_step_back(image, registers, targets, journal, cycles))
}

fn try_run_journalled(
    bytes: &[u8],
    registers: &mut [u8],
    targets: &mut [u8],
    journal: &mut [u8],
    cycles: u32,
) -> Result<usize, Refusal> {
    let (machine, mut now) = judge_run(bytes, registers, targets, cycles)?;
    let state = registers.len() + targets.len();
    let mut count = judge_journal(journal, state, cycles)?;
    for _ in 0..cycles {
        let saved = [&*registers, &*targets].concat();
        journal[saved_at(count, state)].copy_from_slice(&saved);
        count += 1;
        set_count(journal, count);
        machine.cycle(&mut now, targets, &mut ());
        store(&now, registers);
    }
    Ok(cycles as usize)
}

fn try_step_back(
    bytes: &[u8],
    registers: &mut [u8],
    targets: &mut [u8],
    journal: &mut [u8],
    cycles: u32,
) -> Result<usize, Refusal> {
    let image = judge(bytes)?;
    // Both areas are overwritten whole: their contents are not judged.
    judge_lengths(&image, registers, Some(targets))?;
    let state = registers.len() + targets.len();
    let count = judge_journal(journal, state, 0)?;
    let left = count.checked_sub(cycles).ok_or(Refusal::new(22, 0))?;
    if cycles == 0 {
        return Ok(0);
    }
    // The k-th last of the saved states is the first that is no longer counted.
    let (saved_registers, saved_targets) = journal[saved_at(left, state)].split_at(registers.len());
    judge_areas(
        &image,
        &Machine::new(&image),
        saved_registers,
        saved_targets,
    )?;
    registers.copy_from_slice(saved_registers);
    targets.copy_from_slice(saved_targets);
    set_count(journal, left);
    Ok(cycles as usize)
}

/// Refusal 21, of a journal whose saved states have so many bytes, before so many cycles more. Gives its
/// count.
fn judge_journal(journal: &[u8], state: usize, more: u32) -> Result<u32, Refusal> {
    let refusal = Refusal::new(21, 0);
    let (count, saved) = journal.split_first_chunk::<COUNT_BYTES>().ok_or(refusal)?;
    let count = u32::from_le_bytes(*count);
    let new = count.checked_add(more).ok_or(refusal)?;
    if u128::from(new) * state as u128 > saved.len() as u128 {
        return Err(refusal);
    }
    Ok(count)
}

/// Where the saved state of this number stands.
fn saved_at(number: u32, state: usize) -> Range<usize> {
    let start = COUNT_BYTES + number as usize * state;
    start..start + state
}

fn set_count(journal: &mut [u8], count: u32) {
    journal[..COUNT_BYTES].copy_from_slice(&count.to_le_bytes());
}
