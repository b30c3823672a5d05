//! Check, the lengths of the areas, reset, port write and run on bytes. A refusal changes no lent byte.

use super::image::{Image, PORT};
use super::labels::Labels;
use super::limits::{MOST_CYCLES, TARGET_BYTES};
use super::machine::Machine;
use super::refusal::Refusal;
use super::{nodes, records, rules};
use crate::answer::Answer;

/// The image checks, 1 to 12, 16 and 19, which every call but raising makes first.
pub fn judge(bytes: &[u8]) -> Result<Image<'_>, Refusal> {
    let (image, labels) = judge_nodes(bytes)?;
    rules::judge(&image, &labels)?;
    Ok(image)
}

/// Those up to 9, 16 and 19 included, which raising asks for.
pub fn judge_before_flow(bytes: &[u8]) -> Result<(Image<'_>, Labels), Refusal> {
    let (image, labels) = judge_nodes(bytes)?;
    rules::judge_before_flow(&image, &labels)?;
    Ok((image, labels))
}

/// Refusals 1 to 7.
fn judge_nodes(bytes: &[u8]) -> Result<(Image<'_>, Labels), Refusal> {
    let image = Image::open(bytes)?;
    let labels = Labels::judge(&image)?;
    records::judge_registers(&image, &labels)?;
    records::judge_states(&image, &labels)?;
    nodes::judge_fields(&image)?;
    let survey = nodes::Survey::of(&image);
    survey.judge_uses()?;
    survey.judge_depth()?;
    Ok((image, labels))
}

pub fn check(image: &[u8]) -> Answer {
    answer(judge(image).map(|_| 0))
}

/// The length of the register area: 4 bytes for each register.
pub fn registers_length(image: &[u8]) -> Answer {
    answer(judge(image).map(|image| 4 * image.registers().len()))
}

/// The length of the target area: for each state a target and two bindings.
pub fn targets_length(image: &[u8]) -> Answer {
    answer(judge(image).map(|image| TARGET_BYTES * image.states().len()))
}

pub fn reset(image: &[u8], registers: &mut [u8], targets: &mut [u8]) -> Answer {
    answer(try_reset(image, registers, targets))
}

pub fn write_port(image: &[u8], registers: &mut [u8], register: u32, value: u32) -> Answer {
    answer(try_write_port(image, registers, register, value))
}

pub fn run(image: &[u8], registers: &mut [u8], targets: &mut [u8], cycles: u32) -> Answer {
    answer(try_run(image, registers, targets, cycles))
}

/// The walk of the next cycle from these areas, which stay as they are.
pub fn walk(image: &[u8], registers: &[u8], targets: &[u8]) -> Result<Vec<u8>, Refusal> {
    let image = judge(image)?;
    let machine = Machine::new(&image);
    let mut now = judge_areas(&image, &machine, registers, targets)?;
    let mut walk = Vec::new();
    machine.cycle(&mut now, &mut targets.to_vec(), &mut walk);
    Ok(walk)
}

pub fn answer(result: Result<usize, Refusal>) -> Answer {
    result.map_or_else(Answer::from, Answer::accepted)
}

fn try_reset(bytes: &[u8], registers: &mut [u8], targets: &mut [u8]) -> Result<usize, Refusal> {
    let image = judge(bytes)?;
    // Both areas are overwritten whole.
    judge_lengths(&image, registers, Some(targets))?;
    for (place, register) in registers.chunks_exact_mut(4).zip(image.registers()) {
        place.copy_from_slice(&register.reset.to_le_bytes());
    }
    targets.copy_from_slice(&Machine::new(&image).reset_targets());
    Ok(0)
}

fn try_write_port(
    bytes: &[u8],
    registers: &mut [u8],
    number: u32,
    value: u32,
) -> Result<usize, Refusal> {
    let image = judge(bytes)?;
    // Port write judges 14 before 13, and the whole area, of which it overwrites one register.
    judge_lengths(&image, registers, None)?;
    judge_contents(&image, &values(registers))?;
    let place = number as usize;
    let port = image
        .registers()
        .nth(place)
        .filter(|register| register.kind == PORT)
        .ok_or(Refusal::new(13, place))?;
    if value > port.most() {
        return Err(Refusal::new(17, place));
    }
    registers[4 * place..4 * place + 4].copy_from_slice(&value.to_le_bytes());
    Ok(0)
}

fn try_run(
    bytes: &[u8],
    registers: &mut [u8],
    targets: &mut [u8],
    cycles: u32,
) -> Result<usize, Refusal> {
    let (machine, mut now) = judge_run(bytes, registers, targets, cycles)?;
    for _ in 0..cycles {
        machine.cycle(&mut now, targets, &mut ());
    }
    store(&now, registers);
    Ok(cycles as usize)
}

/// The image checks, 14 and 15. Gives the machine and the registers' values.
pub(super) fn judge_run(
    bytes: &[u8],
    registers: &[u8],
    targets: &[u8],
    cycles: u32,
) -> Result<(Machine, Vec<u32>), Refusal> {
    let image = judge(bytes)?;
    let machine = Machine::new(&image);
    let values = judge_areas(&image, &machine, registers, targets)?;
    if cycles > MOST_CYCLES {
        return Err(Refusal::new(15, 0));
    }
    Ok((machine, values))
}

/// Values become the bytes of their area.
pub(super) fn store(values: &[u32], registers: &mut [u8]) {
    for (place, value) in registers.chunks_exact_mut(4).zip(values) {
        place.copy_from_slice(&value.to_le_bytes());
    }
}

/// Refusal 14 in its order: lengths, contents, targets, bindings. Gives the registers' values.
pub(super) fn judge_areas(
    image: &Image,
    machine: &Machine,
    registers: &[u8],
    targets: &[u8],
) -> Result<Vec<u32>, Refusal> {
    judge_lengths(image, registers, Some(targets))?;
    let values = values(registers);
    judge_contents(image, &values)?;
    judge_targets(machine, targets)?;
    judge_bindings(machine, targets)?;
    Ok(values)
}

/// Refusal 14, a wrong length: place 0.
pub(super) fn judge_lengths(
    image: &Image,
    registers: &[u8],
    targets: Option<&[u8]>,
) -> Result<(), Refusal> {
    let fitting = registers.len() == 4 * image.registers().len()
        && targets.is_none_or(|targets| targets.len() == TARGET_BYTES * image.states().len());
    if fitting {
        Ok(())
    } else {
        Err(Refusal::new(14, 0))
    }
}

/// Refusal 14, request E2, a value too large: the lowest such register.
fn judge_contents(image: &Image, values: &[u32]) -> Result<(), Refusal> {
    let mut pairs = image.registers().zip(values);
    match pairs.position(|(register, value)| *value > register.most()) {
        Some(register) => Err(Refusal::new(14, register)),
        None => Ok(()),
    }
}

/// Refusal 14, an unsound target: the lowest such state.
fn judge_targets(machine: &Machine, targets: &[u8]) -> Result<(), Refusal> {
    match machine.unsound_target(targets) {
        Some(state) => Err(Refusal::new(14, state)),
        None => Ok(()),
    }
}

/// Refusal 14, request E8, an unsound binding: the lowest such state.
fn judge_bindings(machine: &Machine, targets: &[u8]) -> Result<(), Refusal> {
    match machine.unsound_binding(targets) {
        Some(state) => Err(Refusal::new(14, state)),
        None => Ok(()),
    }
}

fn values(registers: &[u8]) -> Vec<u32> {
    let (values, _) = registers.as_chunks::<4>();
    values
        .iter()
        .map(|value| u32::from_le_bytes(*value))
        .collect()
}
