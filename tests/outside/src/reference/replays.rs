//! Replay of a port trace on bytes, request E10. A refusal changes no lent byte.

use super::calls::{answer, judge_run, store};
use super::image::{Image, Register, PORT};
use super::refusal::Refusal;
use crate::answer::Answer;
use crate::trace::Record;
use std::collections::BTreeMap;

pub fn replay(
    image: &[u8],
    registers: &mut [u8],
    targets: &mut [u8],
    trace: &[Record],
    cycles: u32,
) -> Answer {
    answer(try_replay(image, registers, targets, trace, cycles))
}

fn try_replay(
    bytes: &[u8],
    registers: &mut [u8],
    targets: &mut [u8],
    trace: &[Record],
    cycles: u32,
) -> Result<usize, Refusal> {
    let (machine, mut now) = judge_run(bytes, registers, targets, cycles)?;
    judge_cycles(trace, cycles)?;
    judge_writes(&Image::open(bytes)?, trace)?;
    let mut left = trace;
    let mut superseded = 0;
    for cycle in 0..cycles {
        let records = records_of(&mut left, cycle);
        let latest = latest(records);
        superseded += records.len() - latest.len();
        for (port, value) in latest {
            now[port as usize] = value;
        }
        machine.cycle(&mut now, targets, &mut ());
    }
    store(&now, registers);
    Ok(superseded)
}

/// Refusal 23: the lowest record whose cycle is below the one before it, or is none of the replay.
fn judge_cycles(trace: &[Record], cycles: u32) -> Result<(), Refusal> {
    let mut before = 0;
    for (number, record) in trace.iter().enumerate() {
        if record.cycle < before || record.cycle >= cycles {
            return Err(Refusal::new(23, number));
        }
        before = record.cycle;
    }
    Ok(())
}

/// Refusals 13 and 17: the lowest record of either, also one that will be superseded.
fn judge_writes(image: &Image, trace: &[Record]) -> Result<(), Refusal> {
    let registers: Vec<Register> = image.registers().collect();
    for (number, record) in trace.iter().enumerate() {
        let named = registers.get(record.register as usize);
        let port = named.filter(|register| register.kind == PORT);
        let port = port.ok_or(Refusal::new(13, number))?;
        if record.value > port.most() {
            return Err(Refusal::new(17, number));
        }
    }
    Ok(())
}

/// The records of the next cycle, taken from those that are left.
fn records_of<'a>(left: &mut &'a [Record], cycle: u32) -> &'a [Record] {
    let other = left.iter().position(|record| record.cycle != cycle);
    let (records, rest) = left.split_at(other.unwrap_or(left.len()));
    *left = rest;
    records
}

/// What the records of one cycle leave in each port that they name: of two for one port the later.
fn latest(records: &[Record]) -> BTreeMap<u32, u32> {
    let writes = records.iter();
    writes
        .map(|record| (record.register, record.value))
        .collect()
}
