//! What chance replays: cycles and a trace, mostly a good one, else with faults of 23, 13 and 17 in any order.

use crate::generate::random::Random;
use crate::reference::image::{INNER, PORT};
use crate::reference::limits::MOST_CYCLES;
use crate::table::Table;
use crate::trace::Record;

/// A good trace for more cycles than that still has all records below it.
const LATEST: usize = 30;

/// Cycles, and a trace to replay in them.
pub fn any_replay(table: &Table, random: &mut Random) -> (Vec<Record>, u32) {
    let cycles = any_cycles(table, random);
    let mut trace = good_trace(table, cycles, random);
    if random.percent(50) {
        for _ in 0..*random.pick(&[1, 2, 2, 3]) {
            spoil(&mut trace, table, cycles, random);
        }
    }
    (trace, cycles)
}

fn any_cycles(table: &Table, random: &mut Random) -> u32 {
    match random.below(14) {
        0 => 0,
        1 => *random.pick(&[MOST_CYCLES + 1, MOST_CYCLES + 1, 1 << 31, u32::MAX]),
        2 | 3 => 1,
        4 if table.commands.len() < 100 => random.below(600) as u32,
        _ => random.between(2, 16) as u32,
    }
}

/// A trace that is not refused for so many cycles; without cycles or ports it is empty.
fn good_trace(table: &Table, cycles: u32, random: &mut Random) -> Vec<Record> {
    let ports = table.of_kind(PORT);
    if ports.is_empty() || cycles == 0 {
        return Vec::new();
    }
    let last = cycles - 1;
    let within = (cycles as usize).min(LATEST);
    let mut trace = Vec::new();
    for _ in 0..*random.pick(&[0, 1, 1, 2, 3, 5, 8, 13, 20, 40, 300]) {
        let cycle = match random.below(8) {
            0 => 0,
            1 => last,
            _ => random.below(within) as u32,
        };
        trace.push(good_record(table, &ports, cycle, random));
    }
    if random.percent(15) {
        let every = (0..within as u32).map(|cycle| good_record(table, &ports, cycle, random));
        trace.extend(every.collect::<Vec<Record>>());
    }
    for _ in 0..*random.pick(&[0, 0, 1, 3]) {
        repeat(&mut trace, table, random);
    }
    // In any order within a cycle.
    random.shuffle(&mut trace);
    trace.sort_by_key(|record| record.cycle);
    trace
}

fn good_record(table: &Table, ports: &[u8], cycle: u32, random: &mut Random) -> Record {
    let port = *random.pick(ports);
    let value = random.fitting(table.registers[usize::from(port)].width);
    Record::new(cycle, port.into(), value)
}

/// The cycle and port of some record once more or several times, with other values or the same.
fn repeat(trace: &mut Vec<Record>, table: &Table, random: &mut Random) {
    if trace.is_empty() {
        return;
    }
    let record = *random.pick(trace);
    for _ in 0..*random.pick(&[1, 1, 2, 3, 70]) {
        let value = match random.below(3) {
            0 => record.value,
            _ => random.fitting(table.registers[record.register as usize].width),
        };
        trace.push(Record { value, ..record });
    }
}

/// One fault, if the trace or the design can have it. A trace without records gets one.
fn spoil(trace: &mut Vec<Record>, table: &Table, cycles: u32, random: &mut Random) {
    if trace.is_empty() {
        let ports = table.of_kind(PORT);
        let register = if ports.is_empty() {
            any_no_port(table, random)
        } else {
            (*random.pick(&ports)).into()
        };
        let latest = cycles.min(LATEST as u32) as usize;
        trace.push(Record::new(random.below(latest + 1) as u32, register, 0));
    }
    let number = random.index(trace.len());
    match random.below(5) {
        0 => trace[number].cycle = above(cycles, random),
        1 => reach(trace, number, cycles, random),
        2 => fall(trace, number, random),
        3 => {
            trace[number].register = any_no_port(table, random);
            if random.percent(50) {
                trace[number].value = random.value();
            }
        }
        _ => too_large(trace, number, table, random),
    }
}

/// Often the number of cycles itself.
fn above(cycles: u32, random: &mut Random) -> u32 {
    let next = cycles.saturating_add(1);
    let byte = cycles.saturating_add(256);
    *random
        .pick(&[cycles, cycles, cycles, next, byte, 1 << 31, u32::MAX])
        .max(&cycles)
}

/// All records from this one on, without a fall.
fn reach(trace: &mut [Record], number: usize, cycles: u32, random: &mut Random) {
    let cycle = above(cycles, random);
    for record in &mut trace[number..] {
        record.cycle = cycle;
    }
}

/// The record falls, if it can: its cycle or that of the one before it is changed.
fn fall(trace: &mut [Record], number: usize, random: &mut Random) {
    let Some(before) = number.checked_sub(1) else {
        return;
    };
    let cycle = trace[before].cycle;
    match random.below(3) {
        0 => trace[number].cycle = cycle.saturating_sub(1),
        1 => trace[number].cycle = random.below(cycle as usize + 1) as u32,
        _ => trace.swap(before, number),
    }
}

/// An inner register, or a number that is none: also such that is a port in its low bits.
fn any_no_port(table: &Table, random: &mut Random) -> u32 {
    let inner = table.of_kind(INNER);
    let ports = table.of_kind(PORT);
    let port = ports.first().map_or(0, |&port| u32::from(port));
    match random.below(4) {
        0 | 1 if !inner.is_empty() => (*random.pick(&inner)).into(),
        2 => table.registers.len() as u32,
        _ => *random.pick(&[
            64,
            256 + port,
            65_536 + port,
            (1 << 30) + port,
            (1 << 31) + port,
            u32::MAX,
        ]),
    }
}

/// In the port that is named, or in any that is narrow.
fn too_large(trace: &mut [Record], number: usize, table: &Table, random: &mut Random) {
    let named = table.registers.get(trace[number].register as usize);
    let named = named.filter(|register| register.kind == PORT);
    if let Some(value) = named.and_then(|port| random.too_large(port.width)) {
        trace[number].value = value;
        return;
    }
    let ports = table.of_kind(PORT);
    if ports.is_empty() {
        return;
    }
    let port = *random.pick(&ports);
    if let Some(value) = random.too_large(table.registers[usize::from(port)].width) {
        trace[number].register = port.into();
        trace[number].value = value;
    }
}
