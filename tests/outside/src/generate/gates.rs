//! Random gate tables that keep every rule, with each count often at an end of its range.

use super::random::Random;
use crate::reference::limits::*;
use crate::table::gates::{FlipFlop, GateTable};

/// The numbers of inputs, flip-flops and gates.
pub type GateCounts = [usize; 3];

pub const LARGEST_GATES: GateCounts = [MOST_INPUTS, MOST_FLIPFLOPS, MOST_GATES];

/// Mostly small; each count now and then none or the most, or all of them the most.
pub fn gate_counts(random: &mut Random) -> GateCounts {
    if random.percent(1) {
        return LARGEST_GATES;
    }
    let mut count = |most: usize, usual: usize, full: usize| match random.below(100) {
        0..10 => 0,
        at if at < 10 + full => most,
        at if at < 10 + full + 2 => random.below(most + 1),
        _ => random.between(1, usual),
    };
    [
        count(MOST_INPUTS, 6, 3),
        count(MOST_FLIPFLOPS, 6, 3),
        count(MOST_GATES, 24, 1),
    ]
}

pub fn gate_table(random: &mut Random, counts: GateCounts) -> GateTable {
    let [inputs, flipflops, mut gates] = counts;
    if inputs + flipflops == 0 {
        // A first gate has nothing lower to read.
        gates = 0;
    }
    let wires = inputs + flipflops + gates;
    let untrusted = *random.pick(&[0, 20, 50, 50, 80, 100]);
    GateTable {
        inputs: (0..inputs)
            .map(|_| u8::from(random.percent(untrusted)))
            .collect(),
        flipflops: (0..flipflops)
            .map(|_| FlipFlop {
                next: next_wire(random, inputs, flipflops, wires) as u16,
                value: random.below(2) as u8,
                mark: u8::from(random.percent(untrusted)),
            })
            .collect(),
        gates: (inputs + flipflops..wires)
            .map(|own| [lower_wire(random, own), lower_wire(random, own)])
            .collect(),
    }
}

/// A gate mostly, where there is one; also the last wire, a flip-flop, any.
fn next_wire(random: &mut Random, inputs: usize, flipflops: usize, wires: usize) -> usize {
    match random.below(8) {
        0 => wires - 1,
        1 => inputs + random.below(flipflops),
        2 => random.below(wires),
        _ => wires - 1 - random.below(wires - (inputs + flipflops).min(wires - 1)),
    }
}

/// One shortly before, so that gates stand behind each other; the one before; any.
fn lower_wire(random: &mut Random, own: usize) -> u16 {
    let wire = match random.below(8) {
        0 => own - 1,
        1..4 => own - 1 - random.below(own.min(8)),
        _ => random.below(own),
    };
    wire as u16
}

/// A value for each input.
pub fn gate_inputs(random: &mut Random, count: usize) -> Vec<u8> {
    (0..count).map(|_| random.below(2) as u8).collect()
}

/// An area of values and marks in range.
pub fn gate_area(random: &mut Random, table: &GateTable) -> Vec<u8> {
    (0..table.area()).map(|_| random.below(2) as u8).collect()
}
