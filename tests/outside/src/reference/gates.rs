//! Gate tables, request E13: NAND gates with trust marks. Check, reset and cycle on bytes.

use super::calls::answer;
use super::directory::{records, sections};
use super::limits::*;
use super::refusal::Refusal;
use crate::answer::Answer;

/// A value, 0 or 1, and its mark.
#[derive(Clone, Copy, Debug, PartialEq, Eq)]
pub struct Signal {
    pub value: u8,
    pub mark: u8,
}

pub const TRUSTED: u8 = 0;
pub const UNTRUSTED: u8 = 1;

impl Signal {
    pub const fn new(value: u8, mark: u8) -> Signal {
        Signal { value, mark }
    }

    fn is_trusted_0(self) -> bool {
        self == Signal::new(0, TRUSTED)
    }
}

/// "A gate's output is trusted if both inputs are, or if one is a trusted 0."
pub fn nand(a: Signal, b: Signal) -> Signal {
    let both = a.mark == TRUSTED && b.mark == TRUSTED;
    let trusted = both || a.is_trusted_0() || b.is_trusted_0();
    Signal {
        value: u8::from(!(a.value == 1 && b.value == 1)),
        mark: if trusted { TRUSTED } else { UNTRUSTED },
    }
}

/// The three sections, once the directory holds (refusal 25).
#[derive(Clone, Copy)]
pub struct Gates<'a> {
    inputs: &'a [[u8; INPUT_BYTES]],
    flipflops: &'a [[u8; FLIPFLOP_BYTES]],
    gates: &'a [[u8; GATE_BYTES]],
}

impl<'a> Gates<'a> {
    pub fn open(bytes: &'a [u8]) -> Result<Gates<'a>, Refusal> {
        Gates::cut(bytes).ok_or(Refusal::new(25, 0))
    }

    fn cut(bytes: &'a [u8]) -> Option<Gates<'a>> {
        let [inputs, flipflops, gates] = sections(bytes)?;
        Some(Gates {
            inputs: records(inputs, 0, MOST_INPUTS)?,
            flipflops: records(flipflops, 0, MOST_FLIPFLOPS)?,
            gates: records(gates, 0, MOST_GATES)?,
        })
    }

    /// The numbers of inputs, flip-flops and gates.
    pub fn counts(&self) -> [usize; 3] {
        [self.inputs.len(), self.flipflops.len(), self.gates.len()]
    }

    fn first_gate(&self) -> usize {
        self.inputs.len() + self.flipflops.len()
    }

    fn wires(&self) -> usize {
        self.first_gate() + self.gates.len()
    }

    /// Refusal 26 for the table: wires are met in the order of their numbers.
    fn judge_records(&self) -> Result<(), Refusal> {
        let inputs = self.inputs.iter().map(|&[mark]| mark <= UNTRUSTED);
        let flipflops = self.flipflops.iter().map(|&[n0, n1, value, mark]| {
            number(n0, n1) < self.wires() && value <= 1 && mark <= UNTRUSTED
        });
        let gates = self.gates.iter().zip(self.first_gate()..);
        let gates =
            gates.map(|(&[a0, a1, b0, b1], own)| number(a0, a1) < own && number(b0, b1) < own);
        lowest_wrong(inputs.chain(flipflops).chain(gates))
    }

    /// Refusal 26 for the bytes lent to a cycle.
    fn judge_lent(&self, inputs: &[u8], flipflops: &[u8]) -> Result<(), Refusal> {
        let inputs = inputs.iter().map(|&value| value <= 1);
        let flipflops = flipflops
            .chunks(PAIR_BYTES)
            .map(|pair| pair[0] <= 1 && pair[1] <= UNTRUSTED);
        lowest_wrong(inputs.chain(flipflops))
    }

    /// What stands on every wire in a cycle.
    fn signals(&self, inputs: &[u8], flipflops: &[u8]) -> Vec<Signal> {
        let mut wires = Vec::with_capacity(self.wires());
        for (&[mark], &value) in self.inputs.iter().zip(inputs) {
            wires.push(Signal { value, mark });
        }
        for pair in flipflops.chunks(PAIR_BYTES) {
            wires.push(Signal::new(pair[0], pair[1]));
        }
        for &[a0, a1, b0, b1] in self.gates {
            wires.push(nand(wires[number(a0, a1)], wires[number(b0, b1)]));
        }
        wires
    }
}

fn number(low: u8, high: u8) -> usize {
    usize::from(u16::from_le_bytes([low, high]))
}

fn lowest_wrong(mut right: impl Iterator<Item = bool>) -> Result<(), Refusal> {
    match right.position(|right| !right) {
        Some(wire) => Err(Refusal::new(26, wire)),
        None => Ok(()),
    }
}

/// 25, then 26 for the table.
fn judge(table: &[u8]) -> Result<Gates<'_>, Refusal> {
    let gates = Gates::open(table)?;
    gates.judge_records()?;
    Ok(gates)
}

/// Refusal 14.
fn judge_length(length: usize, right: usize) -> Result<(), Refusal> {
    match length == right {
        true => Ok(()),
        false => Err(Refusal::new(14, 0)),
    }
}

pub fn check(table: &[u8]) -> Answer {
    answer(judge(table).map(|_| 0))
}

pub fn reset(table: &[u8], flipflops: &mut [u8]) -> Answer {
    answer(try_reset(table, flipflops))
}

pub fn cycle(table: &[u8], inputs: &[u8], flipflops: &mut [u8]) -> Answer {
    answer(try_cycle(table, inputs, flipflops))
}

fn try_reset(table: &[u8], flipflops: &mut [u8]) -> Result<usize, Refusal> {
    let gates = judge(table)?;
    judge_length(flipflops.len(), PAIR_BYTES * gates.flipflops.len())?;
    for (pair, &[_, _, value, mark]) in flipflops.chunks_mut(PAIR_BYTES).zip(gates.flipflops) {
        pair.copy_from_slice(&[value, mark]);
    }
    Ok(0)
}

fn try_cycle(table: &[u8], inputs: &[u8], flipflops: &mut [u8]) -> Result<usize, Refusal> {
    let gates = judge_cycle(table, inputs, flipflops)?;
    let wires = gates.signals(inputs, flipflops);
    for (pair, &[n0, n1, ..]) in flipflops.chunks_mut(PAIR_BYTES).zip(gates.flipflops) {
        let next = wires[number(n0, n1)];
        pair.copy_from_slice(&[next.value, next.mark]);
    }
    Ok(0)
}

/// What stands on every wire of a cycle, for those who look at gates too; the area stays as it is.
pub fn wires(table: &[u8], inputs: &[u8], flipflops: &[u8]) -> Result<Vec<Signal>, Refusal> {
    judge_cycle(table, inputs, flipflops).map(|gates| gates.signals(inputs, flipflops))
}

fn judge_cycle<'a>(table: &'a [u8], inputs: &[u8], flipflops: &[u8]) -> Result<Gates<'a>, Refusal> {
    let gates = judge(table)?;
    judge_length(inputs.len(), gates.inputs.len())?;
    judge_length(flipflops.len(), PAIR_BYTES * gates.flipflops.len())?;
    gates.judge_lent(inputs, flipflops)?;
    Ok(gates)
}
