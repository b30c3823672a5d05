//! The cases that documents and decisions give, run on the reference itself.

mod bindings;
mod contents;
mod edits;
mod examples;
mod filing;
mod filing_mistakes;
mod gates;
mod generator;
mod groups;
mod journal_leaks;
mod journals;
mod lease;
mod lengths;
mod parameters;
mod ports;
mod pruning;
mod raising;
mod reading;
mod replay_leaks;
mod replay_mistakes;
mod replays;
mod signed;
mod spare;
mod values;
mod widths;

use crate::answer::Answer;
use crate::reference;
use crate::reference::limits::TARGET_BYTES;
use crate::table::Table;

/// A design with its two areas.
struct Areas {
    image: Vec<u8>,
    registers: Vec<u8>,
    targets: Vec<u8>,
}

impl Areas {
    /// Areas of the right lengths, reset.
    fn reset(table: &Table) -> Areas {
        let (registers, targets) = table.areas();
        let mut areas = Areas {
            image: table.image(),
            registers: vec![0xAA; registers],
            targets: vec![0xAA; targets],
        };
        let answer = reference::reset(&areas.image, &mut areas.registers, &mut areas.targets);
        assert_eq!(answer, Answer::accepted(0));
        areas
    }

    fn write_port(&mut self, register: u32, value: u32) -> Answer {
        reference::write_port(&self.image, &mut self.registers, register, value)
    }

    fn run(&mut self, cycles: u32) -> Answer {
        reference::run(&self.image, &mut self.registers, &mut self.targets, cycles)
    }

    fn walk(&self) -> Vec<u8> {
        reference::walk(&self.image, &self.registers, &self.targets).unwrap()
    }

    /// The targets without the bindings behind them.
    fn only_targets(&self) -> &[u8] {
        &self.targets[..self.targets.len() / TARGET_BYTES]
    }

    fn set_targets(&mut self, targets: &[u8]) {
        self.targets[..targets.len()].copy_from_slice(targets);
    }

    fn set_values(&mut self, values: &[u32]) {
        self.registers = values
            .iter()
            .flat_map(|value| value.to_le_bytes())
            .collect();
    }

    fn values(&self) -> Vec<u32> {
        let (values, _) = self.registers.as_chunks::<4>();
        values
            .iter()
            .map(|value| u32::from_le_bytes(*value))
            .collect()
    }
}

/// So many cycles of the design, as the lister shows them.
fn listed(table: &Table, count: u16) -> String {
    let mut input = count.to_le_bytes().to_vec();
    input.extend(table.image());
    String::from_utf8(reference::listing(&input)).unwrap()
}

/// r0 after one cycle of the design with these values in the ports r1 and r2.
fn computed(table: &Table, left: u32, right: u32) -> u32 {
    let mut areas = Areas::reset(table);
    assert_eq!(areas.write_port(1, left).number, 0);
    assert_eq!(areas.write_port(2, right).number, 0);
    assert_eq!(areas.run(1).count, 1);
    areas.values()[0]
}

/// Makes the call on copies and sees that a refusal leaves them alone.
fn refused(
    areas: &Areas,
    call: impl Fn(&[u8], &mut Vec<u8>, &mut Vec<u8>) -> Answer,
) -> (u32, usize) {
    let (mut registers, mut targets) = (areas.registers.clone(), areas.targets.clone());
    let answer = call(&areas.image, &mut registers, &mut targets);
    assert_ne!(answer.number, 0);
    assert_eq!(answer.count, 0);
    assert_eq!((&registers, &targets), (&areas.registers, &areas.targets));
    (answer.number, answer.place)
}

fn refused_run(areas: &Areas, cycles: u32) -> (u32, usize) {
    refused(areas, |image, r, t| reference::run(image, r, t, cycles))
}
