//! A gate table cut into its records, and its records as bytes.

use super::{FlipFlop, GateTable};
use crate::table::limits::{GATES_DIRECTORY, GATES_RECORDS};
use crate::table::read::{half, sections};

pub const SECTIONS: [&str; 3] = ["inputs", "flip-flops", "gates"];

/// Or says why the bytes cannot be cut. Counts are not judged.
pub fn read(image: &[u8]) -> Result<GateTable, String> {
    let sections = sections(image, SECTIONS, GATES_RECORDS)?;
    let records = |section: usize| sections[section].chunks_exact(GATES_RECORDS[section]);
    Ok(GateTable {
        inputs: sections[0].to_vec(),
        flipflops: records(1)
            .map(|record| FlipFlop {
                next: half(record, 0),
                value: record[2],
                mark: record[3],
            })
            .collect(),
        gates: records(2)
            .map(|record| [half(record, 0), half(record, 2)])
            .collect(),
    })
}

impl GateTable {
    pub fn counts(&self) -> [usize; 3] {
        [self.inputs.len(), self.flipflops.len(), self.gates.len()]
    }

    /// Within the limits every offset and length fits in 16 bits.
    pub fn image(&self) -> Vec<u8> {
        let mut image = Vec::new();
        let mut offset = GATES_DIRECTORY;
        for (count, record) in self.counts().into_iter().zip(GATES_RECORDS) {
            image.extend((offset as u16).to_le_bytes());
            image.extend(((count * record) as u16).to_le_bytes());
            offset += count * record;
        }
        for wire in 0..self.wires() {
            image.extend(self.record(wire));
        }
        image
    }

    /// The bytes of a wire's record.
    pub fn record(&self, wire: usize) -> Vec<u8> {
        use super::Wire::*;
        match self.wire(wire) {
            Some(Input(input)) => vec![self.inputs[input]],
            Some(FlipFlop(flipflop)) => {
                let record = self.flipflops[flipflop];
                let [low, high] = record.next.to_le_bytes();
                vec![low, high, record.value, record.mark]
            }
            Some(Gate(gate)) => self.gates[gate].map(u16::to_le_bytes).concat(),
            None => Vec::new(),
        }
    }
}
