//! A gate table as editable records. They may keep the rules or break any of them.

use crate::reference::gates::Gates;
use crate::reference::limits::*;

#[derive(Clone, Debug, Default)]
pub struct GateTable {
    /// The mark of each input.
    pub inputs: Vec<u8>,
    pub flipflops: Vec<FlipFlop>,
    /// The two wires that each gate reads.
    pub gates: Vec<[u16; 2]>,
}

#[derive(Clone, Copy, Debug, Default)]
pub struct FlipFlop {
    pub next: u16,
    pub value: u8,
    pub mark: u8,
}

impl GateTable {
    /// The records of a table, if its directory holds.
    pub fn read(bytes: &[u8]) -> Option<GateTable> {
        let [inputs, flipflops, _] = Gates::open(bytes).ok()?.counts();
        let (inputs, rest) = bytes[GATES_DIRECTORY_BYTES..].split_at(INPUT_BYTES * inputs);
        let (flipflops, gates) = rest.split_at(FLIPFLOP_BYTES * flipflops);
        Some(GateTable {
            inputs: inputs.to_vec(),
            flipflops: (flipflops.chunks(FLIPFLOP_BYTES))
                .map(|record| FlipFlop {
                    next: half(record, 0),
                    value: record[2],
                    mark: record[3],
                })
                .collect(),
            gates: (gates.chunks(GATE_BYTES))
                .map(|record| [half(record, 0), half(record, 2)])
                .collect(),
        })
    }

    /// The number of the first gate's wire.
    pub fn first_gate(&self) -> usize {
        self.inputs.len() + self.flipflops.len()
    }

    pub fn wires(&self) -> usize {
        self.first_gate() + self.gates.len()
    }

    /// How long the area of the flip-flops is.
    pub fn area(&self) -> usize {
        PAIR_BYTES * self.flipflops.len()
    }

    pub fn bytes(&self) -> Vec<u8> {
        let lengths = [
            self.inputs.len() * INPUT_BYTES,
            self.flipflops.len() * FLIPFLOP_BYTES,
            self.gates.len() * GATE_BYTES,
        ];
        let mut bytes = Vec::new();
        let mut offset = GATES_DIRECTORY_BYTES;
        for length in lengths {
            bytes.extend((offset as u16).to_le_bytes());
            bytes.extend((length as u16).to_le_bytes());
            offset += length;
        }
        bytes.extend(&self.inputs);
        for flipflop in &self.flipflops {
            bytes.extend(flipflop.next.to_le_bytes());
            bytes.extend([flipflop.value, flipflop.mark]);
        }
        for wire in self.gates.iter().flatten() {
            bytes.extend(wire.to_le_bytes());
        }
        bytes
    }
}

fn half(bytes: &[u8], at: usize) -> u16 {
    u16::from_le_bytes([bytes[at], bytes[at + 1]])
}
