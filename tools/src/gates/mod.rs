//! Gate tables, request E13: logic as NAND gates with trust marks, assembled, printed and explained.

mod bytes;
pub mod explain;
mod names;
pub(crate) mod numbering;
mod print;

pub use bytes::read;
pub use names::WireNames;
pub use numbering::assemble_placed;
pub use print::{print, print_named};

use crate::table::limits::GATES_DIRECTORY;
use crate::text;

/// The records of a gate table. They may keep the rules or break any of them.
#[derive(Clone, Debug, Default, PartialEq, Eq)]
pub struct GateTable {
    /// The mark of each input.
    pub inputs: Vec<u8>,
    pub flipflops: Vec<FlipFlop>,
    /// The two wires that each gate reads.
    pub gates: Vec<[u16; 2]>,
}

#[derive(Clone, Copy, Debug, PartialEq, Eq)]
pub struct FlipFlop {
    pub next: u16,
    pub value: u8,
    pub mark: u8,
}

pub const TRUSTED: u8 = 0;
pub const UNTRUSTED: u8 = 1;

/// A wire by its kind, and its number among them.
#[derive(Clone, Copy, Debug, PartialEq, Eq)]
pub enum Wire {
    Input(usize),
    FlipFlop(usize),
    Gate(usize),
}

impl GateTable {
    pub fn wires(&self) -> usize {
        self.inputs.len() + self.flipflops.len() + self.gates.len()
    }

    /// None where the table has no wire of this number.
    pub fn wire(&self, number: usize) -> Option<Wire> {
        let flipflop = number.wrapping_sub(self.inputs.len());
        let gate = flipflop.wrapping_sub(self.flipflops.len());
        if number < self.inputs.len() {
            Some(Wire::Input(number))
        } else if flipflop < self.flipflops.len() {
            Some(Wire::FlipFlop(flipflop))
        } else {
            (gate < self.gates.len()).then_some(Wire::Gate(gate))
        }
    }
}

/// An image is taken for a gate table by its first offset: that of a design is another.
pub fn is_table(image: &[u8]) -> bool {
    image.starts_with(&(GATES_DIRECTORY as u16).to_le_bytes())
}

/// A text is one of a gate table by its first word.
pub fn is_text(source: &str) -> bool {
    text::first_word(source).as_deref() == Some(text::gates::FIRST)
}
