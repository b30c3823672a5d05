//! The worked gate tables of request E13.

use crate::reference::gates::{TRUSTED, UNTRUSTED};
use crate::table::gates::{FlipFlop, GateTable};

/// Document 001's figure 3: a counter of 1 bit, which a trusted reset sets to a trusted 0. It starts as an
/// untrusted 1.
pub fn counter() -> GateTable {
    GateTable {
        inputs: vec![TRUSTED],
        flipflops: vec![FlipFlop {
            next: 5,
            value: 1,
            mark: UNTRUSTED,
        }],
        // Wire 5 is the and of the reset and the counter, both inverted.
        gates: vec![[0, 0], [1, 1], [2, 3], [4, 4]],
    }
}

/// Document 001's figure 4 of four NANDs: wire 3, the flip-flop, takes a where s is 1 and b where s is 0.
/// The inputs are s, a and b, with these marks.
pub fn multiplexer(marks: [u8; 3]) -> GateTable {
    GateTable {
        inputs: marks.to_vec(),
        flipflops: vec![FlipFlop {
            next: 7,
            ..FlipFlop::default()
        }],
        // Wire 4 is s inverted.
        gates: vec![[0, 0], [0, 1], [4, 2], [5, 6]],
    }
}

/// One gate over two inputs with these marks; the flip-flop takes its output.
pub fn one_gate(marks: [u8; 2]) -> GateTable {
    GateTable {
        inputs: marks.to_vec(),
        flipflops: vec![FlipFlop {
            next: 3,
            ..FlipFlop::default()
        }],
        gates: vec![[0, 1]],
    }
}

/// Flip-flops that follow each other round: all change together, so that what stands in them goes round.
pub fn ring(length: u16) -> GateTable {
    let flipflop = |number: u16| FlipFlop {
        next: (number + length - 1) % length,
        value: u8::from(number == 0),
        mark: u8::from(number == 1),
    };
    GateTable {
        flipflops: (0..length).map(flipflop).collect(),
        ..GateTable::default()
    }
}
