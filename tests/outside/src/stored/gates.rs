//! Request E13: what gates, flip-flops and marks come to, from the documents' tables to the largest.

use super::Script;
use crate::designs::gates::{counter, multiplexer, one_gate, ring};
use crate::designs::lease;
use crate::generate::gates::LARGEST_GATES;
use crate::table::gates::{FlipFlop, GateTable};

pub fn add(script: &mut Script) {
    script
        .note("25: before the first gate table")
        .gates_reset()
        .gates_cycle(&[]);
    documents(script);
    flipflops(script);
    sizes(script);
    beside_a_design(script);
}

/// The low bits of a number.
fn bits<const COUNT: usize>(number: u8) -> [u8; COUNT] {
    std::array::from_fn(|bit| number >> bit & 1)
}

fn documents(script: &mut Script) {
    script
        .note("the counter with reset of document 001, figure 3: inputs 0, 0, 1, 0, 0")
        .gates(&counter())
        .gates_reset();
    for reset in [0, 0, 1, 0, 0] {
        script.gates_cycle(&[reset]);
    }
    script.note("the shadow NAND in 16 rows of marks and values");
    for marks in 0..4 {
        script.gates(&one_gate(bits(marks))).gates_reset();
        for values in 0..4 {
            script.gates_cycle(&bits::<2>(values));
        }
    }
    script.note("the multiplexer of four NANDs: untrusted in 46 of 64 rows");
    for marks in 0..8 {
        script.gates(&multiplexer(bits(marks))).gates_reset();
        for values in 0..8 {
            script.gates_cycle(&bits::<3>(values));
        }
    }
}

fn flipflops(script: &mut Script) {
    script
        .note("flip-flops that follow each other change together")
        .gates(&ring(3))
        .gates_reset();
    script.gates_cycle(&[]).gates_cycle(&[]).gates_cycle(&[]);
    script
        .note("a cycle takes the marks of flip-flops from the area and not from the table")
        .flipflops(&[1, 1, 1, 1, 0, 0])
        .gates_cycle(&[]);
    script
        .note("a reset puts bytes right that a cycle refuses")
        .flipflops(&[2, 0, 0, 2, 255, 255])
        .gates_reset()
        .gates_cycle(&[]);
}

fn sizes(script: &mut Script) {
    script
        .note("no inputs, no flip-flops, no gates")
        .gates(&GateTable::default());
    script.gates_reset().gates_cycle(&[]);
    script
        .note("gates that no flip-flop takes")
        .gates(&sized([1, 0, 3]));
    script.gates_reset().gates_cycle(&[1]);
    let largest = sized(LARGEST_GATES);
    script.note("every count at its limit").gates(&largest);
    let values: Vec<u8> = (0..256).map(|input| u8::from(input % 3 == 0)).collect();
    script.gates_reset().gates_cycle(&values);
    script.gates_cycle(&[1; 256]).gates_cycle(&[0; 256]);
}

/// A table of these counts. A gate reads the wire before it and the one of half its number; the flip-flops take
/// the last wires.
pub fn sized([inputs, flipflops, gates]: [usize; 3]) -> GateTable {
    let first_gate = inputs + flipflops;
    let wires = first_gate + gates;
    GateTable {
        inputs: (0..inputs).map(|input| u8::from(input % 5 == 0)).collect(),
        flipflops: (0..flipflops)
            .map(|number| FlipFlop {
                next: (wires - 1 - number) as u16,
                value: (number % 2) as u8,
                mark: u8::from(number % 7 == 0),
            })
            .collect(),
        gates: (first_gate..wires)
            .map(|own| [own as u16 - 1, own as u16 / 2])
            .collect(),
    }
}

fn beside_a_design(script: &mut Script) {
    script
        .note("a design and a gate table, each with its own areas")
        .design(&lease())
        .reset();
    script.gates(&counter()).gates_reset();
    script.run(1).gates_cycle(&[0]).run(1).gates_cycle(&[1]);
}
