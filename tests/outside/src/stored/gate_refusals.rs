//! Request E13: 25 and 26 on either side of each boundary, 14, and their order. No lent byte changes.

use super::gates::sized;
use super::Script;
use crate::designs::gates::counter;
use crate::table::gates::{FlipFlop, GateTable};

pub fn add(script: &mut Script) {
    counts(script);
    directory(script);
    records(script);
    lengths(script);
    lent(script);
    order(script);
}

fn counts(script: &mut Script) {
    for (sentence, counts) in [
        ("256 inputs", [256, 0, 0]),
        ("25: 257 inputs", [257, 0, 0]),
        ("256 flip-flops", [0, 256, 0]),
        ("25: 257 flip-flops", [0, 257, 0]),
        ("25: 4,097 gates", [1, 0, 4_097]),
        (
            "25: 257 inputs beside the most: the longest that is stored",
            [257, 256, 4_096],
        ),
    ] {
        script.note(sentence).gate_table(&sized(counts).bytes());
    }
}

/// The counter's table with bytes changed, and an area that a reset or a cycle would change.
fn directory(script: &mut Script) {
    let table = counter().bytes();
    let changed = |byte: usize, value: u8| {
        let mut table = table.clone();
        table[byte] = value;
        table
    };
    let gates_only = |length: u8| {
        let mut table = changed(10, length);
        table.truncate(17 + usize::from(length));
        table
    };
    for (sentence, table) in [
        ("25: no byte", vec![]),
        ("25: a directory one too short", table[..11].to_vec()),
        ("25: a table one too short", table[..32].to_vec()),
        ("25: a table one too long", [&table[..], &[0]].concat()),
        ("25: the first offset is 13", changed(0, 13)),
        ("25: the first offset is 20, as in an image", changed(0, 20)),
        ("25: the first section is one longer", changed(2, 2)),
        ("25: the second offset is one more", changed(4, 14)),
        ("25: the second section is one shorter", changed(6, 3)),
        ("25: the third offset is one less", changed(8, 16)),
        ("25: the third offset has a high byte", changed(9, 1)),
        ("25: gates of 15 bytes", gates_only(15)),
    ] {
        script.note(sentence).gate_table(&table);
        script.flipflops(&[0, 0]).gates_reset().gates_cycle(&[0]);
    }
}

/// Two of each record, with wires, values and marks as large as they may be.
fn two_of_each() -> GateTable {
    let flipflop = FlipFlop {
        next: 5,
        value: 1,
        mark: 1,
    };
    GateTable {
        inputs: vec![0, 1],
        flipflops: vec![flipflop; 2],
        gates: vec![[3, 0], [4, 4]],
    }
}

/// Flip-flops of it that differ, which a reset or a cycle makes alike.
const UNLIKE: [u8; 4] = [1, 0, 0, 1];

type Change = fn(&mut GateTable);

fn records(script: &mut Script) {
    script
        .note("wires, values and marks as large as they may be")
        .gates(&two_of_each());
    script.gates_reset().gates_cycle(&[1, 1]);
    let changes: [(&str, Change); 13] = [
        ("26: mark 2 of an input", |table| table.inputs[1] = 2),
        ("26: next wire 6 of 6", |table| table.flipflops[0].next = 6),
        ("26: next wire 256", |table| table.flipflops[1].next = 256),
        ("26: start value 2", |table| table.flipflops[1].value = 2),
        ("26: start mark 2", |table| table.flipflops[1].mark = 2),
        ("26: start mark 255", |table| table.flipflops[0].mark = 255),
        ("26: a gate reads itself first", |table| {
            table.gates[0][0] = 4;
        }),
        ("26: a gate reads itself second", |table| {
            table.gates[0][1] = 4;
        }),
        ("26: a gate reads the next", |table| table.gates[0][0] = 5),
        ("26: the last gate reads itself", |table| {
            table.gates[1][0] = 5;
        }),
        ("26: the last gate reads wire 260", |table| {
            table.gates[1][1] = 260;
        }),
        ("26: the lowest wire counts, an input", |table| {
            (table.gates[1][0], table.inputs[0]) = (5, 255);
        }),
        ("26: the lowest wire counts, a flip-flop", |table| {
            (table.gates[0][0], table.flipflops[1].value) = (4, 2);
        }),
    ];
    for (sentence, change) in changes {
        let mut table = two_of_each();
        change(&mut table);
        script.note(sentence).gate_table(&table.bytes());
        script.flipflops(&UNLIKE).gates_reset();
        script.gates_cycle(&[0, 1]);
    }
}

fn lengths(script: &mut Script) {
    script
        .note("14: wrong lengths of the inputs")
        .gate_table(&two_of_each().bytes())
        .flipflops(&UNLIKE);
    for length in [0, 1, 3, 256, 264] {
        script.gates_cycle(&vec![1; length]);
    }
    for (sentence, length) in [
        ("14: flip-flops one too short", 3),
        ("14: flip-flops one too long", 5),
        ("14: one flip-flop too few", 2),
        ("14: no flip-flops", 0),
        ("14: flip-flops the longest that are stored", 520),
    ] {
        let area: Vec<u8> = UNLIKE.into_iter().cycle().take(length).collect();
        script.note(sentence).flipflops(&area);
        script.gates_reset().gates_cycle(&[1, 1]);
    }
    script
        .note("14: both lengths wrong")
        .gates_cycle(&[])
        .flipflops(&[])
        .gates_cycle(&[]);
    script
        .note("14: lent bytes for a table of none")
        .gate_table(&GateTable::default().bytes())
        .gates_cycle(&[0]);
    script.flipflops(&[0]).gates_reset().gates_cycle(&[]);
}

fn lent(script: &mut Script) {
    script
        .note("lent values and marks as large as they may be")
        .gate_table(&two_of_each().bytes())
        .flipflops(&[1, 1, 1, 1])
        .gates_cycle(&[1, 1]);
    for (sentence, inputs, area) in [
        ("26: value 2 of input 0", [2, 0], UNLIKE),
        ("26: value 255 of input 1", [1, 255], UNLIKE),
        ("26: value 2 of flip-flop 0", [0, 0], [2, 0, 0, 1]),
        ("26: mark 2 of flip-flop 0", [0, 0], [1, 2, 0, 1]),
        ("26: value 128 of flip-flop 1", [0, 0], [1, 0, 128, 1]),
        ("26: mark 2 of flip-flop 1", [0, 0], [1, 0, 0, 2]),
        ("26: an input before a flip-flop", [0, 2], [2, 2, 2, 2]),
        ("26: the lowest flip-flop counts", [0, 0], [0, 3, 2, 0]),
        ("26: the lowest input counts", [3, 2], UNLIKE),
    ] {
        script.note(sentence).flipflops(&area).gates_cycle(&inputs);
    }
}

fn order(script: &mut Script) {
    script
        .note("14 before 26 for lent bytes: a wrong length of the inputs")
        .flipflops(&[2, 2, 2, 2])
        .gates_cycle(&[2, 2, 2]);
    script
        .note("14 before 26 for lent bytes: a wrong length of the flip-flops")
        .flipflops(&[2, 2, 2])
        .gates_cycle(&[2, 2]);
    script.gates_reset();
    let mut table = two_of_each();
    table.gates[1] = [5, 5];
    script
        .note("26 for the table before 14")
        .gate_table(&table.bytes())
        .gates_reset()
        .gates_cycle(&[2]);
    script
        .note("26 for the table before 26 for lent bytes")
        .flipflops(&[2, 2, 2, 2])
        .gates_reset()
        .gates_cycle(&[2, 2]);
    let table = table.bytes();
    script
        .note("25 before 26 and 14")
        .gate_table(&table[..table.len() - 1]);
    script.gates_reset().gates_cycle(&[2, 2]).gates_cycle(&[]);
}
