//! Request E8: what gotos bind, what bodies make of it, and bindings that a run refuses.

use super::Script;
use crate::designs::{exchange, hidden_choice, line, one_group, smallest, with_width};

pub fn add(script: &mut Script) {
    cycles(script);
    gotos(script);
    sound(script);
    unsound(script);
    order(script);
    without_registers(script);
    raising(script);
}

fn cycles(script: &mut Script) {
    script
        .note("one body for two groups, r2 = 1 written before cycle 3")
        .design(&one_group());
    script.reset().run(1).run(1).write(2, 1);
    script.run(1).run(1).run(1).run(1).write(3, 1).run(1).run(1);
    script.note("the same, 1,000 cycles").reset().run(1_000);
    script
        .note("two parameters are exchanged, all read before any is set")
        .design(&exchange());
    script.reset().run(1).run(1).write(2, 1).run(1).run(1);
    script
        .note("an assignment is cut by the width of the register bound")
        .bound(&le(&[u32::MAX, 15, 0]), &[2, 1, 2], &[0, 0, 0, 0, 1, 0])
        .run(1)
        .bound(&le(&[u32::MAX, 15, 0]), &[2, 1, 2], &[0, 0, 0, 0, 0, 1])
        .run(1);
    script
        .note("two parameters along a line, r4 = 0")
        .design(&line());
    script.reset().run(1).run(1).run(1).run(300);
    script.note("the same, r4 = 1").reset().write(4, 1);
    script.run(1).run(1).run(1);
    script
        .note("what is bound is decided out of sight")
        .design(&hidden_choice());
    script
        .reset()
        .run(1)
        .run(1)
        .write(3, 1)
        .run(1)
        .run(1)
        .run(1);
}

fn gotos(script: &mut Script) {
    script
        .note("goto 2(r2): the second byte of 2 stays, and all others, below it too")
        .image(&line().image())
        .bound(
            &le(&[0, 1, 0, 1, 0]),
            &[1, 1, 4, 3, 5, 5],
            &[1, 2, 3, 4, 0, 2, 3, 3, 2, 1, 4, 3],
        )
        .run(1);
    script
        .note("goto 4(64) reads the binding of 2")
        .bound(
            &le(&[0, 1, 0, 1, 0]),
            &[2, 1, 3, 3, 5, 5],
            &[0, 0, 0, 0, 2, 0, 0, 0, 1, 3, 0, 0],
        )
        .run(1)
        .run(1);
}

const RESET: [u32; 6] = [3, 0, 0, 0, 0, 0];
const IN_GROUP: [u8; 5] = [2, 1, 3, 3, 4];
const OUTSIDE: [u8; 5] = [1, 1, 3, 3, 4];

/// The values' bytes.
fn le(values: &[u32]) -> Vec<u8> {
    values
        .iter()
        .flat_map(|value| value.to_le_bytes())
        .collect()
}

/// r2 and r3 are ports; r0, r1, r4 and r5 may be bound to the parameter of state 2.
fn sound(script: &mut Script) {
    script
        .note("bindings of all states are 0 at reset")
        .design(&one_group());
    script.reset();
    for (sentence, targets, bindings) in [
        ("0 is a register", IN_GROUP, [0, 0, 0, 0, 0, 0, 0, 0, 0, 0]),
        ("r5 bound", IN_GROUP, [0, 0, 0, 0, 5, 0, 0, 0, 0, 0]),
        (
            "ports and others where no parameter is",
            IN_GROUP,
            [5, 2, 3, 4, 4, 3, 2, 2, 3, 5],
        ),
        (
            "a port off the current targets",
            OUTSIDE,
            [0, 0, 0, 0, 3, 0, 0, 0, 0, 0],
        ),
    ] {
        script
            .note(sentence)
            .bound(&le(&RESET), &targets, &bindings);
        script.run(0).run(1).run(1);
    }
}

fn unsound(script: &mut Script) {
    for (sentence, targets, bindings) in [
        ("14: a port bound", IN_GROUP, [0, 0, 0, 0, 2, 0, 0, 0, 0, 0]),
        (
            "14: a binding at the count of registers",
            IN_GROUP,
            [0, 0, 0, 0, 6, 0, 0, 0, 0, 0],
        ),
        ("14: 64 bound", IN_GROUP, [0, 0, 0, 0, 64, 0, 0, 0, 0, 0]),
        (
            "14: no register, off the current targets",
            OUTSIDE,
            [0, 0, 0, 0, 6, 0, 0, 0, 0, 0],
        ),
        (
            "14: no register in a second byte",
            OUTSIDE,
            [0, 0, 0, 0, 4, 6, 0, 0, 0, 0],
        ),
        (
            "14: no register where no parameter is",
            OUTSIDE,
            [0, 255, 0, 0, 4, 0, 0, 0, 0, 0],
        ),
        (
            "14: no register in the last byte",
            OUTSIDE,
            [0, 0, 0, 0, 0, 0, 0, 0, 0, 6],
        ),
        (
            "14: the lowest state, a port before no register",
            IN_GROUP,
            [0, 0, 0, 0, 3, 0, 0, 0, 6, 0],
        ),
        (
            "14: the lowest state, no register before a port",
            IN_GROUP,
            [0, 0, 6, 0, 3, 0, 0, 0, 0, 0],
        ),
    ] {
        script
            .note(sentence)
            .bound(&le(&RESET), &targets, &bindings);
        script.run(0).run(1).run(1_000_001);
    }
    script
        .note("port write does not look at bindings")
        .write(2, 9);
    script.note("reset puts them right").reset().run(1);
    bounds(script);
}

/// State 4 takes what is between 1 and 3: r1 and r3, not r0 below them nor r2 beside them.
fn bounds(script: &mut Script) {
    let mut table = line();
    for node in &mut table.commands {
        if node.kind == 4 && node.which == 4 && node.a == 64 {
            node.a = 3;
        }
    }
    table.takes(4, &[(1, 3)]);
    script
        .note("a parameter between labels 1 and 3")
        .design(&table);
    for (sentence, register) in [
        ("14: r0, below its bounds", 0),
        ("r1, at its lower bound", 1),
        ("14: r2, beside its bounds", 2),
        ("r3, at its upper bound", 3),
    ] {
        let bindings = [0, 0, 0, 0, 3, 0, 0, 0, register, 0, 0, 0];
        let values = le(&[0, 1, 0, 1, 0]);
        script
            .note(sentence)
            .bound(&values, &[2, 1, 4, 3, 5, 5], &bindings);
        script.run(0).run(1);
        script.note("the same off the current targets").bound(
            &values,
            &[2, 1, 3, 3, 5, 5],
            &bindings,
        );
        script.run(0).run(1);
    }
}

fn order(script: &mut Script) {
    let port = [0, 0, 0, 0, 2, 0, 0, 0, 0, 0];
    script
        .note("14: contents before bindings")
        .design(&with_width(one_group(), 5, 1));
    script
        .bound(&le(&[3, 0, 0, 0, 0, 2]), &IN_GROUP, &port)
        .run(1);
    script
        .note("14: an unsound target before bindings")
        .bound(
            &le(&RESET),
            &[2, 1, 3, 3, 3],
            &[6, 0, 0, 0, 2, 0, 0, 0, 0, 0],
        )
        .run(1);
    script
        .note("14: a wrong length before all")
        .lent(&le(&RESET), &[2, 1, 3, 3, 3, 6, 0, 0, 0, 2, 0, 0, 0, 0])
        .run(1);
}

fn without_registers(script: &mut Script) {
    let mut table = smallest();
    let body = table.goto_with(2, &[64]);
    table.state(0, 16, body);
    table.takes(2, &[(0, 0)]);
    script
        .note("a parameter, and no register to be bound")
        .design(&table);
    script.reset().run(3);
    script
        .note("14: along the current targets 0 is no register either")
        .bound(&[], &[2, 1, 2], &[0; 6]);
    script.run(0).run(1);
}

fn raising(script: &mut Script) {
    let image = one_group().image();
    let length = image.len();
    script.note("20: an image with parameters").image(&image);
    script.raise(length, 1);
    script.note("20 before 14").raise(length - 1, 2).raise(0, 3);
    let mut table = one_group();
    table.states[3].label = 0;
    script
        .note("20, though the flow rules refuse it")
        .image(&table.image());
    script.raise(length, 4);
    table.states[2].count = 3;
    script.note("19 before 20").image(&table.image());
    script.raise(length, 5);
}
