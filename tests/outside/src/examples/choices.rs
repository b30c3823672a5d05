//! Request E8: refusals 9 to 12 for each choice of labels within the bounds.

use super::taking::{body_of_2, copies, nested, ANY};
use super::{accepted, changed, refused, Example};
use crate::designs::parameters::{LABEL_OF_P, LABEL_OF_Q, P, Q};
use crate::table::Table;

pub fn examples() -> Vec<Example> {
    let mut examples = default_children();
    examples.extend(choices());
    examples.extend(falls_by_parameters());
    examples.extend(arguments_labels());
    examples
}

/// State 2 of this label, with parameters of these bounds, falls to state 3 of that label.
fn falls(bounds: &[(u8, u8)], label: u8, child: u8) -> Table {
    let arguments: Vec<u8> = bounds.iter().map(|&(lower, _)| lower).collect();
    changed(body_of_2(bounds, label, &arguments, Table::fall), |table| {
        let go = table.goto(3);
        table.state(2, child, go);
    })
}

fn default_children() -> Vec<Example> {
    vec![
        accepted(
            "a child of the parameter's label under label 0",
            &falls(&[ANY], 0, LABEL_OF_P),
        ),
        accepted(
            "parent and child of one parameter's label",
            &falls(&[ANY], LABEL_OF_P, LABEL_OF_P),
        ),
        accepted(
            "a child at the upper bound",
            &falls(&[(0, 1)], LABEL_OF_P, 1),
        ),
        accepted(
            "a child above the upper bound",
            &falls(&[(0, 1)], LABEL_OF_P, 3),
        ),
        refused(
            "9: a child below the upper bound",
            &falls(&[ANY], LABEL_OF_P, 1),
            9,
            3,
        ),
        refused(
            "9: a child at the lower bound",
            &falls(&[(0, 1)], LABEL_OF_P, 0),
            9,
            3,
        ),
        accepted(
            "a parent at the lower bound of its child's parameter",
            &changed(falls(&[(1, 3)], 1, LABEL_OF_P), |table| {
                table.states[1].label = 0
            }),
        ),
        refused(
            "9: a parent above the lower bound",
            &falls(&[ANY], 1, LABEL_OF_P),
            9,
            3,
        ),
        refused(
            "9: two parameters of the same bounds are not one",
            &falls(&[ANY, ANY], LABEL_OF_P, LABEL_OF_Q),
            9,
            3,
        ),
        accepted(
            "the upper bound of the one at the lower of the other",
            &falls(&[(0, 1), (1, 3)], LABEL_OF_P, LABEL_OF_Q),
        ),
    ]
}

/// If a register byte then r3 := 0 else skip; goto 2, in state 2.
fn by_condition(bounds: &[(u8, u8)], label: u8, condition: u8, to: u8) -> Table {
    let arguments: Vec<u8> = bounds.iter().map(|&(lower, _)| lower).collect();
    body_of_2(bounds, label, &arguments, |table| {
        let condition = table.read(condition);
        let zero = table.constant(0);
        let then = table.assign(to, zero);
        let otherwise = table.skip();
        let choice = table.branch(condition, then, otherwise);
        let go = table.goto_with(2, &[P, Q][..bounds.len()]);
        table.sequence(choice, go)
    })
}

fn choices() -> Vec<Example> {
    vec![
        accepted("r3 := 64, at or below 3", &copies(&[ANY], 3, P)),
        accepted("r1 := 64, at or below 1", &copies(&[(0, 1)], 1, P)),
        refused("10: r1 := 64, which may be 3", &copies(&[ANY], 1, P), 10, 2),
        refused(
            "10: r0 := 64, at its lower bound alone",
            &copies(&[(0, 1)], 0, P),
            10,
            2,
        ),
        accepted("64 := r0", &copies(&[ANY], P, 0)),
        accepted(
            "64 := r1, at or above 1",
            &changed(copies(&[(1, 3)], P, 1), |table| table.commands[1].a = 1),
        ),
        refused("10: 64 := r1, which may be 0", &copies(&[ANY], P, 1), 10, 2),
        refused(
            "10: 64 := 65, of the same bounds",
            &copies(&[ANY, ANY], P, Q),
            10,
            2,
        ),
        accepted(
            "65 := 64, at or above it",
            &changed(copies(&[(0, 1), (1, 3)], Q, P), |table| {
                table.commands[1].b = 1
            }),
        ),
        accepted("64 := 65, of one label", &copies(&[(0, 0), (0, 0)], P, Q)),
        accepted("if 64 then r3 := 0", &by_condition(&[ANY], 0, P, 3)),
        refused(
            "10: if 64 then r0 := 0",
            &by_condition(&[ANY], 0, P, 0),
            10,
            2,
        ),
        accepted(
            "if 64 then 64 := 0",
            &by_condition(&[ANY], LABEL_OF_P, P, P),
        ),
        refused(
            "10: if r1 then 64 := 0",
            &by_condition(&[ANY], LABEL_OF_P, 1, P),
            10,
            2,
        ),
        refused(
            "10: r0 := 0 in a state of the parameter's label",
            &by_condition(&[ANY], LABEL_OF_P, 0, 0),
            10,
            2,
        ),
    ]
}

fn falls_by_parameters() -> Vec<Example> {
    vec![
        accepted(
            "if 64 then fall else fall, in its label",
            &fall_by(&[ANY], LABEL_OF_P, P),
        ),
        refused(
            "12: if 64 then fall, in label 0",
            &fall_by(&[ANY], 0, P),
            12,
            2,
        ),
        refused(
            "12: if r1 then fall, in a label that may be 0",
            &fall_by(&[ANY], LABEL_OF_P, 1),
            12,
            2,
        ),
        accepted(
            "if r1 then fall, in a label at or above 1",
            &fall_by(&[(1, 3)], LABEL_OF_P, 1),
        ),
        refused(
            "11 in the first branch before a lower 10 in the second",
            &body_of_2(&[ANY], 0, &[0], |table| {
                let value = table.read(P);
                let assign = table.assign(0, value);
                let go = table.goto_with(2, &[P]);
                let otherwise = table.sequence(assign, go);
                let then = table.goto(1);
                let condition = table.read(P);
                table.branch(condition, then, otherwise)
            }),
            11,
            5,
        ),
    ]
}

/// If a register byte then fall else fall, in state 2, whose child 3 has its label.
fn fall_by(bounds: &[(u8, u8)], label: u8, condition: u8) -> Table {
    let arguments: Vec<u8> = bounds.iter().map(|&(lower, _)| lower).collect();
    let table = body_of_2(bounds, label, &arguments, |table| {
        let condition = table.read(condition);
        let then = table.fall();
        let otherwise = table.fall();
        table.branch(condition, then, otherwise)
    });
    changed(table, |table| {
        let go = table.goto(3);
        table.state(2, label, go);
    })
}

/// State 1, or 2 as it takes these, does: if a register byte then goto 3(..) else goto 3(..). 3 takes one
/// parameter and has its label.
fn goes(label: u8, condition: u8, then: u8, otherwise: u8) -> Table {
    let table = body_of_2(&[ANY], label, &[0], |table| {
        let condition = table.read(condition);
        let then = table.goto_with(3, &[then]);
        let otherwise = table.goto_with(3, &[otherwise]);
        table.branch(condition, then, otherwise)
    });
    changed(table, |table| {
        let go = table.goto_with(3, &[P]);
        table.state(0, LABEL_OF_P, go);
        table.takes(3, &[ANY]);
    })
}

fn arguments_labels() -> Vec<Example> {
    vec![
        accepted("if r1 then goto 3(r1) else goto 3(r3)", &goes(0, 1, 1, 3)),
        refused(
            "11: if r1 then goto 3(r0), though r3 would do",
            &goes(0, 1, 0, 3),
            11,
            2,
        ),
        refused(
            "11: if r1 then .. else goto 3(r2)",
            &goes(0, 1, 1, 2),
            11,
            3,
        ),
        accepted("if 64 then goto 3(64) else goto 3(r3)", &goes(0, P, P, 3)),
        refused(
            "11: if r1 then goto 3(64), which may be 0",
            &goes(0, 1, P, 3),
            11,
            2,
        ),
        accepted("goto 3(64) from its label", &goes(LABEL_OF_P, P, P, 3)),
        refused(
            "11: goto 3(r0) from the parameter's label",
            &goes(LABEL_OF_P, P, P, 0),
            11,
            3,
        ),
        refused(
            "11: goto 2(65, 64) from the label of 64, which is then that of 65",
            &body_of_2(&[ANY, ANY], LABEL_OF_P, &[0, 0], |table| {
                table.goto_with(2, &[Q, P])
            }),
            11,
            2,
        ),
        accepted(
            "goto 2(64, 64) from the label of 64",
            &body_of_2(&[ANY, ANY], LABEL_OF_P, &[0, 0], |table| {
                table.goto_with(2, &[P, P])
            }),
        ),
        refused(
            "11: to a sibling of an inherited label that may be lower",
            &changed(nested(1, 0, 0), |table| {
                table.states[3].label = LABEL_OF_P;
                table.states[4].label = 1;
                table.commands[4].which = 3;
            }),
            11,
            4,
        ),
        accepted(
            "to a sibling of the same inherited label",
            &changed(nested(1, 0, 0), |table| {
                table.states[3].label = LABEL_OF_P;
                table.states[4].label = LABEL_OF_P;
                table.commands[4].which = 3;
            }),
        ),
    ]
}
