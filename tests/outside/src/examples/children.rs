//! Refusal 9, request E4: the default child of a state that holds a fall. All others may have any label.

use super::{accepted, changed, refused, Example};
use crate::designs::{add_children, add_group, group, low_child, spare_child};
use crate::table::Table;

pub fn examples() -> Vec<Example> {
    let mut examples = labels();
    examples.extend(without_fall());
    examples.extend(where_the_fall_stands());
    examples.extend(several_groups());
    examples.extend(order());
    examples
}

/// State 1 falls and has label 1; label 2 cannot be compared with it.
fn labels() -> Vec<Example> {
    let children = |labels: &[u8]| group(Table::fall, labels);
    vec![
        accepted(
            "a spare child that writes what its group may not",
            &spare_child(),
        ),
        accepted(
            "two spare children below their group",
            &children(&[1, 0, 0]),
        ),
        accepted("only the highest child is low", &children(&[1, 1, 3, 0])),
        accepted("only the child between is low", &children(&[1, 0, 1])),
        accepted("a spare child beside its group", &children(&[1, 2])),
        accepted("the default child above its group", &children(&[3, 0, 2])),
        refused("9: label 0 under label 1", &children(&[0]), 9, 2),
        refused(
            "9: the spare child as the default one",
            &children(&[0, 1, 0]),
            9,
            2,
        ),
        refused(
            "9: only the lowest child is low",
            &children(&[0, 1, 1]),
            9,
            2,
        ),
        refused(
            "9: a default child beside its group",
            &children(&[2, 1]),
            9,
            2,
        ),
        refused(
            "9: every child low, the lowest counts",
            &children(&[0, 2, 0]),
            9,
            2,
        ),
        refused("9: in the lease design", &low_child(), 9, 3),
    ]
}

fn without_fall() -> Vec<Example> {
    let children = |labels: &[u8]| group(|table| table.goto(1), labels);
    vec![
        accepted("no fall, the only child low", &children(&[0])),
        accepted("no fall, the only child beside its group", &children(&[2])),
        accepted("no fall, the default child low", &children(&[0, 1])),
        accepted("no fall, every child low", &children(&[0, 2, 0])),
        accepted(
            "no fall in the state, but in its low child",
            &changed(children(&[0]), |table| {
                table.commands[2] = table.commands[0];
                add_children(table, 2, &[0]);
            }),
        ),
        accepted(
            "no fall in the state, but in its sibling",
            &changed(children(&[0]), |table| {
                let fall = table.fall();
                add_group(table, fall, &[1]);
            }),
        ),
    ]
}

/// The only child of state 1 is low.
fn where_the_fall_stands() -> Vec<Example> {
    let holds = |sentence, body: Part| refused(sentence, &group(body, &[0]), 9, 2);
    vec![
        holds("9: the fall in the first branch", |table| {
            choice(table, Table::fall, stay)
        }),
        holds("9: the fall in the second branch", |table| {
            choice(table, stay, Table::fall)
        }),
        holds("9: a fall in both branches", |table| {
            choice(table, Table::fall, Table::fall)
        }),
        holds("9: the fall behind another command", |table| {
            behind_skip(table, Table::fall)
        }),
        holds("9: behind a command in the second branch", |table| {
            choice(table, stay, |table| behind_skip(table, Table::fall))
        }),
        holds("9: in the second branch behind a command", |table| {
            behind_skip(table, |table| choice(table, stay, Table::fall))
        }),
        holds("9: in the first branch within the second", |table| {
            choice(table, stay, |table| choice(table, Table::fall, stay))
        }),
        holds("9: a fall that is never taken", |table| {
            let never = table.constant(0);
            let then = table.fall();
            let otherwise = stay(table);
            table.branch(never, then, otherwise)
        }),
    ]
}

fn several_groups() -> Vec<Example> {
    vec![
        accepted("both default children right", &crossed(1, 1)),
        refused(
            "9: the lower child, of the higher state",
            &crossed(0, 0),
            9,
            3,
        ),
        refused(
            "9: the child of the higher state alone",
            &crossed(0, 1),
            9,
            3,
        ),
        refused(
            "9: the child of the lower state alone",
            &crossed(1, 0),
            9,
            4,
        ),
        refused(
            "9: behind a spare child and a low child without a fall",
            &changed(group(Table::fall, &[1, 0]), |table| {
                let go = table.goto(4);
                add_group(table, go, &[0]);
                let fall = table.fall();
                add_group(table, fall, &[0]);
            }),
            9,
            7,
        ),
        accepted("a spare child falls to a child as low", &spare_group(0, 0)),
        accepted(
            "a spare child falls to a child above it",
            &spare_group(0, 3),
        ),
        refused(
            "9: below a spare child, where no run from reset comes",
            &spare_group(2, 1),
            9,
            4,
        ),
    ]
}

fn order() -> Vec<Example> {
    let mut examples = vec![refused(
        "8 before 9",
        &changed(low_child(), |table| table.commands[12].which = 0),
        8,
        12,
    )];
    let leaks: [(u32, Part); 3] = [(10, leak), (11, go_down), (12, fall_by_r2)];
    for (number, body) in leaks {
        // r2 is above the group, and state 3 a low sibling of it.
        let table = |label| {
            changed(group(body, &[label]), |table| {
                table.inner(3, 0, 32);
                add_children(table, 0, &[0]);
            })
        };
        let before = format!("9 before {number}");
        examples.push(refused(&before, &table(0), 9, 2));
        let alone = format!("{number}, the default child right");
        examples.push(refused(&alone, &table(1), number, 1));
    }
    examples
}

/// Writes a part of a body.
type Part = fn(&mut Table) -> u16;

/// Goto 1.
fn stay(table: &mut Table) -> u16 {
    table.goto(1)
}

/// If r1 then .. else ...
fn choice(table: &mut Table, then: Part, otherwise: Part) -> u16 {
    let condition = table.read(1);
    let then = then(table);
    let otherwise = otherwise(table);
    table.branch(condition, then, otherwise)
}

fn behind_skip(table: &mut Table, second: Part) -> u16 {
    let first = table.skip();
    let second = second(table);
    table.sequence(first, second)
}

/// r0 := r1; fall.
fn leak(table: &mut Table) -> u16 {
    let value = table.read(1);
    let assign = table.assign(0, value);
    let fall = table.fall();
    table.sequence(assign, fall)
}

/// If r1 then goto 3 else fall.
fn go_down(table: &mut Table) -> u16 {
    choice(table, |table| table.goto(3), Table::fall)
}

/// If r2 then fall else fall.
fn fall_by_r2(table: &mut Table) -> u16 {
    let condition = table.read(2);
    let then = table.fall();
    let otherwise = table.fall();
    table.branch(condition, then, otherwise)
}

/// States 1 and 2, both of label 1, fall; 3 below 2 and 4 below 1 have these labels.
fn crossed(below_2: u8, below_1: u8) -> Table {
    changed(group(Table::fall, &[]), |table| {
        let fall = table.fall();
        add_group(table, fall, &[below_2]);
        add_children(table, 1, &[below_1]);
    })
}

/// State 3 is a spare child of state 1 and falls to a child of its own.
fn spare_group(label: u8, below: u8) -> Table {
    changed(group(Table::fall, &[1, label]), |table| {
        table.commands[3] = table.commands[0];
        add_children(table, 3, &[below]);
    })
}
