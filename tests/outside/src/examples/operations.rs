//! Request E3: expression kinds 9, 10 and 11 take two parts each, and refusal 5 starts at kind 12.

use super::{accepted, changed, copy_and_go, go_by_r1, refused, Example};
use crate::designs::{level, nested, one_operation, three_states};
use crate::table::{Node, Table};

pub fn examples() -> Vec<Example> {
    let mut examples = vec![
        accepted("a level below zero", &level()),
        accepted("kind 9, signed less", &one_operation(9)),
        accepted("kind 10, arithmetic shift", &one_operation(10)),
        accepted("kind 11, signed division", &one_operation(11)),
    ];
    for kind in [12, 13, 137, 255] {
        let sentence = format!("5: expression kind {kind}");
        examples.push(refused(&sentence, &one_operation(kind), 5, OPERATION));
    }
    for kind in 9..=12 {
        examples.extend(fields(kind));
    }
    // The operations of the level design, each with nodes above it.
    for (kind, number) in [(9, 15), (10, 12), (11, 7)] {
        let table = changed(level(), |table| {
            table.expressions[number].a = number as u16 + 1;
        });
        let sentence = format!("5: kind {kind}, a part above it");
        examples.push(refused(&sentence, &table, 5, 1_024 + number));
    }
    for kind in 9..=11 {
        examples.extend(uses_and_depth(kind));
        examples.extend(flow(kind));
    }
    examples
}

/// The place of the operation in `one_operation`, behind the two reads.
const OPERATION: usize = 1_026;

type Change = fn(&mut Node);

fn fields(kind: u8) -> Vec<Example> {
    let changes: [(&str, Change); 7] = [
        ("byte 1 is not used", |node| node.which = 1),
        ("byte 6 is not used", |node| node.c = 1),
        ("byte 7 is not used", |node| node.c = 256),
        ("its first part is itself", |node| node.a = 2),
        ("its second part is itself", |node| node.b = 2),
        ("its first part is no node", |node| node.a = 3),
        ("its second part is no node", |node| node.b = u16::MAX),
    ];
    let example = |(what, change): (&str, Change)| {
        let table = changed(one_operation(kind), |table| {
            change(&mut table.expressions[2]);
        });
        refused(&format!("5: kind {kind}, {what}"), &table, 5, OPERATION)
    };
    changes.into_iter().map(example).collect()
}

fn uses_and_depth(kind: u8) -> Vec<Example> {
    let twice = changed(one_operation(kind), |table| table.expressions[2].b = 0);
    vec![
        refused(
            &format!("6: kind {kind}, both parts one node"),
            &twice,
            6,
            1_024,
        ),
        accepted(&format!("63 nested, kind {kind}"), &nested(kind, 63)),
        refused(
            &format!("7: 64 nested, kind {kind}"),
            &nested(kind, 64),
            7,
            1_024 + 128,
        ),
    ]
}

/// A register read in either part flows on, whatever the other part is.
fn flow(kind: u8) -> Vec<Example> {
    let low = with_zero(three_states(|table| copy_and_go(table, 0, 0)), 1, kind);
    let high = with_zero(three_states(|table| copy_and_go(table, 0, 1)), 1, kind);
    let condition = with_zero(three_states(go_by_r1), 3, kind);
    let swapped = changed(high.clone(), |table| {
        let Node { a, b, .. } = &mut table.expressions[2];
        std::mem::swap(a, b);
    });
    vec![
        accepted(&format!("r0 := r0 (kind {kind}) 0"), &low),
        refused(&format!("10: r0 := r1 (kind {kind}) 0"), &high, 10, 1),
        refused(&format!("10: r0 := 0 (kind {kind}) r1"), &swapped, 10, 1),
        refused(
            &format!("11: if r1 (kind {kind}) 0 then goto 1 else goto 2"),
            &condition,
            11,
            1,
        ),
    ]
}

/// The design with expression 0, which the command takes, in an operation with 0.
fn with_zero(table: Table, command: usize, kind: u8) -> Table {
    changed(table, |table| {
        let zero = table.constant(0);
        table.commands[command].a = table.operation(kind, 0, zero);
    })
}
