//! Refusal 16: an assignment names a port. It is judged after 8 and before 9.

use super::{accepted, changed, copy_and_go, go_by_r1, refused, Example};
use crate::designs::{low_child, nested_sums, three_states, timer_is_a_port};
use crate::reference::image::PORT;
use crate::table::Table;

pub fn examples() -> Vec<Example> {
    let mut examples = alone();
    examples.extend(not_at_all());
    examples.extend(earlier_checks());
    examples.extend(later_checks());
    examples
}

fn alone() -> Vec<Example> {
    vec![
        refused("16: r1 := 0, a port", &three_states(assign_port), 16, 1),
        refused(
            "16: r1 := r1, which would change nothing",
            &three_states(|table| copy_and_go(table, 1, 1)),
            16,
            1,
        ),
        refused(
            "16: in a branch that is never taken",
            &three_states(|table| {
                let never = table.constant(0);
                let then = set(table, 1);
                let otherwise = table.skip();
                let choice = table.branch(never, then, otherwise);
                let go = table.goto(1);
                table.sequence(choice, go)
            }),
            16,
            1,
        ),
        refused("16: the timer is a port", &timer_is_a_port(), 16, 1),
        refused(
            "16: the second of three assignments, and the third",
            &three_states(|table| {
                let inner = set(table, 0);
                let port = set(table, 1);
                let both = table.sequence(inner, port);
                let again = assign_port(table);
                table.sequence(both, again)
            }),
            16,
            2,
        ),
        refused(
            "16: the lowest of two, which runs last",
            &three_states(|table| {
                let last = assign_port(table);
                let first = set(table, 1);
                table.sequence(first, last)
            }),
            16,
            1,
        ),
    ]
}

fn not_at_all() -> Vec<Example> {
    vec![
        accepted(
            "an inner register is assigned",
            &three_states(|table| {
                let inner = set(table, 0);
                let go = table.goto(1);
                table.sequence(inner, go)
            }),
        ),
        accepted(
            "a port is read by a condition and for an assignment",
            &changed(
                three_states(|table| {
                    let condition = table.read(1);
                    let value = table.read(1);
                    let then = table.assign(2, value);
                    let otherwise = table.skip();
                    let choice = table.branch(condition, then, otherwise);
                    let go = table.goto(1);
                    table.sequence(choice, go)
                }),
                |table| {
                    table.inner(1, 0, 32);
                },
            ),
        ),
        accepted(
            "goto 1 names a state, though register 1 is a port",
            &three_states(|table| table.goto(1)),
        ),
    ]
}

fn earlier_checks() -> Vec<Example> {
    vec![
        refused(
            "7 before 16",
            &changed(nested_sums(64), |table| table.registers[0].kind = PORT),
            7,
            1_024 + 128,
        ),
        refused(
            "8 before 16, at one command",
            &three_states(|table| set(table, 1)),
            8,
            1,
        ),
        refused(
            "8 before 16, though at a higher command",
            &three_states(|table| {
                let first = set(table, 1);
                let second = table.skip();
                table.sequence(first, second)
            }),
            8,
            3,
        ),
    ]
}

fn later_checks() -> Vec<Example> {
    vec![
        refused(
            "16 before 9",
            &changed(low_child(), |table| table.registers[0].kind = PORT),
            16,
            1,
        ),
        refused(
            "16 before 10, at one command",
            &changed(three_states(|table| copy_and_go(table, 2, 1)), |table| {
                table.port(0, 0, 32);
            }),
            16,
            1,
        ),
        refused(
            "16 before 10, though at a higher command",
            &then_assign_port(three_states(|table| copy_and_go(table, 0, 1))),
            16,
            5,
        ),
        refused(
            "16 before 11, though at a higher command",
            &then_assign_port(three_states(go_by_r1)),
            16,
            5,
        ),
        refused(
            "16 before 12, though at a higher command",
            &changed(
                then_assign_port(three_states(|table| table.goto(1))),
                |table| {
                    let secret = table.read(1);
                    let otherwise = table.fall();
                    table.states[0].command = table.branch(secret, 0, otherwise);
                },
            ),
            16,
            3,
        ),
    ]
}

/// A register := 0.
fn set(table: &mut Table, register: u8) -> u16 {
    let zero = table.constant(0);
    table.assign(register, zero)
}

/// r1 := 0; goto 1.
fn assign_port(table: &mut Table) -> u16 {
    let assign = set(table, 1);
    let go = table.goto(1);
    table.sequence(assign, go)
}

/// r1 := 0 before what state 2 does, as the highest commands so far.
fn then_assign_port(mut table: Table) -> Table {
    let body = table.states[2].command;
    let assign = set(&mut table, 1);
    table.states[2].command = table.sequence(assign, body);
    table
}
