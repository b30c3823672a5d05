//! Refusals 10 to 12: leaks through assignments, gotos and falls.

use super::{accepted, changed, copy_and_go, go_by_r1, refused, Example};
use crate::designs::{three_states, timer_counted_by_a_high_state};
use crate::table::Table;

pub fn examples() -> Vec<Example> {
    vec![
        refused(
            "10: r0 := r1, labels 0 and 1",
            &three_states(|table| copy_and_go(table, 0, 1)),
            10,
            1,
        ),
        refused(
            "11: if r1 then goto 1 else goto 2, both label 0",
            &three_states(go_by_r1),
            11,
            1,
        ),
        refused(
            "12: if r1 then fall else fall, in label 0",
            &changed(three_states(|table| table.goto(1)), |table| {
                let secret = table.read(1);
                let otherwise = table.fall();
                table.states[0].command = table.branch(secret, 0, otherwise);
            }),
            12,
            0,
        ),
        refused(
            "10: figure 2(a), a high state counts the timer",
            &timer_counted_by_a_high_state(),
            10,
            1,
        ),
        refused(
            "10: if secret then leak := 1 else leak := 0",
            &with_child(|table| {
                let secret = table.read(1);
                let one = table.constant(1);
                let then = table.assign(0, one);
                let zero = table.constant(0);
                let otherwise = table.assign(0, zero);
                let leak = table.branch(secret, then, otherwise);
                let go = table.goto(1);
                table.sequence(leak, go)
            }),
            10,
            1,
        ),
        // The paper's section 3.2.1 would take it, and it leaks.
        refused(
            "12: if r1 then fall else goto 2",
            &with_child(|table| {
                let secret = table.read(1);
                let then = table.fall();
                let otherwise = table.goto(2);
                table.branch(secret, then, otherwise)
            }),
            12,
            1,
        ),
        refused(
            "12: the same with the goto as the lower node",
            &with_child(|table| {
                let secret = table.read(1);
                let otherwise = table.goto(2);
                let then = table.fall();
                table.branch(secret, then, otherwise)
            }),
            12,
            2,
        ),
        accepted(
            "if r0 then fall else goto 2, r0 low",
            &with_child(|table| {
                let open = table.read(0);
                let then = table.fall();
                let otherwise = table.goto(2);
                table.branch(open, then, otherwise)
            }),
        ),
        // "Not above" is not "at or below".
        refused(
            "10: labels that cannot be compared",
            &changed(three_states(|table| copy_and_go(table, 2, 1)), |table| {
                table.rows = vec![15, 10, 12, 8];
                table.inner(2, 0, 32);
            }),
            10,
            1,
        ),
    ]
}

/// `three_states` with a child below state 1, so that its body may fall.
fn with_child(body: impl Fn(&mut Table) -> u16) -> Table {
    changed(three_states(body), |table| {
        let go = table.goto(3);
        table.state(1, 0, go);
    })
}
