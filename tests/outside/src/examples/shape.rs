//! Refusal 8: what transfers, and where a fall and a goto may stand.

use super::{changed, refused, Example};
use crate::designs::{lease, smallest, three_states};
use crate::table::Table;

pub fn examples() -> Vec<Example> {
    let first_goto = lease().commands.iter().position(|node| node.kind == 4);
    let first_goto = first_goto.unwrap();
    vec![
        refused(
            "8: if r0 then goto 1 else skip",
            &three_states(|table| {
                let condition = table.read(0);
                let then = table.goto(1);
                let otherwise = table.skip();
                table.branch(condition, then, otherwise)
            }),
            8,
            3,
        ),
        refused(
            "8: the first part transfers, charged to the sequence",
            &three_states(|table| {
                let first = table.goto(1);
                let second = table.goto(1);
                table.sequence(first, second)
            }),
            8,
            3,
        ),
        refused(
            "8: a state that does not transfer",
            &three_states(Table::skip),
            8,
            1,
        ),
        refused(
            "8: a fall without a child",
            &three_states(Table::fall),
            8,
            1,
        ),
        refused(
            "8: a goto in the root",
            &changed(smallest(), |table| table.commands[0] = table.commands[1]),
            8,
            0,
        ),
        refused(
            "P10: goto 0 from state 1",
            &three_states(|table| table.goto(0)),
            8,
            1,
        ),
        refused(
            "P10: goto 0 in the lease design",
            &changed(lease(), |table| table.commands[first_goto].which = 0),
            8,
            first_goto,
        ),
        refused(
            "8: a single state",
            &changed(smallest(), |table| {
                table.states.truncate(1);
                table.commands.truncate(1);
            }),
            8,
            0,
        ),
    ]
}
