//! Refusals 5, 6 and 7: fields, uses and depth of nodes.

use super::{accepted, changed, refused, Example};
use crate::designs::{lease, nested_commands, nested_sums, smallest, three_states};

pub fn examples() -> Vec<Example> {
    let too_deep = nested_commands(63);
    let deepest = usize::from(too_deep.states[1].command);
    vec![
        refused(
            "5: command kind 6",
            &changed(lease(), |table| table.commands[0].kind = 6),
            5,
            0,
        ),
        refused(
            "5: a sequence of itself",
            &changed(lease(), |table| table.commands[3].a = 3),
            5,
            3,
        ),
        refused(
            "5: an unused byte of a constant",
            &changed(lease(), |table| table.expressions[0].a = 1),
            5,
            1_024,
        ),
        refused(
            "6: states 0 and 1 both with command 0",
            &changed(smallest(), |table| table.states[1].command = 0),
            6,
            0,
        ),
        refused(
            "6: both parts one node",
            &three_states(|table| {
                let skip = table.skip();
                table.sequence(skip, skip)
            }),
            6,
            1,
        ),
        refused(
            "6: an expression that nothing uses",
            &changed(lease(), |table| {
                table.constant(1);
            }),
            6,
            1_030,
        ),
        accepted("P5: 63 nested sums", &nested_sums(63)),
        refused("P6, 7: 64 nested sums", &nested_sums(64), 7, 1_024 + 128),
        accepted("commands of depth 64", &nested_commands(62)),
        refused("7: commands of depth 65", &too_deep, 7, deepest),
    ]
}
