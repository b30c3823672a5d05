//! Refusals 1, 3 and 4: the directory, registers and states.

use super::{accepted, bytes, changed, refused, Example};
use crate::designs::{lease, smallest, two_groups};

pub fn examples() -> Vec<Example> {
    let image = lease().image();
    vec![
        accepted("the lease design", &lease()),
        accepted("the smallest design", &smallest()),
        accepted("two groups, figure 2(b)", &two_groups()),
        bytes("1: the empty image", Vec::new(), 1, 0),
        bytes("1: one byte too short", image[..234].to_vec(), 1, 0),
        bytes("1: one byte too long", [&image[..], &[0]].concat(), 1, 0),
        refused(
            "1: no label",
            &changed(smallest(), |table| table.rows.clear()),
            1,
            0,
        ),
        refused(
            "1: 17 labels",
            &changed(smallest(), |table| table.rows = vec![u16::MAX; 17]),
            1,
            0,
        ),
        refused(
            "3: kind 2",
            &changed(lease(), |table| table.registers[1].kind = 2),
            3,
            1,
        ),
        refused(
            "3: a register's label is none; the lowest register counts",
            &changed(lease(), |table| {
                table.registers[1].kind = 2;
                table.registers[0].label = 2;
            }),
            3,
            0,
        ),
        refused(
            "4: state 1 with parent 1",
            &changed(lease(), |table| table.states[1].parent = 1),
            4,
            1,
        ),
        refused(
            "4: the root with label 1",
            &changed(lease(), |table| table.states[0].label = 1),
            4,
            0,
        ),
        refused(
            "4: a command number at the count",
            &changed(lease(), |table| table.states[4].command = 13),
            4,
            4,
        ),
        refused(
            "4: no command at all",
            &changed(smallest(), |table| table.commands.clear()),
            4,
            0,
        ),
    ]
}
