//! Refusal 3, request E2: widths outside their range, and reset values too large.

use super::{accepted, bytes, changed, refused, Example};
use crate::designs::{lease, smallest, valve};
use crate::table::Table;

pub fn examples() -> Vec<Example> {
    let mut examples = vec![
        accepted("positions of 10 bits and flags of 1", &valve()),
        bytes("1: register records of 6 bytes", without_widths(), 1, 0),
    ];
    examples.extend(ranges());
    examples.extend(reset_values());
    examples.extend(order());
    examples
}

fn ranges() -> Vec<Example> {
    vec![
        refused("3: width 0, reset 0", &port(0, 0), 3, 1),
        accepted("width 1", &port(1, 0)),
        accepted("width 32", &port(32, 0)),
        refused("3: width 33", &port(33, 0), 3, 1),
        refused("3: width 64", &port(64, 0), 3, 1),
        refused("3: width 255", &port(255, 0), 3, 1),
        refused(
            "3: the width of an inner register",
            &changed(port(32, 0), |table| table.registers[0].width = 33),
            3,
            0,
        ),
    ]
}

fn reset_values() -> Vec<Example> {
    vec![
        accepted("width 1, reset 1", &port(1, 1)),
        refused("3: width 1, reset 2", &port(1, 2), 3, 1),
        accepted("width 2, reset 3", &port(2, 3)),
        refused("3: width 2, reset 4", &port(2, 4), 3, 1),
        accepted("width 8, reset 255", &port(8, 255)),
        refused("3: width 8, reset 256", &port(8, 256), 3, 1),
        accepted("width 10, reset 1,023", &port(10, 1_023)),
        refused("3: width 10, reset 1,024", &port(10, 1_024), 3, 1),
        refused("3: width 10, reset 2,047", &port(10, 2_047), 3, 1),
        accepted("width 16, reset 65,535", &port(16, 65_535)),
        refused("3: width 16, reset 65,536", &port(16, 65_536), 3, 1),
        accepted("width 31, all its bits", &port(31, (1 << 31) - 1)),
        refused("3: width 31, the highest bit", &port(31, 1 << 31), 3, 1),
        refused("3: width 1, the highest bit", &port(1, 1 << 31), 3, 1),
        accepted("width 32, reset 4,294,967,295", &port(32, u32::MAX)),
        refused(
            "3: the reset value of an inner register",
            &changed(port(32, 0), |table| table.registers[0].width = 1),
            3,
            0,
        ),
        accepted(
            "an inner register of width 2, reset 3",
            &changed(port(32, 0), |table| table.registers[0].width = 2),
        ),
    ]
}

fn order() -> Vec<Example> {
    vec![
        refused(
            "3: a reset value in r0 and a width in r1, the lowest register",
            &changed(port(0, 0), |table| table.registers[0].width = 1),
            3,
            0,
        ),
        refused(
            "3: a kind in r0 and a reset value in r1, the lowest register",
            &changed(port(1, 2), |table| table.registers[0].kind = 2),
            3,
            0,
        ),
        refused(
            "2 before 3: a row and a width",
            &changed(port(0, 0), |table| table.rows[0] = 0),
            2,
            0,
        ),
        refused(
            "3 before 4: a reset value in r1 and state 0",
            &changed(port(1, 2), |table| table.states[0].label = 1),
            3,
            1,
        ),
        accepted(
            "a constant may have more bits than the register that it goes to",
            &changed(lease(), |table| {
                table.registers[0].width = 2;
                table.expressions[0].c = 255;
            }),
        ),
    ]
}

/// The smallest design with r0, inner, reset 3, and with r1, a port of this width and reset value.
fn port(width: u8, reset: u32) -> Table {
    changed(smallest(), |table| {
        table.inner(0, 3, 32);
        table.port(0, reset, width);
    })
}

/// The lease design with the register records that it had before request E2.
fn without_widths() -> Vec<u8> {
    let mut image = lease().image();
    image.remove(37);
    image.remove(30);
    for (place, byte) in [(6, 12), (8, 36), (12, 81), (16, 185)] {
        image[place] = byte;
    }
    image
}
