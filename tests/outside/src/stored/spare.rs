//! Request E4: spare children, from reset and from targets that no run from reset leaves.

use super::Script;
use crate::designs::{group, spare_child};
use crate::table::Table;

pub fn add(script: &mut Script) {
    script
        .note("a spare child is not entered from reset, r1 = 0")
        .design(&spare_child());
    script.reset().run(1);
    script
        .note("nor with r1 = 1")
        .reset()
        .write(1, 1)
        .run(1)
        .run(1_000);
    script
        .note("why from reset: the spare child as the target, r1 = 0")
        .values(&[0, 0], &[1, 3, 2, 3])
        .run(1);
    script
        .note("with r1 = 1 it is entered and writes r0")
        .values(&[0, 1], &[1, 3, 2, 3])
        .run(1);
    script
        .note("a goto puts the default child back")
        .values(&[0, 0], &[1, 3, 2, 3])
        .run(1)
        .write(1, 1)
        .run(1);
    script
        .note("the default child of a group with spare children")
        .design(&group(Table::fall, &[1, 0, 2]));
    script.reset().run(1);
    script
        .note("no fall, the only child low")
        .design(&group(|table| table.goto(1), &[0]));
    script.reset().run(3);
}
