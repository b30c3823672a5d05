//! Port writes.

use super::Script;
use crate::designs::lease;

pub fn add(script: &mut Script) {
    script
        .note("port write sets its register, the lowest byte first")
        .design(&lease());
    script.reset().write(1, 0x0102_0304).write(1, u32::MAX);
    script.note("13: writing r0 of kind 0").write(0, 1);
    script.note("13: the register count").write(2, 1);
    script.note("13: register 64").write(64, 1);
    script.note("13: the greatest number").write(u32::MAX, 1);
    script
        .note("14 before 13: a wrong area and an inner register")
        .areas(&[1, 2, 3, 4], &[1, 1, 3, 3, 4]);
    script.write(0, 1).write(64, 1).write(1, 1);
    script
        .note("port write takes the register area only")
        .areas(&[0; 8], &[])
        .write(1, 5);
    script
        .note("a run leaves every port as it was")
        .areas(&[3, 0, 0, 0, 5, 6, 7, 8], &[1, 1, 3, 3, 4])
        .run(1_000);
}
