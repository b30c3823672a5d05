//! Cycles of the worked designs: P1 to P3, and two groups.

use super::Script;
use crate::designs::{lease, two_groups};

pub fn add(script: &mut Script) {
    script
        .note("P1: the four lines of the lease design")
        .design(&lease());
    script.reset().run(1).run(1).run(1).run(1);
    script.note("the same in one run").reset().run(4);
    script
        .note("P2: with r1 = 7 cycle 3 walks 0 2 4")
        .reset()
        .write(1, 7);
    script.run(1).run(1).run(1);
    script
        .note("P3: targets 1 1 4 3 4 become 2 1 3 3 4")
        .areas(&[3, 0, 0, 0, 0, 0, 0, 0], &[1, 1, 4, 3, 4])
        .run(1);
    script
        .note("two groups, r2 = 1 written before cycle 3")
        .design(&two_groups());
    script.reset().run(1).run(1).write(2, 1);
    script.run(1).run(1).run(1).run(1);
}
