//! Runs: counts, gotos, targets, and designs at the limits.

use super::Script;
use crate::designs::{largest, lease, smallest, three_levels};

const RESET_VALUES: [u8; 8] = [3, 0, 0, 0, 0, 0, 0, 0];

pub fn add(script: &mut Script) {
    counts(script);
    gotos(script);
    targets(script);
    limits(script);
}

fn counts(script: &mut Script) {
    script
        .note("a run of no cycles changes nothing")
        .design(&lease());
    script.reset().run(0);
    script.note("counts 4 and 1").run(4).run(1);
    script
        .note("1,000,000 cycles of counting down from 2,097,152")
        .areas(&[0, 0, 32, 0, 0, 0, 0, 0], &[2, 1, 3, 3, 4])
        .run(1_000_000);
    script.note("15: 1,000,001 cycles").run(1_000_001);
    script.note("15: the greatest count").run(u32::MAX);
}

fn gotos(script: &mut Script) {
    script
        .note("goto 1 from 2 clears 1 and below it 3, and not 2")
        .image(&three_levels().image())
        .areas(&[], &[2, 4, 8, 6, 4, 5, 6, 7, 8])
        .run(1);
    script.note("the next cycle walks 0 1 3 5").run(1);
}

fn targets(script: &mut Script) {
    script
        .note("run judges the targets")
        .image(&lease().image())
        .areas(&RESET_VALUES, &[1, 1, 3, 3, 4])
        .run(0);
    for (sentence, unsound) in [
        ("14: the root is nobody's child", [0, 1, 3, 3, 4]),
        ("14: a grandchild is no target", [3, 1, 3, 3, 4]),
        ("14: a target at the state count", [5, 1, 3, 3, 4]),
        ("14: target 255", [255, 1, 3, 3, 4]),
        ("14: another for a childless state", [1, 2, 3, 3, 4]),
        (
            "14: the state itself where it has children",
            [1, 1, 2, 3, 4],
        ),
        ("14: the child of another", [1, 1, 1, 3, 4]),
        ("14: the last state", [1, 1, 3, 3, 3]),
        ("14: the lowest state counts", [1, 1, 77, 3, 77]),
    ] {
        script.note(sentence).areas(&RESET_VALUES, &unsound);
        script.run(0).run(1);
    }
    script.note("14 before 15").run(1_000_001);
    script
        .note("port write does not look at the targets")
        .write(1, 9);
    script.note("reset judges only lengths").reset().run(1);
}

fn limits(script: &mut Script) {
    script.note("no registers").design(&smallest());
    script.reset().run(3).write(0, 0);
    script.note("every count at its limit").design(&largest());
    // Port 63 has width 32, port 61 has 14.
    script.reset().run(1).run(100).write(63, u32::MAX);
    script.write(61, (1 << 14) - 1).write(61, 1 << 14);
    script.run(1_000).write(62, 1).write(64, 1);
}
