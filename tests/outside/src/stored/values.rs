//! What expressions and conditions come to.

use super::Script;
use crate::designs::{assigns_twice, lease, one_operation, seen_by_the_child};

pub fn add(script: &mut Script) {
    operations(script);
    conditions(script);
    reads(script);
}

fn operations(script: &mut Script) {
    let most = u32::MAX;
    operation(script, "add wraps", 2, &[(most, 2), (3, 4)]);
    operation(script, "P4: 0 - 1", 3, &[(0, 1), (300, 45)]);
    operation(script, "and", 4, &[(12, 10)]);
    operation(script, "or", 5, &[(12, 10)]);
    operation(script, "xor", 6, &[(12, 10)]);
    operation(script, "equal gives 1 or 0", 7, &[(5, 5), (5, 6)]);
    let unsigned = [(5, most), (most, 5), (5, 5)];
    operation(script, "less is unsigned", 8, &unsigned);
}

/// r0 := r1 (kind) r2 for each pair.
fn operation(script: &mut Script, sentence: &str, kind: u8, pairs: &[(u32, u32)]) {
    script.note(sentence).pairs(&one_operation(kind), pairs);
}

/// State 3 of the lease design: if r1 then goto 4 else goto 3.
fn conditions(script: &mut Script) {
    let state_3 = [2, 1, 3, 3, 4];
    script
        .note("an if takes its second branch when the value is 0")
        .image(&lease().image())
        .areas(&[3, 0, 0, 0, 0, 0, 0, 0], &state_3)
        .run(1);
    script
        .note("its first when it is 1")
        .areas(&[3, 0, 0, 0, 1, 0, 0, 0], &state_3)
        .run(1);
    script
        .note("its first when only the highest bit is set")
        .areas(&[3, 0, 0, 0, 0, 0, 0, 128], &state_3)
        .run(1);
}

fn reads(script: &mut Script) {
    script
        .note("r0 := r0 - 1 is seen by the if behind it: r0 = 1 goes to 1")
        .areas(&[1, 0, 0, 0, 0, 0, 0, 0], &[2, 1, 3, 3, 4])
        .run(1);
    script
        .note("an assignment shows at the next read of its body")
        .design(&assigns_twice());
    script.reset().run(1).run(1);
    script
        .note("the child reads what the root wrote in the cycle")
        .design(&seen_by_the_child(7));
    script.reset().run(1);
}
