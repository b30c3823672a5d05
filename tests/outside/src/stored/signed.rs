//! Request E3: what the signed operations come to.

use super::Script;
use crate::designs::{level, one_operation, with_width};
use crate::examples::values::{DIVIDE, SHIFT, SIGNED, SIGNED_LESS};

pub fn add(script: &mut Script) {
    results(script);
    widths(script);
    cycles(script);
}

fn results(script: &mut Script) {
    for operation in &SIGNED {
        let pairs: Vec<(u32, u32)> = (operation.results.iter())
            .map(|&(left, right, _)| (left.cast_unsigned(), right.cast_unsigned()))
            .collect();
        let table = one_operation(operation.kind);
        script.note(operation.sentence).pairs(&table, &pairs);
    }
}

fn widths(script: &mut Script) {
    for (sentence, kind) in [
        ("a reading of 10 bits is not below zero: less", SIGNED_LESS),
        ("a reading of 10 bits is not below zero: shift", SHIFT),
        ("a reading of 10 bits is not below zero: division", DIVIDE),
    ] {
        let table = with_width(one_operation(kind), 1, 10);
        script.note(sentence).pairs(&table, &[(1_023, 1)]);
    }
    for (sentence, kind) in [
        ("-7 >> 1 in width 10 keeps the low bits", SHIFT),
        ("-7 / 1 in width 10 keeps the low bits", DIVIDE),
    ] {
        let table = with_width(one_operation(kind), 0, 10);
        script
            .note(sentence)
            .pairs(&table, &[(7u32.wrapping_neg(), 1)]);
    }
}

fn cycles(script: &mut Script) {
    script.note("a level of -20").design(&level());
    script.reset().run(1).run(1).run(1).run(1).run(1).run(1);
    script.note("the same in one run").reset().run(6);
    script
        .note("the lowest level, and the highest")
        .write(0, 1 << 31);
    script.run(1).run(50).write(0, (1 << 31) - 1).run(1).run(50);
}
