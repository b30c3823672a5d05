//! Registers with a width: what is stored, and what the areas may hold.

use super::Script;
use crate::designs::{copied, one_operation, seen_by_the_child, tests_one_more, valve, with_width};

pub fn add(script: &mut Script) {
    cuts(script);
    reads(script);
    conditions(script);
    cycles(script);
    contents(script);
    order(script);
    writes(script);
}

fn cuts(script: &mut Script) {
    let most = u32::MAX;
    let flag = [(1, 0), (2, 0), (3, 0), (most, 0)];
    cut(script, "width 1: 2 gives 0, 3 gives 1", 1, 2, &flag);
    let byte = [(255, 0), (256, 0), (0x1234_5678, 0)];
    cut(script, "width 8", 8, 2, &byte);
    let position = [(1_023, 0), (1_024, 0), (1_023, 1), (1_025, 0), (most, 0)];
    cut(script, "width 10: 1,023 + 1 gives 0", 10, 2, &position);
    let wide = [(1 << 31, 0), ((1 << 31) - 1, 0), ((1 << 31) - 1, 2)];
    cut(script, "width 31", 31, 2, &wide);
    let widest = [(1 << 31, 0), (most, 0), (most, 1)];
    cut(script, "width 32 cuts nothing", 32, 2, &widest);
    for (sentence, width) in [
        ("0 - 1 in width 1", 1),
        ("0 - 1 in width 10", 10),
        ("0 - 1 in width 31", 31),
        ("0 - 1 in width 32", 32),
    ] {
        cut(script, sentence, width, 3, &[(0, 1)]);
    }
}

/// r0 := r1 (kind) r2 for each pair, in an r0 of this width.
fn cut(script: &mut Script, sentence: &str, width: u8, kind: u8, pairs: &[(u32, u32)]) {
    let table = with_width(one_operation(kind), 0, width);
    script.note(sentence).pairs(&table, pairs);
}

fn reads(script: &mut Script) {
    script
        .note("r0 := 1,029; r1 := r0 with r0 of width 10: the read sees the cut")
        .design(&copied(10, 1_029));
    script.reset().run(1);
    script
        .note("r0 := 4,294,967,295; r1 := r0 with r0 of width 31")
        .design(&copied(31, u32::MAX));
    script.reset().run(1);
    script
        .note("expressions are not cut: 1,023 + 1 of narrow ports in a wide register")
        .design(&with_width(with_width(one_operation(2), 1, 10), 2, 1));
    script.reset().write(1, 1_023).write(2, 1).run(1);
}

fn conditions(script: &mut Script) {
    script
        .note("an if takes its second branch when the cut made the value 0")
        .design(&with_width(seen_by_the_child(1_024), 0, 10));
    script.reset().run(1);
    script
        .note("its first when the cut left a bit")
        .design(&with_width(seen_by_the_child(1_025), 0, 10));
    script.reset().run(1);
    script
        .note("its first for 1,023 + 1, which is not stored")
        .design(&tests_one_more(10));
    script.reset().run(1);
    script
        .note("its second for 4,294,967,295 + 1")
        .design(&tests_one_more(32));
    script.reset().run(1);
}

fn cycles(script: &mut Script) {
    script
        .note("the valve: 1,023 + 1 and 0 - 1 in 10 bits, 1 + 1 in one")
        .design(&valve());
    script.reset().run(1).run(1).run(1).run(1).run(1);
    script.note("the same in one run").reset().run(5);
    script
        .note("10,000 cycles of the valve")
        .reset()
        .run(10_000);
}

const SOUND: [u8; 4] = [1, 1, 3, 3];

/// The valve has widths 10, 1, 10, 1 and 32; r2 and r3 are ports.
fn contents(script: &mut Script) {
    script
        .note("the largest values")
        .design(&valve())
        .values(&[1_023, 1, 1_023, 1, u32::MAX], &SOUND);
    script.run(0).write(2, 5).run(1);
    for (sentence, values) in [
        ("14: r0 holds 1,024", [1_024, 0, 0, 0, 0]),
        ("14: r0 holds 2,047", [2_047, 0, 0, 0, 0]),
        ("14: r1 holds 2", [0, 2, 0, 0, 0]),
        ("14: r1 holds the highest bit", [0, 1 << 31, 0, 0, 0]),
        ("14: r2, a port, holds 65,536", [0, 0, 65_536, 0, 0]),
        ("14: r3, a port, holds 3", [0, 0, 0, 3, u32::MAX]),
        ("14: the lowest register counts", [1_023, 2, 1_024, 2, 9]),
    ] {
        script.note(sentence).values(&values, &SOUND);
        script.run(0).run(1).run(1_000_001);
        // A port, another, an inner register, none; values that fit and values that do not.
        script.write(2, 0).write(3, 2).write(0, 1_024).write(5, 0);
    }
    script
        .note("reset judges only lengths and puts contents right")
        .reset()
        .run(1);
}

fn order(script: &mut Script) {
    let bad = [0, 0, 0, 2, 0];
    script
        .note("14: contents before an unsound target")
        .values(&bad, &[0, 0, 0, 0]);
    script.run(0).run(1).write(2, 1);
    script
        .note("14: an unsound target, contents good")
        .values(&[0; 5], &[0, 0, 0, 0]);
    script.run(0).run(1).write(2, 1);
    script
        .note("14: a wrong length of the targets before contents")
        .values(&bad, &SOUND[..3]);
    script.run(0).run(1);
    script
        .note("14: a wrong length of the registers before contents")
        .values(&[0, 0, 0, 2], &SOUND);
    script.run(0).write(2, 1);
    script
        .note("14: one register too many")
        .values(&[0, 0, 0, 2, 0, 0], &SOUND);
    script.run(0).write(2, 1);
}

fn writes(script: &mut Script) {
    script
        .note("port write up to the largest value")
        .design(&valve());
    script.reset().write(2, 1_023).write(3, 1).write(2, 0);
    script.note("17: 1,024 for width 10").write(2, 1_024);
    script.note("17: 2,047 for width 10").write(2, 2_047);
    script.note("17: the greatest value").write(2, u32::MAX);
    script.note("17: 2 for width 1").write(3, 2);
    script.note("17: the highest bit").write(3, 1 << 31);
    script
        .note("13 before 17: an inner register")
        .write(0, 1_024);
    script.note("13 before 17: no register").write(5, u32::MAX);
}
