//! Request E9: journalled runs and steps back. What a journal holds, what is restored, and refusals 21, 22 and
//! 14 of a saved state.

use super::Script;
use crate::designs::{largest, lease, one_group, smallest, three_levels, two_groups, valve};
use crate::table::Table;

/// A saved state of the lease design.
const STATE: usize = 23;

pub fn add(script: &mut Script) {
    script
        .note("21: before the first journal")
        .design(&lease())
        .reset();
    script.run_journalled(0).run_journalled(1).step_back(0);
    saving(script);
    going_back(script);
    between(script);
    lengths(script);
    counts(script);
    steps(script);
    saved_states(script);
    order(script);
    limits(script);
}

/// An empty journal for so many cycles of the design and so many bytes more, each of which is 170.
fn room(table: &Table, cycles: usize, more: usize) -> Vec<u8> {
    let (registers, targets) = table.areas();
    let behind = cycles * (registers + targets) + more;
    [vec![0; 4], vec![0xAA; behind]].concat()
}

/// The design after a reset, with such a journal.
fn begin(script: &mut Script, table: &Table, cycles: usize, more: usize) {
    script.design(table).reset();
    script.journal(&room(table, cycles, more));
}

fn saving(script: &mut Script) {
    script
        .note("each cycle of the lease design is saved as it was before: registers, then targets");
    begin(script, &lease(), 4, 3);
    script
        .run_journalled(1)
        .run_journalled(1)
        .run_journalled(1)
        .run_journalled(1);
    script.note("the same in one run");
    begin(script, &lease(), 4, 3);
    script.run_journalled(4);
    script.note("no cycles save nothing").run_journalled(0);
    script.note("targets and ports: two groups, r2 = 1 written before cycle 3");
    begin(script, &two_groups(), 4, 0);
    script.run_journalled(2).write(2, 1).run_journalled(2);
    script.note("bindings: one group");
    begin(script, &one_group(), 4, 0);
    script.run_journalled(4).step_back(2);
}

fn going_back(script: &mut Script) {
    for steps in [1, 2, 4] {
        script.note("back, and the same cycles once more");
        begin(script, &lease(), 4, 2);
        script
            .run_journalled(4)
            .step_back(steps)
            .run_journalled(steps);
    }
    script.note("back by 1 and by 2, then by 0");
    script.step_back(1).step_back(2).step_back(0);
}

fn between(script: &mut Script) {
    script.note("cycles without the journal are not counted; a write and a reset do not touch it");
    begin(script, &lease(), 3, 0);
    script.run_journalled(1).run(2).write(1, 7);
    script.run_journalled(2).reset().step_back(1);
    script.write(1, 0).run(1).step_back(2);
}

fn lengths(script: &mut Script) {
    for length in [0, 3] {
        script
            .note("21: under 4 bytes")
            .design(&lease())
            .reset()
            .journal(&vec![0; length]);
        script.run_journalled(0).run_journalled(1);
        script.step_back(0).step_back(1);
    }
    script.note("4 bytes are an empty journal").journal(&[0; 4]);
    script.run_journalled(0).run_journalled(1).step_back(0);
    script.note("21: room for one cycle, all but a byte");
    script.journal(&room(&lease(), 1, 0)[..4 + STATE - 1]);
    script.run_journalled(1);
    script.note("room for two cycles").reset();
    script.journal(&room(&lease(), 2, 0));
    script.run_journalled(3).run_journalled(2).run_journalled(0);
    script.note("21: no room for a third").run_journalled(1);
    script
        .note("21: as long as 1,000,000 cycles")
        .run_journalled(1_000_000);
    script.note("21: one byte too short for its own count");
    let mut short = room(&lease(), 2, 0);
    short[0] = 2;
    short.pop();
    script.journal(&short);
    script.run_journalled(0).step_back(0).step_back(1);
}

/// An empty journal for two cycles of the lease design, with this count.
fn counted(count: u32) -> Vec<u8> {
    let mut journal = room(&lease(), 2, 0);
    journal[..4].copy_from_slice(&count.to_le_bytes());
    journal
}

fn counts(script: &mut Script) {
    script.design(&lease()).reset();
    // 23 times 186,737,709 is 11 in 32 bits.
    for count in [3, 256, 65_536, 1 << 31, 186_737_709, u32::MAX] {
        script
            .note("21: a count above the room")
            .journal(&counted(count));
        script.run_journalled(0).step_back(0).step_back(count);
    }
    script
        .note("21: the new count passes 32 bits")
        .run_journalled(1)
        .run_journalled(2);
    script.journal(&counted(u32::MAX - 999_999));
    script.run_journalled(1_000_000);
}

fn steps(script: &mut Script) {
    script.note("22: an empty journal").journal(&counted(0));
    script.step_back(1).step_back(1_000_001).step_back(u32::MAX);
    script.note("22: one more than the count").reset();
    script.run_journalled(2).step_back(3);
    script.note("22: not by 15").step_back(1_000_001);
    script
        .note("as many as there are")
        .step_back(2)
        .step_back(1);
}

/// A journal that has saved these areas, with no binding but 0.
fn saved(values: [u32; 5], targets: [u8; 4]) -> Vec<u8> {
    let registers: Vec<u8> = values
        .iter()
        .flat_map(|value| value.to_le_bytes())
        .collect();
    [&[1, 0, 0, 0][..], &registers, &targets, &[0; 8]].concat()
}

fn saved_states(script: &mut Script) {
    script.note("14 of what was saved: contents, then targets");
    begin(script, &valve(), 1, 0);
    for (values, targets) in [
        ([1_024, 0, 0, 0, 0], [1, 1, 3, 3]),
        ([0, 2, 1_024, 0, 0], [1, 1, 3, 3]),
        ([0, 0, 65_536, 0, 0], [0, 0, 0, 0]),
        ([0, 0, 0, 3, 0], [1, 1, 3, 3]),
        ([0, 0, 0, 0, 0], [0, 1, 3, 3]),
        ([0, 0, 0, 0, 0], [1, 1, 2, 4]),
        ([0, 0, 0, 0, 0], [1, 1, 3, 0]),
    ] {
        script.journal(&saved(values, targets));
        script.step_back(0).step_back(1);
    }
    script
        .note("the largest values, which nobody journalled")
        .journal(&saved([1_023, 1, 1_023, 1, u32::MAX], [2, 1, 3, 3]));
    script.step_back(1).run(1);
    script.note("14 of what was saved: bindings");
    begin(script, &one_group(), 1, 0);
    for (binding, register) in [(4, 2), (4, 6), (9, 6), (4, 1)] {
        let mut bindings = [0, 0, 0, 0, 4, 0, 0, 0, 0, 0];
        bindings[binding] = register;
        let targets = [2, 1, 3, 3, 4];
        let journal = [&[1, 0, 0, 0][..], &[0; 24], &targets, &bindings].concat();
        script.journal(&journal).step_back(1);
    }
    only_one_is_judged(script);
}

fn only_one_is_judged(script: &mut Script) {
    script
        .note("the areas before a step back and the other saved states are not judged")
        .design(&lease());
    let sound = [
        2, 0, 0, 0, 0, 0, 0, 0, 2, 1, 4, 3, 4, 0, 0, 0, 0, 0, 0, 0, 0, 0, 0,
    ];
    let journal = [&[3, 0, 0, 0][..], &[99; STATE], &sound, &[99; STATE]].concat();
    script.journal(&journal).lent(&[99; 8], &[99; 15]);
    script.run_journalled(0).step_back(0).step_back(1);
    script.step_back(3).step_back(2).run_journalled(1);
}

fn order(script: &mut Script) {
    script.note("a journalled run: 14 before 15 before 21");
    script.design(&lease()).reset().journal(&[0; 3]);
    script.run_journalled(1_000_001).step_back(1_000_001);
    script.note("going back: 14 for a length before 21 before 22");
    script.areas(&[3, 0, 0, 0, 0, 0, 0, 0], &[1, 1, 9, 3, 4]);
    script.run_journalled(1_000_001).step_back(1_000_001);
    script.lent(&[0; 9], &[0; 15]);
    script.run_journalled(1_000_001).step_back(1_000_001);
    script.lent(&[0; 8], &[0; 14]).step_back(0);
    script.note("the image checks come first");
    script.image(&lease().image()[..234]);
    script.run_journalled(1_000_001).step_back(1_000_001);
}

fn limits(script: &mut Script) {
    script.note("no registers");
    begin(script, &smallest(), 20, 1);
    script.run_journalled(19).run_journalled(1);
    script.run_journalled(1).step_back(20);
    script.note("targets alone, of three levels");
    begin(script, &three_levels(), 1, 0);
    script.areas(&[], &[2, 4, 8, 6, 4, 5, 6, 7, 8]);
    script.run_journalled(1).step_back(1);
    script.note("every count at its limit, in a journal of two cycles");
    begin(script, &largest(), 2, 0);
    script
        .run_journalled(1)
        .run(50)
        .run_journalled(1)
        .step_back(2);
}
