//! The lengths of the areas, and refusals 13 to 15: areas, targets, ports and cycle counts. No lent
//! byte changes.

use super::{refused, refused_run, Areas};
use crate::answer::Answer;
use crate::designs::{lease, smallest, timer_is_a_port, two_groups};
use crate::reference;

#[test]
fn ports() {
    let mut areas = Areas::reset(&lease());
    let write = |areas: &Areas, register| {
        refused(areas, |i, r, _| reference::write_port(i, r, register, 1))
    };
    assert_eq!(write(&areas, 0), (13, 0)); // inner
    assert_eq!(write(&areas, 2), (13, 2));
    assert_eq!(write(&areas, u32::MAX), (13, u32::MAX as usize));
    assert_eq!(areas.write_port(1, 0x01020304), Answer::accepted(0));
    assert_eq!(areas.registers, [3, 0, 0, 0, 4, 3, 2, 1]);
    // 14 comes before 13.
    areas.registers.truncate(4);
    assert_eq!(write(&areas, 0), (14, 0));
    assert_eq!(write(&areas, 1), (14, 0));
}

#[test]
fn lengths_told() {
    for (table, registers, targets) in
        [(lease(), 8, 15), (smallest(), 0, 6), (two_groups(), 16, 24)]
    {
        let image = table.image();
        assert_eq!(
            reference::registers_length(&image),
            Answer::accepted(registers)
        );
        assert_eq!(reference::targets_length(&image), Answer::accepted(targets));
        // An image that is refused has no lengths.
        let refused = Answer::refused(1, 0);
        let shorter = &image[..image.len() - 1];
        assert_eq!(reference::registers_length(shorter), refused);
        assert_eq!(reference::targets_length(shorter), refused);
    }
}

#[test]
fn area_lengths() {
    for (registers, targets) in [
        (7, 15),
        (9, 15),
        (4, 15),
        (0, 15),
        (8, 14),
        (8, 16),
        (8, 5),
        (8, 10),
        (8, 0),
    ] {
        let mut areas = Areas::reset(&lease());
        areas.registers.resize(registers, 0xAA);
        areas.targets.resize(targets, 0xAA);
        assert_eq!(refused_run(&areas, 0), (14, 0));
        assert_eq!(refused_run(&areas, 1_000_001), (14, 0));
        assert_eq!(
            refused(&areas, |i, r, t| reference::reset(i, r, t)),
            (14, 0)
        );
    }
}

#[test]
fn no_registers() {
    let mut areas = Areas::reset(&smallest());
    assert_eq!(areas.run(3), Answer::accepted(3));
    assert_eq!(areas.walk(), [0, 1]);
    let mut input = vec![1, 0];
    input.extend(&areas.image);
    assert_eq!(
        reference::listing(&input),
        b"cycle;walk;registers\n1;0 1;\n"
    );
}

#[test]
fn unsound_targets() {
    for (state, target, place) in [
        (0, 0, 0), // the root is nobody's child
        (0, 3, 0),
        (0, 5, 0),
        (0, 255, 0),
        (1, 2, 1), // a childless state's is its own number
        (2, 2, 2),
        (2, 1, 2),
        (4, 3, 4),
    ] {
        let mut areas = Areas::reset(&lease());
        areas.targets[state] = target;
        for cycles in [0, 1, 1_000_001] {
            assert_eq!(refused_run(&areas, cycles), (14, place));
        }
        // The lowest state counts.
        areas.targets[4] = 77;
        assert_eq!(refused_run(&areas, 1), (14, place));
    }
}

#[test]
fn cycle_counts() {
    let mut areas = Areas::reset(&lease());
    assert_eq!(refused_run(&areas, 1_000_001), (15, 0));
    assert_eq!(refused_run(&areas, u32::MAX), (15, 0));
    assert_eq!(areas.run(1_000_000), Answer::accepted(1_000_000));
}

#[test]
fn image_checks_come_first() {
    let mut areas = Areas::reset(&lease());
    let too_long = [&areas.image[..], &[0]].concat();
    // 16 too, though 13 to 15 are lower numbers.
    for (image, verdict) in [(too_long, (1, 0)), (timer_is_a_port().image(), (16, 1))] {
        areas.image = image;
        for registers in [8, 0] {
            areas.registers.resize(registers, 0);
            let reset = refused(&areas, |i, r, t| reference::reset(i, r, t));
            let write = refused(&areas, |i, r, _| reference::write_port(i, r, 9, 9));
            let run = refused_run(&areas, 1_000_001);
            assert_eq!([reset, write, run], [verdict; 3]);
        }
    }
}

#[test]
fn reset_judges_lengths_only() {
    let mut areas = Areas::reset(&lease());
    areas.targets.fill(200);
    areas.registers.fill(200);
    let answer = reference::reset(&areas.image, &mut areas.registers, &mut areas.targets);
    assert_eq!(answer, Answer::accepted(0));
    assert_eq!(areas.registers, [3, 0, 0, 0, 0, 0, 0, 0]);
    assert_eq!(areas.only_targets(), [1, 1, 3, 3, 4]);
}
