//! Refusal 14 by a value too large, and 17: request E2. No lent byte changes.

use super::{refused, refused_run, Areas};
use crate::answer::Answer;
use crate::designs::{lease, valve};
use crate::reference;

/// Widths 10, 1, 10, 1 and 32; r2 and r3 are ports.
fn holding(values: [u32; 5]) -> Areas {
    let mut areas = Areas::reset(&valve());
    areas.set_values(&values);
    areas
}

fn refused_write(areas: &Areas, register: u32, value: u32) -> (u32, usize) {
    refused(areas, |i, r, _| {
        reference::write_port(i, r, register, value)
    })
}

#[test]
fn the_largest_values() {
    let mut areas = holding([1_023, 1, 1_023, 1, u32::MAX]);
    assert_eq!(areas.run(0), Answer::accepted(0));
    assert_eq!(areas.write_port(2, 7), Answer::accepted(0));
    assert_eq!(areas.run(3), Answer::accepted(3));
}

#[test]
fn the_lowest_register_counts() {
    for (values, place) in [
        ([1_024, 0, 0, 0, 0], 0),
        ([2_048, 0, 0, 0, 0], 0),
        ([u32::MAX, 0, 0, 0, 0], 0),
        ([0, 2, 0, 0, 0], 1),
        ([0, 1 << 31, 0, 0, 0], 1),
        ([0, 0, 65_536, 0, 0], 2),
        ([0, 0, 1 << 24, 0, u32::MAX], 2),
        ([0, 0, 0, 3, 0], 3),
        ([1_023, 2, 1_024, 2, 0], 1),
        ([1_024, 2, 1_024, 2, u32::MAX], 0),
    ] {
        let areas = holding(values);
        // 14 before 15.
        for cycles in [0, 1, 1_000_000, 1_000_001] {
            assert_eq!(refused_run(&areas, cycles), (14, place));
        }
        // Any port, no port and no register, a value that fits and one that does not.
        for (register, value) in [(2, 0), (3, 1), (2, 1_024), (0, 0), (0, 1_024), (5, 0)] {
            assert_eq!(refused_write(&areas, register, value), (14, place));
        }
    }
}

#[test]
fn contents_before_targets() {
    let mut areas = holding([0, 0, 0, 2, 0]);
    areas.set_targets(&[0, 0, 0, 0]);
    assert_eq!(refused_run(&areas, 0), (14, 3));
    assert_eq!(refused_run(&areas, 1), (14, 3));
    // Port write does not look at the targets.
    assert_eq!(refused_write(&areas, 2, 1), (14, 3));
    areas.set_values(&[0; 5]);
    assert_eq!(refused_run(&areas, 0), (14, 0));
    areas.targets[0] = 1;
    assert_eq!(refused_run(&areas, 0), (14, 1));
}

#[test]
fn lengths_before_contents() {
    let mut areas = holding([0, 0, 0, 2, 0]);
    areas.targets.pop();
    assert_eq!(refused_run(&areas, 0), (14, 0));
    areas = holding([0, 0, 0, 2, 0]);
    areas.registers.pop();
    assert_eq!(refused_run(&areas, 1), (14, 0));
    assert_eq!(refused_write(&areas, 2, 1), (14, 0));
    areas = holding([0, 0, 0, 2, 0]);
    areas.registers.extend([0; 4]);
    assert_eq!(refused_run(&areas, 1), (14, 0));
    assert_eq!(refused_write(&areas, 2, 1), (14, 0));
}

#[test]
fn reset_puts_contents_right() {
    let mut areas = holding([u32::MAX; 5]);
    areas.targets.fill(255);
    let answer = reference::reset(&areas.image, &mut areas.registers, &mut areas.targets);
    assert_eq!(answer, Answer::accepted(0));
    assert_eq!(areas.values(), [1_022, 0, 1_023, 0, 0]);
    assert_eq!(areas.run(1), Answer::accepted(1));
}

#[test]
fn port_values() {
    let mut areas = Areas::reset(&valve());
    for (register, value) in [(2, 1_024), (2, 1_025), (2, 2_047), (3, 2), (3, 3)] {
        let verdict = (17, register as usize);
        assert_eq!(refused_write(&areas, register, value), verdict);
        for value in [1 << 31, u32::MAX] {
            assert_eq!(refused_write(&areas, register, value), verdict);
        }
    }
    assert_eq!(areas.write_port(2, 1_023), Answer::accepted(0));
    assert_eq!(areas.write_port(3, 1), Answer::accepted(0));
    assert_eq!(areas.values(), [1_022, 0, 1_023, 1, 0]);
    assert_eq!(areas.write_port(2, 0), Answer::accepted(0));
    assert_eq!(areas.values(), [1_022, 0, 0, 1, 0]);
    // No value is too large for 32 bits.
    let mut areas = Areas::reset(&lease());
    assert_eq!(areas.write_port(1, u32::MAX), Answer::accepted(0));
}

#[test]
fn thirteen_before_seventeen() {
    let areas = Areas::reset(&valve());
    for value in [1_023, 1_024, u32::MAX] {
        assert_eq!(refused_write(&areas, 0, value), (13, 0));
        assert_eq!(refused_write(&areas, 1, value), (13, 1));
        assert_eq!(refused_write(&areas, 5, value), (13, 5));
    }
}

#[test]
fn image_checks_before_contents() {
    let mut areas = holding([1_024; 5]);
    areas.image.pop();
    assert_eq!(refused_run(&areas, 1), (1, 0));
    assert_eq!(refused_write(&areas, 2, 1_024), (1, 0));
}
