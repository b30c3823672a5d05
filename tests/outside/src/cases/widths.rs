//! Registers with a width, request E2: what an assignment stores and a read gives.

use super::{computed, listed, Areas};
use crate::designs::{
    copied, one_operation, seen_by_the_child, tests_one_more, two_groups, valve, with_width,
};

const ADD: u8 = 2;
const SUBTRACT: u8 = 3;
const LESS: u8 = 8;

/// left (kind) right, stored in a register of this width.
fn stored(width: u8, kind: u8, left: u32, right: u32) -> u32 {
    computed(&with_width(one_operation(kind), 0, width), left, right)
}

#[test]
fn an_assignment_is_cut() {
    for (width, value, expected) in [
        (1, 1, 1),
        (1, 2, 0),
        (1, 3, 1),
        (2, 7, 3),
        (8, 255, 255),
        (8, 256, 0),
        (8, 0x1234_5678, 0x78),
        (10, 1_023, 1_023),
        (10, 1_024, 0),
        (10, 1_025, 1),
        (10, u32::MAX, 1_023),
        (16, 0x1234_5678, 0x5678),
        (31, (1 << 31) - 1, (1 << 31) - 1),
        (31, 1 << 31, 0),
        (32, 1 << 31, 1 << 31),
        (32, u32::MAX, u32::MAX),
    ] {
        assert_eq!(stored(width, ADD, value, 0), expected, "{width} {value}");
    }
}

#[test]
fn sums_and_differences_wrap_at_the_width() {
    assert_eq!(stored(10, ADD, 1_023, 1), 0);
    assert_eq!(stored(10, ADD, 1_023, 1_023), 1_022);
    assert_eq!(stored(32, ADD, u32::MAX, 1), 0);
    assert_eq!(stored(1, SUBTRACT, 0, 1), 1);
    assert_eq!(stored(10, SUBTRACT, 0, 1), 1_023);
    assert_eq!(stored(31, SUBTRACT, 0, 1), (1 << 31) - 1);
    assert_eq!(stored(32, SUBTRACT, 0, 1), u32::MAX);
    assert_eq!(stored(1, LESS, 5, 6), 1);
}

/// Every width: the value below its bound stays, the bound itself becomes 0.
#[test]
fn every_width() {
    for width in 1..=32 {
        let most = ((1u64 << width) - 1) as u32;
        assert_eq!(stored(width, ADD, most, 0), most);
        assert_eq!(stored(width, ADD, most, 1), 0);
        assert_eq!(stored(width, SUBTRACT, 0, 1), most);
    }
}

#[test]
fn the_next_read_sees_the_cut() {
    for (width, number, expected) in [
        (10, 1_029, [5, 5]),
        (10, u32::MAX, [1_023, 1_023]),
        (1, 2, [0, 0]),
        (32, u32::MAX, [u32::MAX; 2]),
    ] {
        let mut areas = Areas::reset(&copied(width, number));
        areas.run(1);
        assert_eq!(areas.values(), expected);
    }
}

/// Only what is stored is cut: values between have 32 bits.
#[test]
fn expressions_are_not_cut() {
    let narrow_ports = with_width(with_width(one_operation(ADD), 1, 10), 2, 1);
    let mut areas = Areas::reset(&narrow_ports);
    assert_eq!(areas.write_port(1, 1_023).number, 0);
    assert_eq!(areas.write_port(2, 1).number, 0);
    areas.run(1);
    assert_eq!(areas.values(), [1_024, 1_023, 1]);
}

#[test]
fn conditions() {
    let target = |table| {
        let mut areas = Areas::reset(&table);
        areas.run(1);
        areas.targets[0]
    };
    // State 2 if r0 is not 0 when the child reads it.
    let child = |number| with_width(seen_by_the_child(number), 0, 10);
    assert_eq!(target(child(1_023)), 2);
    assert_eq!(target(child(1_024)), 1);
    assert_eq!(target(child(1_025)), 2);
    assert_eq!(target(child(2_048)), 1);
    // 1,023 + 1 is not 0, though r0 could not hold it.
    assert_eq!(target(tests_one_more(10)), 2);
    assert_eq!(target(tests_one_more(1)), 2);
    assert_eq!(target(tests_one_more(32)), 1);
}

#[test]
fn the_valve() {
    let expected = "cycle;walk;registers\n\
                    1;0 1;1023 0 1023 0 0\n\
                    2;0 1;0 0 1023 0 0\n\
                    3;0 2 3;1023 1 1023 0 4294967295\n\
                    4;0 2;1022 0 1023 0 4294967295\n\
                    5;0 1;1023 0 1023 0 4294967295\n";
    assert_eq!(listed(&valve(), 5), expected);
}

/// Where no value comes near the bound a width changes nothing.
#[test]
fn wide_enough() {
    let mut wide = Areas::reset(&two_groups());
    let narrow = with_width(with_width(two_groups(), 0, 2), 1, 1);
    let mut narrow = Areas::reset(&narrow);
    for _ in 0..20 {
        assert_eq!(wide.walk(), narrow.walk());
        wide.run(1);
        narrow.run(1);
        assert_eq!(wide.values(), narrow.values());
    }
}
