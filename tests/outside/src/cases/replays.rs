//! Replays of a port trace, request E10: worked examples, and refusals 23, 13 and 17 by the record. A refusal
//! changes no lent byte.

use super::{refused, Areas};
use crate::answer::Answer;
use crate::designs::{lease, one_group, smallest, two_groups, valve};
use crate::reference;
use crate::table::Table;
use crate::trace::{divided, Record};

/// r1 and r2 are ports of 4 bits and of 1. In each cycle r0 := 16 r0 + r1 and r3 := 2 r3 + r2, in the root, which
/// then falls: r0 shows in hex, r3 in binary, what stood in the port in each cycle.
fn recorder() -> Table {
    let mut table = Table::new(&[1]);
    let digits = table.inner(0, 0, 32);
    let digit = table.port(0, 0, 4);
    let bit = table.port(0, 0, 1);
    let bits = table.inner(0, 0, 32);
    let mut body = table.fall();
    for (register, port, doublings) in [(digits, digit, 4), (bits, bit, 1)] {
        let add = add_to(&mut table, register, port);
        body = table.sequence(add, body);
        for _ in 0..doublings {
            let double = add_to(&mut table, register, register);
            body = table.sequence(double, body);
        }
    }
    table.state(0, 0, body);
    let body = table.goto(1);
    table.state(0, 0, body);
    table
}

fn add_to(table: &mut Table, register: u8, other: u8) -> u16 {
    let left = table.read(register);
    let right = table.read(other);
    let sum = table.add(left, right);
    table.assign(register, sum)
}

fn trace(records: &[(u32, u32, u32)]) -> Vec<Record> {
    let records = records.iter();
    records
        .map(|&(cycle, register, value)| Record::new(cycle, register, value))
        .collect()
}

fn replay(areas: &mut Areas, records: &[(u32, u32, u32)], cycles: u32) -> Answer {
    let Areas {
        image,
        registers,
        targets,
    } = areas;
    reference::replay(image, registers, targets, &trace(records), cycles)
}

/// The values after a replay from reset, and how many records were superseded.
fn recorded(records: &[(u32, u32, u32)], cycles: u32) -> (Vec<u32>, usize) {
    let mut areas = Areas::reset(&recorder());
    let answer = replay(&mut areas, records, cycles);
    assert_eq!(answer.number, 0);
    (areas.values(), answer.count)
}

/// Number and place of a refusal, which leaves both areas alone.
fn refused_replay(areas: &Areas, records: &[(u32, u32, u32)], cycles: u32) -> (u32, usize) {
    refused(areas, |image, registers, targets| {
        reference::replay(image, registers, targets, &trace(records), cycles)
    })
}

/// Of the recorder after a reset.
fn not_recorded(records: &[(u32, u32, u32)], cycles: u32) -> (u32, usize) {
    refused_replay(&Areas::reset(&recorder()), records, cycles)
}

/// Port writes and single cycles.
fn by_hand(areas: &mut Areas, records: &[(u32, u32, u32)], cycles: u32) {
    for cycle in 0..cycles {
        for &(_, register, value) in records.iter().filter(|record| record.0 == cycle) {
            assert_eq!(areas.write_port(register, value), Answer::accepted(0));
        }
        assert_eq!(areas.run(1), Answer::accepted(1));
    }
}

#[test]
fn records_are_applied_before_their_cycle() {
    let records = [(0, 1, 1), (1, 1, 2), (3, 1, 4)];
    assert_eq!(recorded(&records, 4), (vec![0x1224, 4, 0, 0], 0));
    // A port keeps its value after the last record.
    assert_eq!(recorded(&records, 6), (vec![0x12_2444, 4, 0, 0], 0));
    // In the last cycle of all, and in one cycle alone.
    assert_eq!(recorded(&[(2, 1, 7)], 3), (vec![7, 7, 0, 0], 0));
    assert_eq!(recorded(&[(0, 1, 7)], 1), (vec![7, 7, 0, 0], 0));
    // Two ports.
    let records = [(0, 2, 1), (1, 1, 5), (1, 2, 0), (2, 2, 1)];
    assert_eq!(recorded(&records, 3), (vec![0x055, 5, 1, 0b101], 0));
}

#[test]
fn ports_that_no_record_names_stay() {
    let mut areas = Areas::reset(&recorder());
    areas.write_port(1, 9);
    assert_eq!(replay(&mut areas, &[(1, 2, 1)], 2), Answer::accepted(0));
    assert_eq!(areas.values(), [0x99, 9, 1, 0b01]);
    assert_eq!(replay(&mut areas, &[(0, 1, 3)], 1), Answer::accepted(0));
    assert_eq!(areas.values(), [0x993, 3, 1, 0b011]);
}

#[test]
fn without_records_it_is_a_run() {
    for table in [recorder(), lease(), two_groups(), valve(), smallest()] {
        for cycles in [0, 1, 2, 7] {
            let (mut replayed, mut run) = (Areas::reset(&table), Areas::reset(&table));
            assert_eq!(replay(&mut replayed, &[], cycles), Answer::accepted(0));
            assert_eq!(run.run(cycles).count, cycles as usize);
            assert_eq!(replayed.registers, run.registers);
            assert_eq!(replayed.targets, run.targets);
        }
    }
}

#[test]
fn the_later_of_two_supersedes_the_earlier() {
    assert_eq!(recorded(&[(0, 1, 1), (0, 1, 2)], 1).0, [2, 2, 0, 0]);
    assert_eq!(recorded(&[(0, 1, 2), (0, 1, 1)], 1).0, [1, 1, 0, 0]);
    let records = [(0, 1, 1), (1, 1, 5), (1, 1, 6), (1, 1, 7), (2, 1, 2)];
    assert_eq!(recorded(&records, 3), (vec![0x172, 2, 0, 0], 2));
    // With one for another port between them.
    let records = [(0, 1, 3), (0, 2, 1), (0, 1, 4)];
    assert_eq!(recorded(&records, 1), (vec![4, 4, 1, 1], 1));
}

#[test]
fn superseded_records_are_counted() {
    let count = |records: &[(u32, u32, u32)]| recorded(records, 4).1;
    assert_eq!(count(&[(0, 1, 1)]), 0);
    assert_eq!(count(&[(0, 1, 1), (0, 1, 2)]), 1);
    assert_eq!(count(&[(0, 1, 1), (0, 1, 2), (0, 1, 3)]), 2);
    assert_eq!(count(&[(3, 1, 1), (3, 1, 2)]), 1);
    // Also by the same value.
    assert_eq!(count(&[(0, 1, 1), (0, 1, 1)]), 1);
    // Not across cycles, and not across ports.
    assert_eq!(count(&[(0, 1, 1), (1, 1, 2)]), 0);
    assert_eq!(count(&[(0, 1, 1), (0, 2, 1)]), 0);
    assert_eq!(count(&[(0, 1, 1), (0, 2, 1), (0, 1, 2), (0, 2, 0)]), 2);
    assert_eq!(count(&[(0, 1, 1), (0, 1, 2), (2, 2, 1), (2, 2, 0)]), 2);
    let many = vec![(1, 1, 5); 1_000];
    assert_eq!(recorded(&many, 2), (vec![5, 5, 0, 0], 999));
}

#[test]
fn cycles_that_reach_n() {
    assert_eq!(recorded(&[(2, 1, 1)], 3).1, 0);
    for cycle in [3, 4, 256, 1_000_000, u32::MAX] {
        assert_eq!(not_recorded(&[(cycle, 1, 1)], 3), (23, 0));
        assert_eq!(not_recorded(&[(0, 1, 1), (cycle, 1, 1)], 3), (23, 1));
    }
    // The lowest of them.
    assert_eq!(not_recorded(&[(0, 1, 1), (3, 1, 1), (3, 1, 2)], 3), (23, 1));
    // No cycles have no records.
    assert_eq!(not_recorded(&[(0, 1, 1)], 0), (23, 0));
}

#[test]
fn cycles_that_fall() {
    assert_eq!(not_recorded(&[(1, 1, 1), (0, 1, 1)], 3), (23, 1));
    assert_eq!(not_recorded(&[(2, 1, 1), (1, 2, 1)], 3), (23, 1));
    assert_eq!(not_recorded(&[(0, 1, 1), (2, 1, 1), (1, 1, 1)], 3), (23, 2));
    // By the record before it alone: the third rises again.
    let records = [(2, 1, 1), (0, 1, 1), (1, 1, 1), (0, 1, 1)];
    assert_eq!(not_recorded(&records, 3), (23, 1));
    assert_eq!(recorded(&[(1, 1, 1), (1, 2, 1), (1, 1, 1)], 3).1, 1);
}

/// Of both the lowest record counts.
#[test]
fn cycles_that_fall_and_reach_n() {
    let falls_first = [(2, 1, 1), (1, 1, 1), (3, 1, 1)];
    assert_eq!(not_recorded(&falls_first, 3), (23, 1));
    // A record at n, and the fall behind it.
    let reaches_first = [(0, 1, 1), (3, 1, 1), (2, 1, 1), (1, 1, 1)];
    assert_eq!(not_recorded(&reaches_first, 3), (23, 1));
}

#[test]
fn registers_that_are_no_ports() {
    // Inner ones, the first number that is none, and such as are ports in their low bits.
    for register in [0, 3, 4, 64, 256 + 1, 65_536 + 1, (1 << 31) + 1, u32::MAX] {
        assert_eq!(not_recorded(&[(0, register, 0)], 1), (13, 0));
        let behind = [(0, 1, 1), (0, 2, 1), (0, register, 0)];
        assert_eq!(not_recorded(&behind, 1), (13, 2));
    }
    // Where a later record names the same.
    assert_eq!(not_recorded(&[(0, 1, 1), (0, 3, 0), (0, 3, 0)], 1), (13, 1));
    let none = Areas::reset(&smallest());
    assert_eq!(refused_replay(&none, &[(0, 0, 0)], 1), (13, 0));
}

#[test]
fn values_that_are_too_large() {
    assert_eq!(recorded(&[(0, 1, 15), (0, 2, 1)], 1).0, [15, 15, 1, 1]);
    for (register, value) in [(1, 16), (1, 256), (1, u32::MAX), (2, 2), (2, 3)] {
        assert_eq!(not_recorded(&[(0, register, value)], 1), (17, 0));
        let behind = [(0, 2, 0), (0, 1, 0), (1, 1, 1), (1, register, value)];
        assert_eq!(not_recorded(&behind, 2), (17, 3));
    }
    // Also of a record that would be superseded.
    assert_eq!(not_recorded(&[(0, 1, 16), (0, 1, 15)], 1), (17, 0));
    assert_eq!(not_recorded(&[(0, 1, 15), (0, 1, 16)], 1), (17, 1));
}

/// 13 and 17 are one pass: the lowest record that has either.
#[test]
fn the_lowest_bad_record() {
    assert_eq!(not_recorded(&[(0, 1, 16), (0, 0, 0)], 1), (17, 0));
    assert_eq!(not_recorded(&[(0, 0, 0), (0, 1, 16)], 1), (13, 0));
    assert_eq!(
        not_recorded(&[(0, 1, 0), (1, 1, 99), (1, 9, 0)], 2),
        (17, 1)
    );
    assert_eq!(
        not_recorded(&[(0, 1, 0), (1, 9, 99), (1, 1, 99)], 2),
        (13, 1)
    );
}

/// The image, 14, 15, 23, then 13 and 17.
#[test]
fn the_order_of_refusals() {
    let mut areas = Areas::reset(&recorder());
    // 23 of a later record, and of the same.
    let falls = [(0, 9, 0), (0, 1, 16), (1, 1, 1), (0, 1, 1)];
    assert_eq!(refused_replay(&areas, &falls, 2), (23, 3));
    let reaches = [(0, 1, 16), (0, 9, 0), (2, 9, 0)];
    assert_eq!(refused_replay(&areas, &reaches, 2), (23, 2));
    assert_eq!(refused_replay(&areas, &[(2, 1, 16)], 2), (23, 0));
    for records in [&falls[..], &reaches, &[(0, 9, 0)], &[(0, 1, 16)], &[]] {
        assert_eq!(refused_replay(&areas, records, 1_000_001), (15, 0));
        assert_eq!(refused_replay(&areas, records, u32::MAX), (15, 0));
    }
    areas.targets[1] = 0;
    assert_eq!(refused_replay(&areas, &falls, 1_000_001), (14, 1));
    assert_eq!(refused_replay(&areas, &falls, 2), (14, 1));
    assert_eq!(refused_replay(&areas, &[], 0), (14, 1));
    // Contents too large, also of a port that the first record would put right.
    areas.set_values(&[0, 0, 2, 0]);
    assert_eq!(refused_replay(&areas, &falls, 1_000_001), (14, 2));
    assert_eq!(refused_replay(&areas, &[(0, 2, 1)], 1), (14, 2));
    areas.registers.pop();
    assert_eq!(refused_replay(&areas, &falls, 1_000_001), (14, 0));
    areas.image.pop();
    assert_eq!(refused_replay(&areas, &falls, 1_000_001), (1, 0));
}

#[test]
fn the_longest_replay() {
    let records = [(0, 1, 1), (999_999, 1, 8), (999_999, 1, 9)];
    let (values, superseded) = recorded(&records, 1_000_000);
    assert_eq!((values, superseded), (vec![0x1111_1119, 9, 0, 0], 1));
    assert_eq!(not_recorded(&records, 999_999), (23, 1));
    assert_eq!(not_recorded(&records, 1_000_001), (15, 0));
}

/// Port writes and single cycles come to the same, and so does the trace divided at any cycle.
#[test]
fn by_hand_and_divided() {
    let two_ports = [(0, 2, 1), (0, 3, 1), (2, 2, 0), (2, 2, 5), (5, 3, 0)];
    for (table, records) in [
        (lease(), &[(1, 1, 7), (2, 1, 0), (2, 1, 1), (6, 1, 0)][..]),
        (two_groups(), &two_ports),
        (one_group(), &two_ports),
        (valve(), &[(0, 2, 3), (3, 3, 1), (3, 2, 1_023), (7, 3, 0)]),
        (recorder(), &[(0, 1, 1), (3, 2, 1), (3, 1, 2), (7, 1, 3)]),
    ] {
        let cycles = 8;
        let start = || Areas::reset(&table);
        let (mut whole, mut hand) = (start(), start());
        assert_eq!(replay(&mut whole, records, cycles).number, 0);
        by_hand(&mut hand, records, cycles);
        assert_eq!(whole.registers, hand.registers);
        assert_eq!(whole.targets, hand.targets);
        for cut in 0..=cycles {
            let (before, behind) = divided(&trace(records), cut);
            let mut parts = start();
            let Areas {
                image,
                registers,
                targets,
            } = &mut parts;
            let one = reference::replay(image, registers, targets, &before, cut);
            let other = reference::replay(image, registers, targets, &behind, cycles - cut);
            assert_eq!((one.number, other.number), (0, 0));
            assert_eq!(parts.registers, whole.registers);
            assert_eq!(parts.targets, whole.targets);
        }
    }
}
