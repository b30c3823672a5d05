//! What expressions come to, and when assignments show (P4 among them).

use super::{computed, Areas};
use crate::designs::{assigns_twice, lease, one_operation, seen_by_the_child, three_levels};

/// left (kind) right.
fn result(kind: u8, left: u32, right: u32) -> u32 {
    computed(&one_operation(kind), left, right)
}

#[test]
fn operations() {
    assert_eq!(result(2, u32::MAX, 2), 1);
    assert_eq!(result(4, 12, 10), 8);
    assert_eq!(result(5, 12, 10), 14);
    assert_eq!(result(6, 12, 10), 6);
    assert_eq!(result(7, 5, 5), 1);
    assert_eq!(result(7, 5, 6), 0);
    assert_eq!(result(8, 5, u32::MAX), 1);
    assert_eq!(result(8, u32::MAX, 5), 0);
    assert_eq!(result(8, 5, 5), 0);
}

#[test]
fn p4_subtracting_wraps() {
    assert_eq!(result(3, 0, 1), 4_294_967_295);
}

#[test]
fn an_assignment_shows_at_the_next_read() {
    let mut areas = Areas::reset(&seen_by_the_child(7));
    areas.run(1);
    assert_eq!(areas.targets[0], 2);
    let mut areas = Areas::reset(&assigns_twice());
    areas.run(1);
    assert_eq!(areas.values(), [2]);
}

/// Old choices below the state that a goto names are cleared, and no others.
#[test]
fn a_goto_clears_grandchildren() {
    let mut areas = Areas::reset(&three_levels());
    areas.set_targets(&[2, 4, 8, 6, 4, 5, 6, 7, 8]);
    assert_eq!(areas.run(1).count, 1);
    assert_eq!(areas.only_targets(), [1, 3, 8, 5, 4, 5, 6, 7, 8]);
}

#[test]
fn a_run_of_no_cycles_changes_nothing() {
    let mut areas = Areas::reset(&lease());
    let (registers, targets) = (areas.registers.clone(), areas.targets.clone());
    assert_eq!(areas.run(0), crate::answer::Answer::accepted(0));
    assert_eq!((areas.registers, areas.targets), (registers, targets));
}
