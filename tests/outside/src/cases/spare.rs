//! Spare children, request E4.

use super::Areas;
use crate::designs::{group, spare_child};
use crate::generate::random::Random;
use crate::generate::{design, Size};
use crate::table::Table;

/// r0 after one cycle with this r1 and these targets.
fn r0_after(targets: [u8; 4], r1: u32) -> u32 {
    let mut areas = Areas::reset(&spare_child());
    areas.set_targets(&targets);
    assert_eq!(areas.write_port(1, r1).number, 0);
    assert_eq!(areas.run(1).count, 1);
    areas.values()[0]
}

/// The lent targets are sound, but no run from reset leaves them.
#[test]
fn why_from_reset() {
    let from_reset = Areas::reset(&spare_child());
    assert_eq!(from_reset.only_targets(), [1, 2, 2, 3]);
    assert_eq!([0, 1].map(|r1| r0_after([1, 2, 2, 3], r1)), [0, 0]);
    assert_eq!([0, 1].map(|r1| r0_after([1, 3, 2, 3], r1)), [0, 1]);
}

/// Small designs, with room for groups.
const SIZE: Size = Size {
    labels: 5,
    registers: 5,
    states: 12,
    commands: 40,
    expressions: 40,
};

#[test]
fn a_fall_comes_to_the_default_child() {
    let areas = Areas::reset(&group(Table::fall, &[1, 0, 2]));
    assert_eq!(areas.only_targets(), [1, 2, 2, 3, 4]);
    assert_eq!(areas.walk(), [0, 1, 2]);
}

/// Every state of a walk is at or above the one before it, from reset; and not so from other targets.
#[test]
fn from_reset_no_walk_comes_down() {
    let mut random = Random::new(21);
    let mut down = 0;
    for _ in 0..300 {
        let table = design(&mut random, SIZE);
        let mut areas = Areas::reset(&table);
        for _ in 0..20 {
            assert!(!comes_down(&table, &areas.walk()));
            assert_eq!(areas.run(1).count, 1);
        }
        let states = table.states.len();
        for (state, target) in areas.targets[..states].iter_mut().enumerate() {
            let mut children = table.children(state).into_iter();
            let low = children.find(|&child| comes_down(&table, &[state as u8, child]));
            *target = low.unwrap_or(*target);
        }
        down += usize::from(comes_down(&table, &areas.walk()));
    }
    assert!(down >= 10, "{down} of 300 walks came down");
}

fn comes_down(table: &Table, walk: &[u8]) -> bool {
    let label = |state: u8| table.states[usize::from(state)].label;
    walk.windows(2)
        .any(|pair| !table.flows(label(pair[0]), label(pair[1])))
}
