//! The worked design with two groups.

use super::Areas;
use crate::designs::two_groups;

#[test]
fn two_groups_take_turns() {
    let mut areas = Areas::reset(&two_groups());
    let mut lines = Vec::new();
    for cycle in 1..=6 {
        if cycle == 3 {
            assert_eq!(areas.write_port(2, 1).number, 0);
        }
        let walk = areas.walk();
        assert_eq!(areas.run(1).count, 1);
        lines.push((walk, areas.values()));
        if cycle == 4 {
            assert_eq!(areas.only_targets(), [1, 1, 5, 6, 4, 5, 6, 7]);
        }
    }
    let expected: [(&[u8], [u32; 4]); 6] = [
        (&[0, 1], [3, 1, 0, 0]),
        (&[0, 2, 4], [2, 1, 0, 0]),
        (&[0, 2, 5], [1, 1, 1, 0]),
        (&[0, 2], [0, 1, 1, 0]),
        (&[0, 1], [3, 0, 1, 0]),
        (&[0, 3, 6], [2, 0, 1, 0]),
    ];
    for ((walk, values), (expected_walk, expected_values)) in lines.iter().zip(expected) {
        assert_eq!(walk, expected_walk);
        assert_eq!(*values, expected_values);
    }
}
