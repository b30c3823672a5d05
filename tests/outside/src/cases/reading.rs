//! Flow faults in reading order, request E7.

use super::listed;
use crate::designs::fall_before_assignment;
use crate::generate::random::Random;
use crate::generate::{design, faults, Size};
use crate::reference;

#[test]
fn listing_of_a_fall_before_an_assignment() {
    let mut table = fall_before_assignment();
    assert_eq!(listed(&table, 4), "refused;12;4\n");
    // The branches change places.
    let body = &mut table.commands[5];
    (body.b, body.c) = (body.c, body.b);
    assert_eq!(listed(&table, 4), "refused;10;1\n");
}

/// How the nodes are numbered does not matter to what is shown, only to its place.
#[test]
fn another_numbering_shows_the_same_command() {
    let mut random = Random::new(24);
    let mut moved = 0;
    for _ in 0..500 {
        let size = Size::random(&mut random);
        let mut table = faults::leaking(&design(&mut random, size), &mut random);
        let before = reference::check(&table.image());
        let numbers = table.renumber(&mut random);
        let after = reference::check(&table.image());
        assert_eq!(after.number, before.number);
        if (10..=12).contains(&before.number) {
            assert_eq!(after.place, usize::from(numbers[before.place]));
            moved += usize::from(after.place != before.place);
        }
    }
    assert!(moved >= 100, "{moved} of 500 moved");
}
