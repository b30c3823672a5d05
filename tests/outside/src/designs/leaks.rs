//! A frame for bodies with faults in their flow, which request E7 shows in reading order.

use super::{add_children, set_and_go};
use crate::table::Table;

/// r0 is low and inner, r1 a high port. State 0 falls. 1 and 2 (parent 0) have the bodies given, whose
/// nodes start at 1. 3 (parent 1), 4 (parent 2) and 5 (parent 0, label 1) go to themselves: so each
/// body may fall, and may go to 5 in an if over r1.
pub fn two_bodies(bodies: impl FnOnce(&mut Table) -> [u16; 2]) -> Table {
    let mut table = Table::new(&[3, 2]);
    table.inner(0, 0, 32);
    table.port(1, 0, 32);
    let fall = table.fall();
    table.state(0, 0, fall);
    for body in bodies(&mut table) {
        table.state(0, 0, body);
    }
    add_children(&mut table, 1, &[0]);
    add_children(&mut table, 2, &[0]);
    add_children(&mut table, 0, &[1]);
    table
}

/// State 1: if r1 then fall else r0 := 1; goto 5. 12 is read before 10 and has the higher node, 4.
pub fn fall_before_assignment() -> Table {
    two_bodies(|table| {
        let otherwise = set_and_go(table, 0, 1, 5);
        let then = table.fall();
        let condition = table.read(1);
        [table.branch(condition, then, otherwise), table.goto(2)]
    })
}
