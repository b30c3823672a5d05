//! Groups with spare children, which request E4 leaves any label.

use super::set_and_go;
use crate::table::Table;

/// r0 is low, r1 a high port. State 0 falls. 1 (parent 0, label 1): if r1 then fall else goto 1. 2
/// (parent 1, label 1): goto 2. 3 (parent 1, label 0) is spare: r0 := 1; goto 3.
pub fn spare_child() -> Table {
    let mut table = Table::new(&[3, 2]);
    let low = table.inner(0, 0, 32);
    let high = table.port(1, 0, 32);
    let body = table.fall();
    table.state(0, 0, body);
    let condition = table.read(high);
    let then = table.fall();
    let otherwise = table.goto(1);
    let body = table.branch(condition, then, otherwise);
    table.state(0, 1, body);
    let body = table.goto(2);
    table.state(1, 1, body);
    let body = set_and_go(&mut table, low, 1, 3);
    table.state(1, 0, body);
    table
}

/// Root falls; state 1 is a group with this body, and the states of these labels from 2 on are its
/// children. Label 2 cannot be compared with 1, the group's, and 3 is above both. r0 is low and inner,
/// r1 a port of label 1.
pub fn group(body: impl Fn(&mut Table) -> u16, labels: &[u8]) -> Table {
    let mut table = Table::new(&[15, 10, 12, 8]);
    table.inner(0, 0, 32);
    table.port(1, 0, 32);
    let fall = table.fall();
    table.state(0, 0, fall);
    let body = body(&mut table);
    add_group(&mut table, body, labels);
    table
}

/// A state of label 1 below the root with this body, and its children.
pub fn add_group(table: &mut Table, body: u16, labels: &[u8]) {
    let group = table.state(0, 1, body);
    add_children(table, group, labels);
}

/// A state below the parent for each label, which goes to itself.
pub fn add_children(table: &mut Table, parent: u8, labels: &[u8]) {
    for &label in labels {
        let body = table.goto(table.states.len() as u8);
        table.state(parent, label, body);
    }
}
