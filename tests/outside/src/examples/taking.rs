//! Frames for designs with parameters.

use super::changed;
use crate::designs::parameters::{P, Q};
use crate::table::Table;

/// The bounds of a parameter of any label.
pub const ANY: (u8, u8) = (0, 3);

/// Labels 1 and 2 cannot be compared, 3 is above both. r0 to r3 are inner, of labels 0 to 3; r4 is a port of
/// label 0 and r5 one of label 3. State 0 falls. 1 (parent 0): goto 2 with these arguments, command 1. 2
/// (parent 0) has this label and takes parameters of these bounds: goto 2 with the same, command 2.
pub fn taking(bounds: &[(u8, u8)], label: u8, arguments: &[u8]) -> Table {
    body_of_2(bounds, label, arguments, |table| {
        table.goto_with(2, &[P, Q][..bounds.len()])
    })
}

/// The same with another body of state 2, whose nodes begin with command 2.
pub fn body_of_2(
    bounds: &[(u8, u8)],
    label: u8,
    arguments: &[u8],
    body: impl FnOnce(&mut Table) -> u16,
) -> Table {
    let mut table = Table::new(&[15, 10, 12, 8]);
    for label in 0..4 {
        table.inner(label, 0, 32);
    }
    table.port(0, 0, 32);
    table.port(3, 0, 32);
    let fall = table.fall();
    table.state(0, 0, fall);
    let go = table.goto_with(2, arguments);
    table.state(0, 0, go);
    let body = body(&mut table);
    table.state(0, label, body);
    table.takes(2, bounds);
    table
}

/// State 3 is the default child of 2, which goes to itself or falls.
pub fn below(body: impl FnOnce(&mut Table) -> u16) -> Table {
    changed(body_of_2(&[], 0, &[], body), |table| {
        let go = table.goto(3);
        table.state(2, 0, go);
    })
}

/// State 2 takes so many, its second child 4 so many more, and the second child 6 of that some again.
pub fn nested(of_2: usize, of_4: usize, of_6: usize) -> Table {
    let both = [ANY, ANY];
    let mut table = body_of_2(&both[..of_2], 0, &[0, 1][..of_2], |table| {
        table.goto_with(2, &[P, Q][..of_2])
    });
    for (parent, taken, outer) in [(2, of_4, of_2), (4, of_6, of_2 + of_4)] {
        let go = table.goto(table.states.len() as u8);
        table.state(parent, 0, go);
        let own = table.states.len() as u8;
        let first = (P + outer as u8).min(Q);
        let arguments: Vec<u8> = (0..taken as u8).map(|i| (first + i).min(Q)).collect();
        let go = table.goto_with(own, &arguments);
        table.state(parent, 0, go);
        table.takes(own, &both[..taken]);
    }
    table
}

/// State 2 of label 0 with these bounds: one register byte := another; goto 2.
pub fn copies(bounds: &[(u8, u8)], to: u8, from: u8) -> Table {
    let arguments = &[0, 0][..bounds.len()];
    body_of_2(bounds, 0, arguments, |table| {
        let value = table.read(from);
        let assign = table.assign(to, value);
        let go = table.goto_with(2, &[P, Q][..bounds.len()]);
        table.sequence(assign, go)
    })
}

/// State 1 passes these fields to state 2.
pub fn passes(bounds: &[(u8, u8)], a: u16, b: u16) -> Table {
    changed(taking(bounds, 0, &[]), |table| {
        (table.commands[1].a, table.commands[1].b) = (a, b);
    })
}
