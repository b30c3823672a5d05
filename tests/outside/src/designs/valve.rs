//! A valve: a position of 10 bits and flags of 1, as request E2 has them.

use super::{count_down, count_up};
use crate::table::Table;

/// r0 is the position, r1 a flag, r2 and r3 are ports of the same widths, and r4 is a high count of 32
/// bits. State 0 falls. 1 (parent 0): r0 := r0 + 1; if r0 then goto 1 else goto 2. 2 (parent 0):
/// r1 := r1 + 1; r0 := r0 - 1; if r1 then fall else goto 1. 3 (parent 2, label 1): r4 := r4 - 1;
/// if r3 then goto 3 else goto 3.
pub fn valve() -> Table {
    let mut table = Table::new(&[3, 2]);
    let position = table.inner(0, 1_022, 10);
    let flag = table.inner(0, 0, 1);
    table.port(0, 1_023, 10);
    let switch = table.port(1, 0, 1);
    let count = table.inner(1, 0, 32);

    let body = table.fall();
    table.state(0, 0, body);

    let raise = count_up(&mut table, position);
    let condition = table.read(position);
    let same = table.goto(1);
    let next = table.goto(2);
    let choice = table.branch(condition, same, next);
    let body = table.sequence(raise, choice);
    table.state(0, 0, body);

    let turn = count_up(&mut table, flag);
    let lower = count_down(&mut table, position);
    let both = table.sequence(turn, lower);
    let condition = table.read(flag);
    let fall = table.fall();
    let back = table.goto(1);
    let choice = table.branch(condition, fall, back);
    let body = table.sequence(both, choice);
    table.state(0, 0, body);

    let lower = count_down(&mut table, count);
    let condition = table.read(switch);
    let then = table.goto(3);
    let otherwise = table.goto(3);
    let choice = table.branch(condition, then, otherwise);
    let body = table.sequence(lower, choice);
    table.state(2, 1, body);
    table
}
