//! A level sensor that reports below zero, as request E3 has it.

use super::count_up;
use crate::table::Table;

/// r0 is the level, a high port with -20 at reset; r1 its mean, r2 its trend and r3 a count of alarms, of
/// 4 bits, are high too; r4 counts the cycles. State 0: r4 := r4 + 1; fall. 1 (parent 0, label 1):
/// r2 := (r0 - r1) / 4; r1 := (r1 + r0) >> 1; if r1 < -16 then goto 2 else goto 1. 2 (parent 0, label
/// 1): r3 := r3 + 1; goto 1. All three operations are signed.
pub fn level() -> Table {
    let mut table = Table::new(&[3, 2]);
    let level = table.port(1, below_zero(20), 32);
    let mean = table.inner(1, 0, 32);
    let trend = table.inner(1, 0, 32);
    let alarms = table.inner(1, 0, 4);
    let cycles = table.inner(0, 0, 32);

    let count = count_up(&mut table, cycles);
    let fall = table.fall();
    let body = table.sequence(count, fall);
    table.state(0, 0, body);

    let left = table.read(level);
    let right = table.read(mean);
    let difference = table.subtract(left, right);
    let four = table.constant(4);
    let quarter = table.divide(difference, four);
    let first = table.assign(trend, quarter);
    let left = table.read(mean);
    let right = table.read(level);
    let sum = table.add(left, right);
    let one = table.constant(1);
    let half = table.shift(sum, one);
    let second = table.assign(mean, half);
    let both = table.sequence(first, second);
    let left = table.read(mean);
    let right = table.constant(below_zero(16));
    let condition = table.signed_less(left, right);
    let then = table.goto(2);
    let otherwise = table.goto(1);
    let choice = table.branch(condition, then, otherwise);
    let body = table.sequence(both, choice);
    table.state(0, 1, body);

    let count = count_up(&mut table, alarms);
    let go = table.goto(1);
    let body = table.sequence(count, go);
    table.state(0, 1, body);
    table
}

fn below_zero(number: u32) -> u32 {
    number.wrapping_neg()
}
