//! States with parameters, request E8.

use super::{count_down, count_up, is_zero};
use crate::table::Table;

/// The bytes that name the parameters in scope, and those that stand for their labels.
pub const P: u8 = 64;
pub const Q: u8 = 65;
pub const LABEL_OF_P: u8 = 16;
pub const LABEL_OF_Q: u8 = 17;

/// Figure 2(c) of document 004: `two_groups` with one body for both groups. Ports are never passed, so the
/// root takes them over into r4, high, and r5. Ports, timer and mode are numbered as there. State 2 takes
/// what its children 3 and 4 read, and these have its label.
pub fn one_group() -> Table {
    let mut table = Table::new(&[3, 2]);
    let timer = table.inner(0, 3, 32);
    let mode = table.inner(0, 0, 32);
    let ports = [table.port(1, 0, 32), table.port(0, 0, 32)];
    let data = [table.inner(1, 0, 32), table.inner(0, 0, 32)];

    let mut body = table.fall();
    for (to, from) in data.into_iter().zip(ports).rev() {
        let value = table.read(from);
        let take = table.assign(to, value);
        body = table.sequence(take, body);
    }
    table.state(0, 0, body);

    let three = table.constant(3);
    let set = table.assign(timer, three);
    let condition = is_zero(&mut table, mode);
    let [then, otherwise] = [(1, data[0]), (0, data[1])].map(|(value, passed)| {
        let value = table.constant(value);
        let set = table.assign(mode, value);
        let go = table.goto_with(2, &[passed]);
        table.sequence(set, go)
    });
    let choice = table.branch(condition, then, otherwise);
    let body = table.sequence(set, choice);
    table.state(0, 0, body);

    let count = count_down(&mut table, timer);
    let condition = is_zero(&mut table, timer);
    let go = table.goto(1);
    let fall = table.fall();
    let choice = table.branch(condition, go, fall);
    let body = table.sequence(count, choice);
    let group = table.state(0, 0, body);
    table.takes(group, &[(0, 1)]);

    for (state, other) in [(3, 4), (4, 3)] {
        let condition = is_zero(&mut table, P);
        let then = table.goto(other);
        let otherwise = table.goto(state);
        let body = table.branch(condition, then, otherwise);
        table.state(group, LABEL_OF_P, body);
    }
    table
}

/// r0 is low, r1 high and of 4 bits, r2 a low port. State 0 falls. 1 (parent 0): goto 2(r0, r1). 2 (parent
/// 0) takes p and q, both of any label: p := p + 1; if r2 then goto 2(q, p) else goto 2(p, q).
pub fn exchange() -> Table {
    let mut table = Table::new(&[3, 2]);
    let low = table.inner(0, 0, 32);
    let high = table.inner(1, 14, 4);
    let switch = table.port(0, 0, 1);
    let body = table.fall();
    table.state(0, 0, body);
    let body = table.goto_with(2, &[low, high]);
    table.state(0, 0, body);
    let count = count_up(&mut table, P);
    let condition = table.read(switch);
    let then = table.goto_with(2, &[Q, P]);
    let otherwise = table.goto_with(2, &[P, Q]);
    let choice = table.branch(condition, then, otherwise);
    let body = table.sequence(count, choice);
    table.state(0, 0, body);
    table.takes(2, &[(0, 1), (0, 1)]);
    table
}

/// Two parameters along a line, over labels 0, 1 and 2 beside 1, and 3. r0 to r3 are inner, of these
/// labels; r4 is a low port. State 0 falls. 1 (parent 0): if r4 then goto 2(r1) else goto 2(r2). 2 (parent 0)
/// takes p and has its label: fall. 3 (parent 2), of the same label: if p then goto 4(r3) else goto 4(p). 4
/// (parent 2) takes q, at or above 0, and has its label: q := q + 1; goto 4(q). 5 (parent 4) is spare.
pub fn line() -> Table {
    let mut table = Table::new(&[15, 10, 12, 8]);
    for label in 0..4 {
        table.inner(label, u32::from(label) % 2, 8);
    }
    let switch = table.port(0, 0, 32);
    let body = table.fall();
    table.state(0, 0, body);
    let condition = table.read(switch);
    let then = table.goto_with(2, &[1]);
    let otherwise = table.goto_with(2, &[2]);
    let body = table.branch(condition, then, otherwise);
    table.state(0, 0, body);
    let body = table.fall();
    table.state(0, LABEL_OF_P, body);
    table.takes(2, &[(0, 3)]);
    let condition = table.read(P);
    let then = table.goto_with(4, &[3]);
    let otherwise = table.goto_with(4, &[P]);
    let body = table.branch(condition, then, otherwise);
    table.state(2, LABEL_OF_P, body);
    let count = count_up(&mut table, Q);
    let go = table.goto_with(4, &[Q]);
    let body = table.sequence(count, go);
    table.state(2, LABEL_OF_Q, body);
    table.takes(4, &[(0, 3)]);
    let body = table.goto(5);
    table.state(4, 0, body);
    table
}

/// What is bound is decided out of sight. r0 is low, r1 and r2 are high, r3 a high port. State 0 falls. 1
/// (parent 0): r0 := r0 + 1; fall. 2 (parent 1, label 1): if r3 then goto 3(r1) else goto 3(r2). 3 (parent 1)
/// takes p, which is high, and has its label: p := p + 1; if r3 then goto 3(p) else goto 2.
pub fn hidden_choice() -> Table {
    let mut table = Table::new(&[3, 2]);
    let count = table.inner(0, 0, 32);
    let one = table.inner(1, 0, 8);
    let other = table.inner(1, 0, 1);
    let switch = table.port(1, 0, 1);
    let body = table.fall();
    table.state(0, 0, body);
    let first = count_up(&mut table, count);
    let second = table.fall();
    let body = table.sequence(first, second);
    table.state(0, 0, body);
    let condition = table.read(switch);
    let then = table.goto_with(3, &[one]);
    let otherwise = table.goto_with(3, &[other]);
    let body = table.branch(condition, then, otherwise);
    table.state(1, 1, body);
    let first = count_up(&mut table, P);
    let condition = table.read(switch);
    let then = table.goto_with(3, &[P]);
    let otherwise = table.goto(2);
    let second = table.branch(condition, then, otherwise);
    let body = table.sequence(first, second);
    table.state(1, LABEL_OF_P, body);
    table.takes(3, &[(1, 1)]);
    table
}
