//! The worked designs: document 01's lease design, the one with two groups, a valve for request E2, a
//! level below zero for E3, a spare child for E4 and parameters for E8; and small ones, each for one sentence.

mod chain;
pub mod gates;
mod largest;
mod leaks;
mod level;
pub mod parameters;
mod small;
mod spare;
mod valve;

pub use chain::longest_chain;
pub use largest::{going_down, going_round, largest};
pub use leaks::{fall_before_assignment, two_bodies};
pub use level::level;
pub use parameters::{exchange, hidden_choice, line, one_group};
pub use small::{
    assigns_twice, copied, low_child, nested, nested_commands, nested_sums, one_operation,
    powers_of_ten, seen_by_the_child, tests_one_more, three_levels, three_states,
    timer_counted_by_a_high_state, timer_is_a_port, with_width,
};
pub use spare::{add_children, add_group, group, spare_child};
pub use valve::valve;

use crate::table::Table;

/// Document 01's lease design, with the widths of request E2 and the state records of E8: 235 bytes.
pub fn lease() -> Table {
    let mut table = Table::new(&[3, 2]);
    let timer = table.inner(0, 3, 32);
    let port = table.port(1, 0, 32);

    let body = table.fall();
    table.state(0, 0, body);

    let three = table.constant(3);
    let set = table.assign(timer, three);
    let go = table.goto(2);
    let body = table.sequence(set, go);
    table.state(0, 0, body);

    let count = count_down(&mut table, timer);
    let condition = table.read(timer);
    let fall = table.fall();
    let go = table.goto(1);
    let choice = table.branch(condition, fall, go);
    let body = table.sequence(count, choice);
    table.state(0, 0, body);

    let condition = table.read(port);
    let other = table.goto(4);
    let same = table.goto(3);
    let body = table.branch(condition, other, same);
    table.state(2, 1, body);

    let body = table.goto(3);
    table.state(2, 1, body);
    table
}

/// Figure 2(b) of document 004: the lease controller with two groups.
pub fn two_groups() -> Table {
    let mut table = Table::new(&[3, 2]);
    let timer = table.inner(0, 3, 32);
    let mode = table.inner(0, 0, 32);
    let high = table.port(1, 0, 32);
    let low = table.port(0, 0, 32);

    let body = table.fall();
    table.state(0, 0, body);

    let three = table.constant(3);
    let set = table.assign(timer, three);
    let condition = is_zero(&mut table, mode);
    let then = set_and_go(&mut table, mode, 1, 2);
    let otherwise = set_and_go(&mut table, mode, 0, 3);
    let choice = table.branch(condition, then, otherwise);
    let body = table.sequence(set, choice);
    table.state(0, 0, body);

    for _ in 2..=3 {
        let count = count_down(&mut table, timer);
        let condition = is_zero(&mut table, timer);
        let go = table.goto(1);
        let fall = table.fall();
        let choice = table.branch(condition, go, fall);
        let body = table.sequence(count, choice);
        table.state(0, 0, body);
    }

    for (parent, label, register, state, other) in [
        (2, 1, high, 4, 5),
        (2, 1, high, 5, 4),
        (3, 0, low, 6, 7),
        (3, 0, low, 7, 6),
    ] {
        let condition = is_zero(&mut table, register);
        let then = table.goto(other);
        let otherwise = table.goto(state);
        let body = table.branch(condition, then, otherwise);
        table.state(parent, label, body);
    }
    table
}

/// The designs that every comparison takes besides the random ones.
pub fn worked() -> [Table; 10] {
    [
        lease(),
        two_groups(),
        valve(),
        level(),
        spare_child(),
        one_group(),
        exchange(),
        line(),
        hidden_choice(),
        smallest(),
    ]
}

/// The smallest design that can be accepted: 56 bytes.
pub fn smallest() -> Table {
    let mut table = Table::new(&[1]);
    let body = table.fall();
    table.state(0, 0, body);
    let body = table.goto(1);
    table.state(0, 0, body);
    table
}

fn count_down(table: &mut Table, register: u8) -> u16 {
    let left = table.read(register);
    let right = table.constant(1);
    let difference = table.subtract(left, right);
    table.assign(register, difference)
}

fn count_up(table: &mut Table, register: u8) -> u16 {
    let left = table.read(register);
    let right = table.constant(1);
    let sum = table.add(left, right);
    table.assign(register, sum)
}

fn is_zero(table: &mut Table, register: u8) -> u16 {
    let left = table.read(register);
    let right = table.constant(0);
    table.equal(left, right)
}

fn set_and_go(table: &mut Table, register: u8, value: u32, state: u8) -> u16 {
    let value = table.constant(value);
    let set = table.assign(register, value);
    let go = table.goto(state);
    table.sequence(set, go)
}
