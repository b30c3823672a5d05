//! Small designs.

use crate::reference::image::PORT;
use crate::table::{most, Table};

/// Root falls; state 1 with the given body, state 2 beside it, all of label 0; r0 low and inner, r1 high and a port.
pub fn three_states(body: impl Fn(&mut Table) -> u16) -> Table {
    let mut table = Table::new(&[3, 2]);
    table.inner(0, 0, 32);
    table.port(1, 0, 32);
    let fall = table.fall();
    table.state(0, 0, fall);
    let body = body(&mut table);
    table.state(0, 0, body);
    let go = table.goto(2);
    table.state(0, 0, go);
    table
}

/// A state that goes to itself, and registers with 0, each power of ten, the number below it, and the largest number.
pub fn powers_of_ten() -> Table {
    let mut table = Table::new(&[1]);
    table.inner(0, 0, 32);
    for power in 0..10 {
        table.inner(0, 10u32.pow(power) - 1, 32);
        table.inner(0, 10u32.pow(power), 32);
    }
    table.inner(0, u32::MAX, 32);
    let fall = table.fall();
    table.state(0, 0, fall);
    let go = table.goto(1);
    table.state(0, 0, go);
    table
}

/// So many sums, each adding one constant.
pub fn nested_sums(count: usize) -> Table {
    nested(2, count)
}

/// So many operations of this kind, each with one constant.
pub fn nested(kind: u8, count: usize) -> Table {
    three_states(|table| {
        let mut value = table.constant(0);
        for _ in 0..count {
            let one = table.constant(1);
            value = table.operation(kind, value, one);
        }
        let assign = table.assign(0, value);
        let go = table.goto(1);
        table.sequence(assign, go)
    })
}

/// So many sequences of a skip around an if, whose condition does not count into their depth.
pub fn nested_commands(count: usize) -> Table {
    three_states(|table| {
        table.expressions = nested_sums(63).expressions;
        let condition = table.expressions.len() as u16 - 1;
        let then = table.goto(1);
        let otherwise = table.goto(2);
        let mut body = table.branch(condition, then, otherwise);
        for _ in 0..count {
            let skip = table.skip();
            body = table.sequence(skip, body);
        }
        body
    })
}

/// Figure 2(a): a state of label 1 counts the timer, of label 0, down.
pub fn timer_counted_by_a_high_state() -> Table {
    let mut table = Table::new(&[3, 2]);
    let timer = table.inner(0, 3, 32);
    let fall = table.fall();
    table.state(0, 0, fall);
    let count = super::count_down(&mut table, timer);
    let go = table.goto(1);
    let body = table.sequence(count, go);
    table.state(0, 1, body);
    table
}

/// The lease design with state 2 raised and its default child 3 lowered.
pub fn low_child() -> Table {
    let mut table = super::lease();
    table.states[2].label = 1;
    table.states[3].label = 0;
    table
}

/// The lease design with its timer, which two assignments name, a port.
pub fn timer_is_a_port() -> Table {
    let mut table = super::lease();
    table.registers[0].kind = PORT;
    table
}

/// r0 := r1 (kind) r2 in each cycle, in the root, which then falls; r1 and r2 are ports.
pub fn one_operation(kind: u8) -> Table {
    let mut table = Table::new(&[1]);
    let written = table.inner(0, 99, 32);
    let one = table.port(0, 0, 32);
    let other = table.port(0, 0, 32);
    let left = table.read(one);
    let right = table.read(other);
    let value = table.operation(kind, left, right);
    let assign = table.assign(written, value);
    let fall = table.fall();
    let body = table.sequence(assign, fall);
    table.state(0, 0, body);
    let body = table.goto(1);
    table.state(0, 0, body);
    table
}

/// r0 := r0 + 1; r0 := r0 + r0 in each cycle, in the root, which then falls.
pub fn assigns_twice() -> Table {
    let mut table = Table::new(&[1]);
    let register = table.inner(0, 0, 32);
    let old = table.read(register);
    let one = table.constant(1);
    let sum = table.add(old, one);
    let first = table.assign(register, sum);
    let left = table.read(register);
    let right = table.read(register);
    let sum = table.add(left, right);
    let second = table.assign(register, sum);
    root_does(table, first, second)
}

/// The root writes a number into r0, and the child tests r0 in the same cycle.
pub fn seen_by_the_child(number: u32) -> Table {
    let mut table = Table::new(&[1]);
    let register = table.inner(0, 0, 32);
    let value = table.constant(number);
    let assign = table.assign(register, value);
    let fall = table.fall();
    let body = table.sequence(assign, fall);
    table.state(0, 0, body);
    let condition = table.read(register);
    let then = table.goto(2);
    let otherwise = table.goto(1);
    let body = table.branch(condition, then, otherwise);
    table.state(0, 0, body);
    let body = table.goto(2);
    table.state(0, 0, body);
    table
}

/// The root does both and falls, to a child that goes to itself.
fn root_does(mut table: Table, first: u16, second: u16) -> Table {
    let both = table.sequence(first, second);
    let fall = table.fall();
    let body = table.sequence(both, fall);
    table.state(0, 0, body);
    let body = table.goto(1);
    table.state(0, 0, body);
    table
}

/// r0 := the number; r1 := r0 in each cycle, in the root, which then falls; r0 has this width, r1 has
/// 32.
pub fn copied(width: u8, number: u32) -> Table {
    let mut table = Table::new(&[1]);
    let narrow = table.inner(0, 0, width);
    let wide = table.inner(0, 0, 32);
    let value = table.constant(number);
    let first = table.assign(narrow, value);
    let value = table.read(narrow);
    let second = table.assign(wide, value);
    root_does(table, first, second)
}

/// State 1: if r0 + 1 then goto 2 else goto 1. r0 has this width and all its bits set at reset.
pub fn tests_one_more(width: u8) -> Table {
    let mut table = Table::new(&[1]);
    let register = table.inner(0, most(width), width);
    let body = table.fall();
    table.state(0, 0, body);
    let left = table.read(register);
    let right = table.constant(1);
    let condition = table.add(left, right);
    let then = table.goto(2);
    let otherwise = table.goto(1);
    let body = table.branch(condition, then, otherwise);
    table.state(0, 0, body);
    let body = table.goto(2);
    table.state(0, 0, body);
    table
}

/// The design with another width for a register, whose reset value is cut to it.
pub fn with_width(mut table: Table, register: usize, width: u8) -> Table {
    let register = &mut table.registers[register];
    register.width = width;
    register.reset &= register.most();
    table
}

/// States 1 and 2 below the root, 3 and 4 below 1, 5 and 6 below 3, 7 and 8 below 2. State 2 goes
/// to 1; 0, 1 and 3 fall; each other goes to itself.
pub fn three_levels() -> Table {
    let mut table = Table::new(&[1]);
    for (state, parent) in [0, 0, 0, 1, 1, 3, 3, 2, 2].into_iter().enumerate() {
        let body = match state {
            0 | 1 | 3 => table.fall(),
            2 => table.goto(1),
            _ => table.goto(state as u8),
        };
        table.state(parent, 0, body);
    }
    table
}
