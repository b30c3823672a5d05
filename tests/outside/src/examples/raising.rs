//! Request E6: designs with the labels that they are raised to, or with what refuses it.

use super::{changed, copy_and_go, go_by_r1};
use crate::designs::{
    exchange, lease, longest_chain, low_child, one_group, three_states,
    timer_counted_by_a_high_state, timer_is_a_port,
};
use crate::table::Table;

pub struct Raising {
    pub sentence: &'static str,
    pub image: Vec<u8>,
    /// Of all registers; or number and place of the refusal.
    pub expected: Result<Vec<u8>, (u32, usize)>,
}

pub fn all() -> Vec<Raising> {
    let mut examples = met();
    examples.extend(several_passes());
    examples.extend(not_met());
    examples.extend(refused_before());
    examples
}

fn raised(sentence: &'static str, table: Table, labels: &[u8]) -> Raising {
    Raising {
        sentence,
        image: table.image(),
        expected: Ok(labels.to_vec()),
    }
}

fn refused(sentence: &'static str, table: Table, number: u32, place: usize) -> Raising {
    Raising {
        sentence,
        image: table.image(),
        expected: Err((number, place)),
    }
}

/// Three labels, one above the other.
const CHAIN: &[u16] = &[7, 6, 4];
/// 1 and 2 cannot be compared, 3 is above both.
const DIAMOND: &[u16] = &[15, 10, 12, 8];

/// Inner registers with these labels, then ports with these. The root falls. State 1 is low and has the
/// body given; 2, beside it, has the label 1 and goes to itself; 3 is the child of 1.
fn framed(rows: &[u16], inner: &[u8], ports: &[u8], body: impl FnOnce(&mut Table) -> u16) -> Table {
    let mut table = Table::new(rows);
    for &label in inner {
        table.inner(label, 0, 32);
    }
    for &label in ports {
        table.port(label, 0, 32);
    }
    let fall = table.fall();
    table.state(0, 0, fall);
    let body = body(&mut table);
    table.state(0, 0, body);
    let go = table.goto(2);
    table.state(0, 1, go);
    let go = table.goto(3);
    table.state(1, 0, go);
    table
}

/// One register := another for each pair, in this order, and then the last command.
fn copies(table: &mut Table, pairs: &[(u8, u8)], last: u16) -> u16 {
    let mut body = last;
    for &(to, from) in pairs.iter().rev() {
        let value = table.read(from);
        let assign = table.assign(to, value);
        body = table.sequence(assign, body);
    }
    body
}

/// If the register then r0 := 1 else skip.
fn choice_by(table: &mut Table, register: u8) -> u16 {
    let condition = table.read(register);
    let one = table.constant(1);
    let then = table.assign(0, one);
    let otherwise = table.skip();
    table.branch(condition, then, otherwise)
}

/// The same; goto 1.
fn set_by(table: &mut Table, register: u8) -> u16 {
    let choice = choice_by(table, register);
    let go = table.goto(1);
    table.sequence(choice, go)
}

fn met() -> Vec<Raising> {
    vec![
        raised("an accepted image comes back unchanged", lease(), &[0, 1]),
        raised(
            "r0 := r1, labels 0 and 1",
            three_states(|table| copy_and_go(table, 0, 1)),
            &[1, 1],
        ),
        raised(
            "a condition: if r1 then r0 := 1 else skip",
            three_states(|table| set_by(table, 1)),
            &[1, 1],
        ),
        raised(
            "the state's label: a high state counts the timer",
            timer_counted_by_a_high_state(),
            &[1],
        ),
        raised(
            "the least and not the top",
            framed(CHAIN, &[0], &[1], |table| set_by(table, 1)),
            &[1, 1],
        ),
        raised(
            "the least label above two that cannot be compared",
            framed(DIAMOND, &[0], &[1, 2], |table| {
                let go = table.goto(1);
                copies(table, &[(0, 1), (0, 2)], go)
            }),
            &[3, 1, 2],
        ),
        raised(
            "above the register's own label, which cannot be compared",
            framed(DIAMOND, &[2], &[1], |table| set_by(table, 1)),
            &[3, 1],
        ),
        raised(
            "a label higher than needed stays",
            framed(CHAIN, &[2], &[1], |table| set_by(table, 1)),
            &[2, 1],
        ),
        raised(
            "a register that nothing assigns stays, and so does a port below",
            framed(CHAIN, &[0, 0, 1], &[2, 0], |table| set_by(table, 3)),
            &[2, 0, 1, 2, 0],
        ),
        raised(
            "r0 := r0: nothing rises",
            framed(CHAIN, &[0], &[2], |table| copy_and_go(table, 0, 0)),
            &[0, 2],
        ),
        raised(
            "r0 := r1; if r0 then goto 2 else goto 2: label 1 may flow there",
            framed(CHAIN, &[0], &[1], |table| {
                let condition = table.read(0);
                let then = table.goto(2);
                let otherwise = table.goto(2);
                let choice = table.branch(condition, then, otherwise);
                copies(table, &[(0, 1)], choice)
            }),
            &[1, 1],
        ),
    ]
}

fn several_passes() -> Vec<Raising> {
    let chain = |pairs: &'static [(u8, u8)]| {
        framed(CHAIN, &[0, 0, 0], &[2], |table| {
            let go = table.goto(1);
            copies(table, pairs, go)
        })
    };
    vec![
        raised(
            "r0 := r3; r1 := r0; r2 := r1: in reading order",
            chain(&[(0, 3), (1, 0), (2, 1)]),
            &[2, 2, 2, 2],
        ),
        raised(
            "r2 := r1; r1 := r0; r0 := r3: against it",
            chain(&[(2, 1), (1, 0), (0, 3)]),
            &[2, 2, 2, 2],
        ),
        raised(
            "r2 := r1; r1 := r0; r0 := r2: nothing rises in a ring",
            chain(&[(2, 1), (1, 0), (0, 2)]),
            &[0, 0, 0, 2],
        ),
        raised(
            "r2 := r1; r1 := r2; r1 := r3: a ring with an end",
            chain(&[(2, 1), (1, 2), (1, 3)]),
            &[0, 2, 2, 2],
        ),
        raised(
            "if r1 then r0 := 1 else skip; r1 := r2",
            framed(CHAIN, &[0, 0], &[2], |table| {
                let choice = choice_by(table, 1);
                let go = table.goto(1);
                let end = copies(table, &[(1, 2)], go);
                table.sequence(choice, end)
            }),
            &[2, 2, 2],
        ),
        raised(
            "64 registers, each from the one before, the last first",
            longest_chain(),
            &[15; 64],
        ),
    ]
}

fn not_met() -> Vec<Raising> {
    let by_r0 = |then: fn(&mut Table) -> u16, otherwise: fn(&mut Table) -> u16| {
        framed(CHAIN, &[0], &[1], |table| {
            let condition = table.read(0);
            let then = then(table);
            let otherwise = otherwise(table);
            let choice = table.branch(condition, then, otherwise);
            copies(table, &[(0, 1)], choice)
        })
    };
    vec![
        refused(
            "18: r0 := r1; if r0 then goto 2 else goto 1",
            by_r0(|table| table.goto(2), |table| table.goto(1)),
            18,
            0,
        ),
        refused(
            "18: r0 := r1; if r0 then fall else fall",
            by_r0(Table::fall, Table::fall),
            18,
            0,
        ),
        refused(
            "18: if r1 then goto 1 else goto 2, with nothing to raise",
            three_states(go_by_r1),
            18,
            0,
        ),
        refused(
            "18: goto from a high state to a low one",
            changed(
                framed(CHAIN, &[0], &[1], |table| set_by(table, 1)),
                |table| {
                    let body = usize::from(table.states[2].command);
                    table.commands[body].which = 1;
                },
            ),
            18,
            0,
        ),
        refused(
            "18: the goto that cannot be met stands before the assignment",
            framed(CHAIN, &[0], &[1], |table| {
                let condition = table.read(0);
                let [then, otherwise] = [(); 2].map(|_| {
                    let go = table.goto(1);
                    copies(table, &[(0, 1)], go)
                });
                table.branch(condition, then, otherwise)
            }),
            18,
            0,
        ),
    ]
}

fn refused_before() -> Vec<Raising> {
    vec![
        refused("9 is asked before raising", low_child(), 9, 3),
        refused("16 is asked before raising", timer_is_a_port(), 16, 1),
        refused(
            "19 is asked before raising",
            changed(one_group(), |table| table.states[1].count = 1),
            19,
            1,
        ),
        refused("20: one body for two groups", one_group(), 20, 0),
        refused("20: two parameters exchanged", exchange(), 20, 0),
        refused(
            "20, where a raising would be needed",
            changed(one_group(), |table| table.registers[4].label = 0),
            20,
            0,
        ),
        refused(
            "20: a parameter that nothing names",
            changed(lease(), |table| table.states[4].count = 1),
            20,
            0,
        ),
    ]
}
