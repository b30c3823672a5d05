//! Request E11: designs, and what is left of them.

use crate::designs::{lease, one_group, smallest, spare_child, three_levels, two_groups};
use crate::table::Table;

pub struct Pruning {
    pub sentence: &'static str,
    pub table: Table,
    /// The states that stay.
    pub kept: Vec<u8>,
    pub result: Table,
}

pub fn all() -> Vec<Pruning> {
    let mut examples = unchanged();
    examples.extend(states());
    examples.extend(written_bodies());
    examples.extend(parameters());
    examples.push(nodes_between());
    examples.extend(worked());
    examples
}

/// What a state of these designs does; r0 is a port and r1 is inner.
#[derive(Clone, Copy)]
enum Does {
    Falls,
    Goes(u8),
    /// if r0 then fall else goto the state
    FallsOrGoes(u8),
    /// if r0 then goto the one else goto the other
    GoesOrGoes(u8, u8),
    /// r1 := r1 + 1; goto the state
    CountsAndGoes(u8),
    /// if 0 then fall else goto the state
    NeverFalls(u8),
    /// if 1 then goto the one else goto the other
    NeverGoes(u8, u8),
}
use Does::*;

/// The states in order: parent, and what it does. Each body is written behind the one before.
fn design(states: &[(u8, Does)]) -> Table {
    let mut table = Table::new(&[1]);
    table.port(0, 0, 32);
    table.inner(0, 0, 8);
    for &(parent, does) in states {
        let body = body(&mut table, does);
        table.state(parent, 0, body);
    }
    table
}

fn body(table: &mut Table, does: Does) -> u16 {
    match does {
        Falls => table.fall(),
        Goes(state) => table.goto(state),
        CountsAndGoes(state) => {
            let (old, one) = (table.read(1), table.constant(1));
            let sum = table.add(old, one);
            let assign = table.assign(1, sum);
            let go = table.goto(state);
            table.sequence(assign, go)
        }
        FallsOrGoes(state) => {
            let condition = table.read(0);
            either(table, condition, Falls, Goes(state))
        }
        GoesOrGoes(one, other) => {
            let condition = table.read(0);
            either(table, condition, Goes(one), Goes(other))
        }
        NeverFalls(state) => {
            let condition = table.constant(0);
            either(table, condition, Falls, Goes(state))
        }
        NeverGoes(one, other) => {
            let condition = table.constant(1);
            either(table, condition, Goes(one), Goes(other))
        }
    }
}

fn either(table: &mut Table, condition: u16, then: Does, otherwise: Does) -> u16 {
    let then = body(table, then);
    let otherwise = body(table, otherwise);
    table.branch(condition, then, otherwise)
}

fn left(sentence: &'static str, table: Table, kept: &[u8], result: Table) -> Pruning {
    Pruning {
        sentence,
        table,
        kept: kept.to_vec(),
        result,
    }
}

fn pruned(
    sentence: &'static str,
    states: &[(u8, Does)],
    kept: &[u8],
    result: &[(u8, Does)],
) -> Pruning {
    left(sentence, design(states), kept, design(result))
}

fn stays(sentence: &'static str, table: Table) -> Pruning {
    let kept: Vec<u8> = (0..table.states.len() as u8).collect();
    left(sentence, table.clone(), &kept, table)
}

fn unchanged() -> Vec<Pruning> {
    vec![
        stays("the smallest design", smallest()),
        stays("the lease design", lease()),
        stays("two groups", two_groups()),
        stays(
            "a state reached from a higher number",
            design(&[(0, Falls), (0, Goes(3)), (0, Goes(1)), (0, Goes(2))]),
        ),
        stays(
            "a sibling named by a lower one's lower sibling",
            design(&[
                (0, Falls),
                (0, Goes(4)),
                (0, Goes(1)),
                (0, Goes(2)),
                (0, Goes(3)),
            ]),
        ),
    ]
}

fn states() -> Vec<Pruning> {
    vec![
        pruned(
            "a sibling that nobody names",
            &[(0, Falls), (0, Goes(1)), (0, Goes(2))],
            &[0, 1],
            &[(0, Falls), (0, Goes(1))],
        ),
        pruned(
            "gotos of a state that is not reached are not followed",
            &[(0, Falls), (0, Goes(1)), (0, Goes(3)), (0, Goes(1))],
            &[0, 1],
            &[(0, Falls), (0, Goes(1))],
        ),
        pruned(
            "numbers are closed up, in gotos and in parents",
            &[
                (0, Falls),
                (0, Goes(3)),
                (0, CountsAndGoes(1)),
                (0, FallsOrGoes(1)),
                (2, Goes(4)),
                (3, CountsAndGoes(6)),
                (3, Goes(5)),
            ],
            &[0, 1, 3, 5, 6],
            &[
                (0, Falls),
                (0, Goes(2)),
                (0, FallsOrGoes(1)),
                (2, CountsAndGoes(4)),
                (2, Goes(3)),
            ],
        ),
        pruned(
            "children of a state without a fall, and theirs",
            &[
                (0, Falls),
                (0, GoesOrGoes(1, 1)),
                (1, Falls),
                (1, Goes(2)),
                (2, CountsAndGoes(4)),
            ],
            &[0, 1],
            &[(0, Falls), (0, GoesOrGoes(1, 1))],
        ),
        pruned(
            "a child that is not the default one",
            &[(0, Falls), (0, FallsOrGoes(1)), (1, Goes(2)), (1, Goes(2))],
            &[0, 1, 2],
            &[(0, Falls), (0, FallsOrGoes(1)), (1, Goes(2))],
        ),
        pruned(
            "a fall of a state that is not reached leads nowhere",
            &[(0, Falls), (0, Goes(1)), (0, Falls), (2, Goes(3))],
            &[0, 1],
            &[(0, Falls), (0, Goes(1))],
        ),
        pruned(
            "two that name each other alone",
            &[
                (0, Falls),
                (0, Goes(2)),
                (0, Goes(1)),
                (0, Goes(4)),
                (0, Goes(3)),
            ],
            &[0, 1, 2],
            &[(0, Falls), (0, Goes(2)), (0, Goes(1))],
        ),
    ]
}

/// As they are written: it does not matter which branch a value takes.
fn written_bodies() -> Vec<Pruning> {
    vec![
        stays(
            "a fall that no value comes to",
            design(&[(0, Falls), (0, NeverFalls(1)), (1, Goes(2))]),
        ),
        stays(
            "a goto that no value comes to",
            design(&[(0, Falls), (0, NeverGoes(1, 2)), (0, Goes(1))]),
        ),
        pruned(
            "the root's fall alone",
            &[(0, Falls), (0, Goes(1)), (0, NeverGoes(1, 2))],
            &[0, 1],
            &[(0, Falls), (0, Goes(1))],
        ),
    ]
}

/// States 2 and 3 take a register each; 1 leads to 3, and 3 to itself by its parameter.
fn parameters() -> Vec<Pruning> {
    let taking = |states: &[(u8, u8)], numbers: &[u8]| {
        let mut table = Table::new(&[1]);
        for _ in 0..3 {
            table.inner(0, 0, 32);
        }
        let fall = table.fall();
        table.state(0, 0, fall);
        for (&(named, argument), number) in states.iter().zip(numbers) {
            let go = table.goto_with(named, &[argument]);
            let state = table.state(0, 0, go);
            if *number > 1 {
                table.takes(state, &[(0, 0)]);
            }
        }
        table
    };
    vec![left(
        "arguments are registers and parameters, and stay",
        taking(&[(3, 2), (3, 1), (3, 64)], &[1, 2, 3]),
        &[0, 1, 3],
        taking(&[(2, 2), (2, 64)], &[1, 3]),
    )]
}

/// State 2, which is not reached, has nodes below, between and above the others. These keep their order, which
/// is not that of reading.
fn nodes_between() -> Pruning {
    let build = |spare: bool| {
        let mut table = Table::new(&[3, 2]);
        table.inner(0, 5, 4);
        table.port(1, 0, 32);
        let unused = |table: &mut Table| {
            let value = table.constant(9);
            table.assign(0, value)
        };
        let low = spare.then(|| unused(&mut table));
        let one = table.constant(1);
        let go = table.goto(1);
        let between = spare.then(|| unused(&mut table));
        let old = table.read(0);
        let sum = table.add(old, one);
        let count = table.assign(0, sum);
        let fall = table.fall();
        let body = table.sequence(count, go);
        table.state(0, 0, fall);
        table.state(0, 0, body);
        if let (Some(first), Some(second)) = (low, between) {
            let both = table.sequence(first, second);
            let go = table.goto(1);
            let body = table.sequence(both, go);
            table.state(0, 0, body);
        }
        table
    };
    left(
        "nodes are closed up in their order; labels and registers stay",
        build(true),
        &[0, 1],
        build(false),
    )
}

fn worked() -> Vec<Pruning> {
    let mut fewer = spare_child();
    // The spare state's nodes are the last.
    fewer.states.pop();
    fewer.commands.truncate(fewer.commands.len() - 3);
    fewer.expressions.pop();
    let mut levels = Table::new(&[1]);
    for (parent, goes) in [(0, None), (0, None), (1, None), (2, Some(3))] {
        let body = match goes {
            Some(state) => levels.goto(state),
            None => levels.fall(),
        };
        levels.state(parent, 0, body);
    }
    vec![
        left("a spare child", spare_child(), &[0, 1, 2], fewer),
        left("three levels", three_levels(), &[0, 1, 3, 5], levels),
        stays("one body for two groups", one_group()),
    ]
}
