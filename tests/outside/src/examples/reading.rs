//! Refusals 10 to 12 in reading order, request E7: the lowest state, and in it the first command.

use super::{accepted, changed, copy_and_go, refused, Example};
use crate::designs::{fall_before_assignment, three_states, two_bodies};
use crate::table::Table;

pub fn examples() -> Vec<Example> {
    let mut examples = pairs();
    examples.extend(nested());
    examples.extend(states());
    examples.extend(lowest_nodes());
    examples.extend(without_fault());
    examples
}

/// A command, and the node of the only fault in it.
struct Leak {
    command: u16,
    fault: u16,
}

impl Leak {
    /// A command that is the fault itself.
    fn of(command: u16) -> Leak {
        Leak {
            command,
            fault: command,
        }
    }
}

/// Each number read before each, wherever the other can stand.
fn pairs() -> Vec<Example> {
    let mut examples = Vec::new();
    for second in [10, 11, 12] {
        let sentence = format!("10 before {second}, in the second part");
        let leak = |table: &mut Table| leave(table, second);
        examples.extend(both_ways(&sentence, 10, copy, leak, |table, [one, two]| {
            let two = if_r1(table, two);
            [table.sequence(one, two), table.goto(2)]
        }));
    }
    let each = [10, 11, 12].map(|first| [10, 11, 12].map(|second| (first, second)));
    for (first, second) in each.into_iter().flatten() {
        let leaks = [first, second].map(|number| move |table: &mut Table| leave(table, number));
        let sentence = format!("{first} before {second}, in the second branch");
        examples.extend(both_ways(
            &sentence,
            first,
            leaks[0],
            leaks[1],
            |table, [one, two]| [by_r1(table, one, two), table.goto(2)],
        ));
        let sentence = format!("{first} before {second}, in the higher state");
        examples.extend(both_ways(
            &sentence,
            first,
            leaks[0],
            leaks[1],
            |table, commands| commands.map(|command| if_r1(table, command)),
        ));
    }
    examples
}

/// Two commands, of which the first is read first, numbered so and otherwise: it counts.
fn both_ways(
    sentence: &str,
    number: u32,
    first: impl Fn(&mut Table) -> Leak,
    second: impl Fn(&mut Table) -> Leak,
    join: impl Fn(&mut Table, [u16; 2]) -> [u16; 2],
) -> [Example; 2] {
    [("as read", false), ("against it", true)].map(|(numbered, against)| {
        let mut place = 0;
        let table = two_bodies(|table| {
            let lower = against.then(|| second(table));
            let first = first(table);
            let second = lower.unwrap_or_else(|| second(table));
            place = first.fault.into();
            join(table, [first.command, second.command])
        });
        refused(
            &format!("{sentence}, numbered {numbered}"),
            &table,
            number,
            place,
        )
    })
}

/// For a branch of an if over r1: r0 := 0; goto 5, or goto 2, or fall.
fn leave(table: &mut Table, number: u32) -> Leak {
    match number {
        11 => Leak::of(table.goto(2)),
        12 => Leak::of(table.fall()),
        _ => {
            let zero = table.constant(0);
            let fault = table.assign(0, zero);
            let go = table.goto(5);
            let command = table.sequence(fault, go);
            Leak { command, fault }
        }
    }
}

/// r0 := r1.
fn copy(table: &mut Table) -> Leak {
    let value = table.read(1);
    Leak::of(table.assign(0, value))
}

/// If r1 then the one command else the other.
fn by_r1(table: &mut Table, then: u16, otherwise: u16) -> u16 {
    let condition = table.read(1);
    table.branch(condition, then, otherwise)
}

/// If r1 then the command else goto 5.
fn if_r1(table: &mut Table, then: u16) -> u16 {
    let otherwise = table.goto(5);
    by_r1(table, then, otherwise)
}

/// State 1 with a body whose nodes start at 1.
fn one_body(body: impl FnOnce(&mut Table) -> u16) -> Table {
    two_bodies(|table| [body(table), table.goto(2)])
}

/// Numbered against the reading order.
fn nested() -> Vec<Example> {
    vec![
        refused(
            "12: if r1 then fall else r0 := 1; goto 5",
            &fall_before_assignment(),
            12,
            4,
        ),
        refused(
            "10: the first of three, in the first part of a first part",
            &one_body(|table| {
                let [third, second, first] = [(); 3].map(|_| copy(table).command);
                let both = table.sequence(first, second);
                let all = table.sequence(both, third);
                let go = table.goto(1);
                table.sequence(all, go)
            }),
            10,
            3,
        ),
        refused(
            "10: the first of three, the others in the second part",
            &one_body(|table| {
                let [third, second, first] = [(); 3].map(|_| copy(table).command);
                let go = table.goto(1);
                let end = table.sequence(third, go);
                let end = table.sequence(second, end);
                table.sequence(first, end)
            }),
            10,
            3,
        ),
        refused(
            "10: the second of three, the first is none",
            &one_body(|table| {
                let [third, second] = [(); 2].map(|_| copy(table).command);
                let first = table.skip();
                let both = table.sequence(first, second);
                let go = table.goto(1);
                let end = table.sequence(third, go);
                table.sequence(both, end)
            }),
            10,
            2,
        ),
        refused(
            "10: in the second branch, and behind the if",
            &one_body(|table| {
                let behind = copy(table).command;
                let otherwise = copy(table).command;
                let then = table.skip();
                let choice = by_r1(table, then, otherwise);
                let both = table.sequence(choice, behind);
                let go = table.goto(1);
                table.sequence(both, go)
            }),
            10,
            2,
        ),
        refused(
            "11: in the second branch of an if in the first, 12 in the second",
            &one_body(|table| {
                let otherwise = table.fall();
                let inner = table.goto(2);
                let high = table.goto(5);
                let then = by_r1(table, high, inner);
                by_r1(table, then, otherwise)
            }),
            11,
            2,
        ),
        refused(
            "12: in the first branch of an if in the second, 11 behind it",
            &one_body(|table| {
                let last = table.goto(2);
                let inner = table.fall();
                let otherwise = by_r1(table, inner, last);
                let then = table.goto(5);
                by_r1(table, then, otherwise)
            }),
            12,
            2,
        ),
    ]
}

/// Two states begin with r0 := r1, as commands 6 and 8.
fn states() -> Vec<Example> {
    let copies = |states: [usize; 2]| {
        changed(one_body(|table| table.goto(1)), |table| {
            for state in states {
                let body = table.states[state].command;
                let first = copy(table).command;
                table.states[state].command = table.sequence(first, body);
            }
        })
    };
    vec![
        refused("10: in the root and in state 1", &copies([0, 1]), 10, 6),
        refused(
            "10: in state 1, and higher in the root",
            &copies([1, 0]),
            10,
            8,
        ),
        refused(
            "10: in state 1, and higher in its child",
            &copies([1, 3]),
            10,
            6,
        ),
        refused(
            "10: in state 4, and higher in state 3",
            &copies([4, 3]),
            10,
            8,
        ),
        refused(
            "10: in the highest state, and higher in the root",
            &copies([5, 0]),
            10,
            8,
        ),
    ]
}

/// The other checks still go by node numbers.
fn lowest_nodes() -> Vec<Example> {
    vec![
        refused(
            "8: the lowest node, in the second branch",
            &three_states(|table| {
                let otherwise = table.fall();
                let then = table.fall();
                by_r1(table, then, otherwise)
            }),
            8,
            1,
        ),
        refused(
            "8: the lowest node, in the higher state",
            &changed(three_states(Table::fall), |table| {
                table.commands[2] = table.commands[1];
                table.states[1].command = 2;
                table.states[2].command = 1;
            }),
            8,
            1,
        ),
        refused(
            "8 before a 10 that is read first",
            &changed(three_states(|table| copy_and_go(table, 0, 1)), |table| {
                table.commands[2].which = 0;
            }),
            8,
            2,
        ),
        refused(
            "8 before a 10 in a lower state",
            &changed(three_states(|table| copy_and_go(table, 0, 1)), |table| {
                table.commands[4] = table.commands[0];
            }),
            8,
            4,
        ),
    ]
}

/// Numbered against the reading order.
fn without_fault() -> Vec<Example> {
    vec![
        accepted(
            "r0 := 0; if r0 then fall else goto 2",
            &one_body(|table| {
                let otherwise = table.goto(2);
                let then = table.fall();
                let zero = table.constant(0);
                let first = table.assign(0, zero);
                let condition = table.read(0);
                let second = table.branch(condition, then, otherwise);
                table.sequence(first, second)
            }),
        ),
        accepted(
            "if r1 then goto 5 else goto 5",
            &one_body(|table| {
                let otherwise = table.goto(5);
                let then = table.goto(5);
                by_r1(table, then, otherwise)
            }),
        ),
    ]
}
