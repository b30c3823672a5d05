//! The comparison of filings finds each mistake with which request E12 must not be met.

use crate::answer::{Answer, Which};
use crate::compare::engine::{Engine, REFERENCE};
use crate::compare::filing::{filings_of_seed, fixed_images, Tallies};
use crate::reference;
use crate::table::{Family, Node, Table};
use std::cmp::Ordering;
use std::ops::RangeInclusive;

type File = fn(&[u8], &mut [u8]) -> Answer;
type Earlier = fn(&[u8], &[u8]) -> Which;

/// By few seeds, or else without chance, or else by some more.
fn is_found(engine: &Engine) -> bool {
    let mut tallies = Tallies::default();
    let mut by_seeds = |mut seeds: RangeInclusive<u64>| {
        seeds.any(|seed| filings_of_seed(engine, seed, &mut tallies).is_err())
    };
    by_seeds(1..=3) || fixed_images(engine, &mut Tallies::default()).is_err() || by_seeds(4..=20)
}

#[test]
fn mistakes_of_filing_are_found() {
    let mistakes: [(&str, File); 15] = [
        ("the image is its form", |image, out| {
            written(image, out, Table::clone)
        }),
        ("the whole before its parts", |image, out| {
            written(image, out, |table| filed(table, ORDER.whole_first()))
        }),
        ("the second part first", |image, out| {
            written(image, out, |table| filed(table, ORDER.second_first()))
        }),
        ("expressions as they are read", |image, out| {
            written(image, out, |table| filed(table, ORDER.as_read()))
        }),
        ("states from the last", |image, out| {
            written(image, out, |table| filed(table, ORDER.from_the_last()))
        }),
        ("expressions by their old numbers", |image, out| {
            written(image, out, old_expressions)
        }),
        (
            "expressions by the old numbers of commands",
            |image, out| written(image, out, by_old_commands),
        ),
        (
            "commands under their old numbers in states",
            |image, out| written(image, out, old_bodies),
        ),
        ("arguments as nodes", |image, out| {
            written(image, out, moved_arguments)
        }),
        ("a byte beyond the form", |image, out| {
            let answer = reference::file(image, out);
            if answer.number == 0 && answer.count < out.len() {
                out[answer.count] ^= 1;
            }
            answer
        }),
        ("all bytes beyond the form", |image, out| {
            let answer = reference::file(image, out);
            if answer.number == 0 {
                out[answer.count..].fill(0);
            }
            answer
        }),
        ("a part of the form where 24 is answered", |image, out| {
            let answer = reference::file(image, out);
            if answer.number == 24 {
                out.copy_from_slice(&image[..out.len()]);
            }
            answer
        }),
        ("24 before the image", |image, out| {
            match out.len() < image.len() {
                true => Answer::refused(24, 0),
                false => reference::file(image, out),
            }
        }),
        ("24 where the area is longer", |image, out| {
            let answer = reference::file(image, out);
            match answer.number == 0 && out.len() > image.len() {
                true => Answer::refused(24, 0),
                false => answer,
            }
        }),
        ("the area is counted", |image, out| {
            let answer = reference::file(image, out);
            Answer {
                count: answer
                    .count
                    .max(out.len() * usize::from(answer.number == 0)),
                ..answer
            }
        }),
    ];
    for (what, file) in mistakes {
        assert!(is_found(&Engine { file, ..REFERENCE }), "{what}");
    }
}

#[test]
fn mistakes_of_the_order_are_found() {
    let mistakes: [(&str, Earlier); 13] = [
        ("compared as lent", |first, second| {
            ordered(first, second, |_, _| first.cmp(second))
        }),
        ("the later one", |first, second| {
            ordered(first, second, |one, other| other.cmp(one))
        }),
        ("the longer one", |first, second| {
            ordered(first, second, |one, other| {
                other.len().cmp(&one.len()).then(one.cmp(other))
            })
        }),
        ("the shorter one", |first, second| {
            ordered(first, second, |one, other| {
                one.len().cmp(&other.len()).then(one.cmp(other))
            })
        }),
        ("the second where equal", |first, second| {
            ordered(first, second, |one, other| {
                one.cmp(other).then(Ordering::Greater)
            })
        }),
        ("signed bytes", |first, second| {
            let signed =
                |form: &[u8]| -> Vec<i8> { form.iter().map(|b| b.cast_signed()).collect() };
            ordered(first, second, |one, other| signed(one).cmp(&signed(other)))
        }),
        ("numbers of two bytes", |first, second| {
            let words = |form: &[u8]| -> Vec<u16> {
                let pairs = form.chunks(2);
                pairs
                    .map(|pair| {
                        pair.iter()
                            .rev()
                            .fold(0, |sum, b| 256 * sum + u16::from(*b))
                    })
                    .collect()
            };
            ordered(first, second, |one, other| words(one).cmp(&words(other)))
        }),
        ("not the directory", |first, second| {
            ordered(first, second, |one, other| one[20..].cmp(&other[20..]))
        }),
        ("not the last byte", |first, second| {
            let cut = |form: &[u8]| form[..form.len() - 1].to_vec();
            ordered(first, second, |one, other| cut(one).cmp(&cut(other)))
        }),
        ("the accepted one of two", |first, second| {
            match [first, second].map(|image| reference::check(image).number == 0) {
                [true, false] => whole(0, first),
                [false, true] => whole(1, second),
                _ => reference::earlier(first, second),
            }
        }),
        (
            "the first where the second is refused",
            |first, second| match reference::check(first).number {
                0 if reference::check(second).number != 0 => whole(0, first),
                _ => reference::earlier(first, second),
            },
        ),
        (
            "an empty part of the second",
            |first, second| match reference::earlier(first, second) {
                Which::REFUSED => whole(1, &[]),
                which => which,
            },
        ),
        ("the first where the images begin alike", |first, second| {
            ordered(first, second, |one, other| {
                let shorter = one.len().min(other.len()).min(256);
                one[..shorter].cmp(&other[..shorter])
            })
        }),
    ];
    for (what, earlier) in mistakes {
        assert!(
            is_found(&Engine {
                earlier,
                ..REFERENCE
            }),
            "{what}"
        );
    }
}

fn whole(second: u32, image: &[u8]) -> Which {
    Which {
        second,
        len: image.len(),
    }
}

/// By another order of the forms.
fn ordered(first: &[u8], second: &[u8], order: impl Fn(&[u8], &[u8]) -> Ordering) -> Which {
    let form = |image: &[u8]| {
        let mut out = vec![0; image.len()];
        (reference::file(image, &mut out).number == 0).then_some(out)
    };
    match (form(first), form(second)) {
        (Some(one), Some(other)) => match order(&one, &other) {
            Ordering::Greater => whole(1, second),
            _ => whole(0, first),
        },
        _ => Which::REFUSED,
    }
}

/// Another form where the reference writes one.
fn written(image: &[u8], out: &mut [u8], form: impl Fn(&Table) -> Table) -> Answer {
    let answer = reference::file(image, out);
    if answer.number == 0 {
        let table = Table::open(image).expect("an accepted image");
        out[..answer.count].copy_from_slice(&form(&table).image());
    }
    answer
}

/// In which order nodes are numbered.
#[derive(Clone, Copy)]
struct Order {
    whole_first: bool,
    second_first: bool,
    as_read: bool,
    from_the_last: bool,
}

const ORDER: Order = Order {
    whole_first: false,
    second_first: false,
    as_read: false,
    from_the_last: false,
};

impl Order {
    fn whole_first(self) -> Order {
        Order {
            whole_first: true,
            ..self
        }
    }

    fn second_first(self) -> Order {
        Order {
            second_first: true,
            ..self
        }
    }

    fn as_read(self) -> Order {
        Order {
            as_read: true,
            ..self
        }
    }

    fn from_the_last(self) -> Order {
        Order {
            from_the_last: true,
            ..self
        }
    }
}

fn filed(table: &Table, order: Order) -> Table {
    let mut states: Vec<usize> = (0..table.states.len()).collect();
    if order.from_the_last {
        states.reverse();
    }
    let mut commands = Vec::new();
    for state in states {
        let body = table.states[state].command;
        visit(table, Family::Command, body, order, &mut commands);
    }
    let mut users = commands.clone();
    if order.as_read {
        users.clear();
        for state in 0..table.states.len() {
            let nodes = table.nodes_of(state).into_iter();
            users.extend(
                nodes
                    .filter(|(family, _)| *family == Family::Command)
                    .map(|(_, n)| n),
            );
        }
    }
    let mut expressions = Vec::new();
    for user in users {
        if let Some(part) = table.commands[usize::from(user)].clone().expression() {
            visit(table, Family::Expression, *part, order, &mut expressions);
        }
    }
    numbered(table, &commands, &expressions)
}

fn visit(table: &Table, family: Family, number: u16, order: Order, visited: &mut Vec<u16>) {
    if order.whole_first {
        visited.push(number);
    }
    let mut node = node(table, family, number);
    let mut parts: Vec<u16> = node
        .own_parts(family)
        .into_iter()
        .map(|part| *part)
        .collect();
    if order.second_first {
        parts.reverse();
    }
    for part in parts {
        visit(table, family, part, order, visited);
    }
    if !order.whole_first {
        visited.push(number);
    }
}

fn node(table: &Table, family: Family, number: u16) -> Node {
    match family {
        Family::Command => table.commands[usize::from(number)],
        Family::Expression => table.expressions[usize::from(number)],
    }
}

/// The design with the nodes in these orders, given by their old numbers.
fn numbered(table: &Table, commands: &[u16], expressions: &[u16]) -> Table {
    let new = |order: &[u16], old: u16| {
        let place = order.iter().position(|&number| number == old);
        place.expect("every node is visited") as u16
    };
    let mut form = table.clone();
    for state in &mut form.states {
        state.command = new(commands, state.command);
    }
    for (node, &old) in form.commands.iter_mut().zip(commands) {
        *node = table.commands[usize::from(old)];
        if let Some(part) = node.expression() {
            *part = new(expressions, *part);
        }
        for part in node.own_parts(Family::Command) {
            *part = new(commands, *part);
        }
    }
    for (node, &old) in form.expressions.iter_mut().zip(expressions) {
        *node = table.expressions[usize::from(old)];
        for part in node.own_parts(Family::Expression) {
            *part = new(expressions, *part);
        }
    }
    form
}

/// Only the commands get the numbers of the form.
fn old_expressions(table: &Table) -> Table {
    let mut commands = Vec::new();
    for state in &table.states {
        visit(table, Family::Command, state.command, ORDER, &mut commands);
    }
    let expressions: Vec<u16> = (0..table.expressions.len() as u16).collect();
    numbered(table, &commands, &expressions)
}

fn by_old_commands(table: &Table) -> Table {
    let (mut commands, mut expressions) = (Vec::new(), Vec::new());
    for state in &table.states {
        visit(table, Family::Command, state.command, ORDER, &mut commands);
    }
    for mut node in table.commands.iter().copied() {
        if let Some(part) = node.expression() {
            visit(table, Family::Expression, *part, ORDER, &mut expressions);
        }
    }
    numbered(table, &commands, &expressions)
}

fn old_bodies(table: &Table) -> Table {
    Table {
        states: table.states.clone(),
        ..filed(table, ORDER)
    }
}

/// A goto's first argument moves as if it were the number of a command.
fn moved_arguments(table: &Table) -> Table {
    let mut form = filed(table, ORDER);
    let commands = form.commands.len() as u16;
    for node in form.commands.iter_mut().filter(|node| node.kind == 4) {
        node.a = (node.a + 1) % commands;
    }
    form
}
