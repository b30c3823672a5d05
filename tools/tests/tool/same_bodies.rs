//! Bodies of two tables, apart from node numbers.

use caisson_tools::Table;

/// Node for node.
pub fn same_command(one: &Table, left: u16, other: &Table, right: u16) -> bool {
    let left = one.commands[usize::from(left)];
    let right = other.commands[usize::from(right)];
    let same = |left, right| same_command(one, left, other, right);
    let value = |left, right| same_expression(one, left, other, right);
    (left.kind, left.which) == (right.kind, right.which)
        && match left.kind {
            1 => value(left.a, right.a),
            2 => same(left.a, right.a) && same(left.b, right.b),
            4 => left == right,
            5 => value(left.a, right.a) && same(left.b, right.b) && same(left.c, right.c),
            _ => true,
        }
}

/// The same commands in the same order, however their sequences nest.
pub fn same_commands(one: &Table, left: u16, other: &Table, right: u16) -> bool {
    let (left, right) = (listed(one, left), listed(other, right));
    left.len() == right.len()
        && left.into_iter().zip(right).all(|(left, right)| {
            let nodes = (
                one.commands[usize::from(left)],
                other.commands[usize::from(right)],
            );
            match (nodes.0.kind, nodes.1.kind) {
                (5, 5) => {
                    same_expression(one, nodes.0.a, other, nodes.1.a)
                        && same_commands(one, nodes.0.b, other, nodes.1.b)
                        && same_commands(one, nodes.0.c, other, nodes.1.c)
                }
                _ => same_command(one, left, other, right),
            }
        })
}

fn listed(table: &Table, command: u16) -> Vec<u16> {
    let node = table.commands[usize::from(command)];
    match node.kind {
        2 => [listed(table, node.a), listed(table, node.b)].concat(),
        _ => vec![command],
    }
}

fn same_expression(one: &Table, left: u16, other: &Table, right: u16) -> bool {
    let left = one.expressions[usize::from(left)];
    let right = other.expressions[usize::from(right)];
    let same = |left, right| same_expression(one, left, other, right);
    match left.kind {
        0 | 1 => left == right,
        _ => left.kind == right.kind && same(left.a, right.a) && same(left.b, right.b),
    }
}
