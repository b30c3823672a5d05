//! A design with every count at its limit.

use crate::reference::image::GOTO;
use crate::reference::limits::{
    MOST_COMMANDS, MOST_EXPRESSIONS, MOST_LABELS, MOST_REGISTERS, MOST_STATES, WIDEST,
};
use crate::table::{Node, Table};

/// The labels are a chain, the odd registers ports, the widths 32 or 9 to 22. The root falls; each
/// other state assigns seven or eight times and goes to the next.
pub fn largest() -> Table {
    let rows: Vec<u16> = (0..MOST_LABELS).map(|label| u16::MAX << label).collect();
    let mut table = Table::new(&rows);
    for register in 0..MOST_REGISTERS {
        let width = match register % 3 {
            0 => WIDEST,
            _ => 9 + (register % 14) as u8,
        };
        table.register(0, (register % 2) as u8, 7 * register as u32, width);
    }
    let body = table.fall();
    table.state(0, 0, body);
    for state in 1..MOST_STATES {
        let next = if state + 1 < MOST_STATES {
            state + 1
        } else {
            1
        };
        let assigns = if state <= 39 { 8 } else { 7 };
        let mut body = table.goto(next as u8);
        for _ in 0..assigns {
            let assign = assign(&mut table);
            body = table.sequence(assign, body);
        }
        table.state(0, 0, body);
    }
    assert_eq!(table.commands.len(), MOST_COMMANDS);
    assert_eq!(table.expressions.len(), MOST_EXPRESSIONS);
    table
}

/// The first 304 assignments take five expressions, the others three. All read any register and
/// name an even one, which is inner.
fn assign(table: &mut Table) -> u16 {
    let number = table.commands.len();
    let kind = 2 + (number % 7) as u8;
    let left = table.read((number % MOST_REGISTERS) as u8);
    let right = table.read((number / 3 % MOST_REGISTERS) as u8);
    let mut value = table.operation(kind, left, right);
    if table.expressions.len() < 5 * 304 {
        let constant = table.constant(number as u32);
        value = table.add(value, constant);
    }
    table.assign((number % 5 * 14 % MOST_REGISTERS) as u8, value)
}

/// The largest design with its states going round among the first ones, up to this state: no state behind it is
/// reached.
pub fn going_round(largest: &Table, last: usize) -> Table {
    let mut table = largest.clone();
    let onward = (last + 1) as u8;
    let goto = |node: &&mut Node| node.kind == GOTO && node.which == onward;
    if let Some(node) = table.commands.iter_mut().find(goto) {
        node.which = 1;
    }
    table
}

/// The same states, reached from the highest number down.
pub fn going_down(largest: &Table) -> Table {
    let mut table = largest.clone();
    let gotos = table.commands.iter_mut().filter(|node| node.kind == GOTO);
    // In the order of their states; the first of them goes to the last state.
    for (before, node) in gotos.enumerate() {
        node.which = match before {
            0 => (MOST_STATES - 1) as u8,
            _ => before as u8,
        };
    }
    table
}
