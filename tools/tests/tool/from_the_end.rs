//! Flow faults come in reading order, however the nodes are numbered. In the table of a text the numbers
//! of assignments, gotos and falls rise as one reads; here they fall.

use crate::common::bytes;
use caisson_tools::{library, read, Table};

struct FromTheEnd {
    old: Table,
    new: Table,
    /// The new number of each command.
    numbers: Vec<u16>,
}

/// The same design with its nodes numbered from the last state to the first, parts from right to left;
/// and the new numbers of its commands.
pub fn from_the_end(image: &[u8]) -> (Vec<u8>, Vec<u16>) {
    let old = read(image).unwrap();
    let mut new = old.clone();
    new.commands.clear();
    new.expressions.clear();
    let numbers = vec![0; old.commands.len()];
    let mut all = FromTheEnd { old, new, numbers };
    for state in (0..all.old.states.len()).rev() {
        all.new.states[state].command = all.command(all.old.states[state].command);
    }
    (all.new.image(), all.numbers)
}

impl FromTheEnd {
    fn command(&mut self, number: u16) -> u16 {
        let mut node = self.old.commands[usize::from(number)];
        match node.kind {
            1 => node.a = self.expression(node.a),
            2 => {
                node.b = self.command(node.b);
                node.a = self.command(node.a);
            }
            5 => {
                node.c = self.command(node.c);
                node.b = self.command(node.b);
                node.a = self.expression(node.a);
            }
            _ => {}
        }
        let new = self.new.commands.len() as u16;
        self.new.commands.push(node);
        self.numbers[usize::from(number)] = new;
        new
    }

    fn expression(&mut self, number: u16) -> u16 {
        let mut node = self.old.expressions[usize::from(number)];
        if node.kind > 1 {
            node.b = self.expression(node.b);
            node.a = self.expression(node.a);
        }
        self.new.expressions.push(node);
        self.new.expressions.len() as u16 - 1
    }
}

/// The same command is charged by the same number.
#[test]
fn numbers_of_nodes_do_not_matter() {
    for (name, number, place) in [
        ("high_timer", 10, 10),
        ("leak", 10, 2),
        ("secret_goto", 11, 3),
        ("secret_fall", 12, 3),
    ] {
        let image = bytes(&format!("designs/{name}.table"));
        let (again, numbers) = from_the_end(&image);
        let (before, after) = (library::check(&image), library::check(&again));
        assert_eq!((after.number, after.place), (number, place), "{name}");
        assert_eq!(before.number, number, "{name}");
        assert_eq!(usize::from(numbers[before.place]), place, "{name}");
    }
}
