//! The filing form once more, by walking the bodies from their first command, and why a filing was answered as it
//! was, where the number alone does not tell. Each reason has to be met.

use super::tally::Tally;
use crate::answer::Answer;
use crate::reference::image::{ASSIGN, IF};
use crate::reference::limits::DIRECTORY_BYTES;
use crate::table::{Family, Node, Table};

/// A design and its form.
pub struct Filed {
    pub table: Table,
    pub form: Table,
}

impl Filed {
    /// Expects an accepted image.
    pub fn of(image: &[u8]) -> Filed {
        let table = Table::open(image).expect("an image with good sections");
        Filed {
            form: form(&table),
            table,
        }
    }

    pub fn image(&self) -> Vec<u8> {
        self.form.image()
    }

    pub fn is_its_form(&self) -> bool {
        self.table == self.form
    }

    /// The old numbers of the commands in the order of the new ones.
    fn old_numbers(&self) -> Vec<usize> {
        let mut walked = Vec::new();
        for state in &self.table.states {
            walk(&self.table, state.command, &mut walked);
        }
        walked
    }

    /// The expressions that commands use, in the order of the commands' new numbers.
    fn used(&self) -> Vec<u16> {
        let commands = self.old_numbers().into_iter();
        used(commands.map(|number| self.table.commands[number]))
    }
}

fn form(table: &Table) -> Table {
    let mut form = Table {
        commands: Vec::new(),
        expressions: Vec::new(),
        ..table.clone()
    };
    for state in 0..table.states.len() {
        let body = table.states[state].command;
        form.states[state].command = copy_command(&mut form, table, body);
    }
    for number in 0..form.commands.len() {
        let mut node = form.commands[number];
        if let Some(part) = node.expression() {
            *part = form.copy(table, Family::Expression, *part);
        }
        form.commands[number] = node;
    }
    form
}

/// Its expressions still have their old numbers.
fn copy_command(form: &mut Table, from: &Table, number: u16) -> u16 {
    let mut node = from.commands[usize::from(number)];
    for part in node.own_parts(Family::Command) {
        *part = copy_command(form, from, *part);
    }
    form.commands.push(node);
    (form.commands.len() - 1) as u16
}

/// The commands of a tree, parts before the whole.
fn walk(table: &Table, number: u16, walked: &mut Vec<usize>) {
    let mut node = table.commands[usize::from(number)];
    for part in node.own_parts(Family::Command) {
        walk(table, *part, walked);
    }
    walked.push(number.into());
}

fn used(commands: impl Iterator<Item = Node>) -> Vec<u16> {
    let such = commands.filter(|node| matches!(node.kind, ASSIGN | IF));
    such.map(|node| node.a).collect()
}

/// Of a refused image.
pub fn note_refused(tally: &mut Tally, image: &[u8], length: usize) {
    tally.note("an image refused, no bytes", length == 0);
    tally.note("an image refused, long enough", length >= image.len());
}

/// The area as it was lent, and what was answered: 0 or 24.
pub fn note_filed(tally: &mut Tally, filed: &Filed, length: usize, answer: Answer) {
    let right = filed.image().len();
    if answer.number == 24 {
        tally.note("24, the image is its form", filed.is_its_form());
        tally.note("24, another form", !filed.is_its_form());
        tally.note("24, no bytes", length == 0);
        let directory = (1..DIRECTORY_BYTES).contains(&length);
        tally.note("24, less than a directory", directory);
        tally.note("24, a byte too few", length + 1 == right);
        return;
    }
    tally.note("accepted, the image is its form", filed.is_its_form());
    tally.note("accepted, another form", !filed.is_its_form());
    tally.note("accepted, exactly as long", length == right);
    tally.note("accepted, a byte too many", length == right + 1);
    tally.note("accepted, longer", length > right + 1);
    note_commands(tally, filed);
    note_expressions(tally, filed);
}

fn note_commands(tally: &mut Tally, filed: &Filed) {
    let table = &filed.table;
    let roots = table.states.iter().map(|state| state.command);
    tally.note(
        "bodies in another order than their states",
        !roots.is_sorted(),
    );
    let mut node_notes = Orders::default();
    for (number, node) in table.commands.iter().enumerate() {
        node_notes.add(number, *node, Family::Command);
    }
    tally.note(
        "commands, a second part below the first",
        node_notes.second_first,
    );
    tally.note(
        "commands, another node between parts and whole",
        node_notes.apart,
    );
    let moved = !filed.old_numbers().is_sorted();
    let other = table.expressions != filed.form.expressions;
    tally.note("only commands get other numbers", moved && !other);
    tally.note("only expressions get other numbers", !moved && other);
    tally.note("no expressions", table.expressions.is_empty());
    tally.note("commands above number 255", table.commands.len() > 256);
}

fn note_expressions(tally: &mut Tally, filed: &Filed) {
    let table = &filed.table;
    let mut node_notes = Orders::default();
    for (number, node) in table.expressions.iter().enumerate() {
        node_notes.add(number, *node, Family::Expression);
    }
    tally.note(
        "expressions, a second part below the first",
        node_notes.second_first,
    );
    tally.note(
        "expressions, another node between parts and whole",
        node_notes.apart,
    );
    let in_order = filed.used();
    let by_old = used(table.commands.iter().copied()) != in_order;
    tally.note(
        "expressions in another order than their commands",
        !in_order.is_sorted(),
    );
    tally.note("expressions by the old numbers of their commands", by_old);
    tally.note(
        "a condition read before the expressions of a branch",
        reads_otherwise(filed),
    );
    tally.note(
        "expressions above number 255",
        table.expressions.len() > 256,
    );
}

/// In reading order a condition comes before its branches, in the form behind them.
fn reads_otherwise(filed: &Filed) -> bool {
    let table = &filed.table;
    let nodes = (0..table.states.len()).flat_map(|state| table.nodes_of(state));
    let commands = nodes.filter(|(family, _)| *family == Family::Command);
    let read = commands.map(|(_, number)| table.commands[usize::from(number)]);
    used(read) != filed.used()
}

/// How the nodes of one family stand in an image.
#[derive(Default)]
struct Orders {
    second_first: bool,
    apart: bool,
}

impl Orders {
    fn add(&mut self, number: usize, mut node: Node, family: Family) {
        let parts = node.own_parts(family);
        if let [first, second] = &parts[..] {
            self.second_first |= second < first;
            self.apart |= usize::from(**first.max(second)) + 1 < number;
        }
    }
}
