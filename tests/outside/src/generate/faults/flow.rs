//! Faults in flow (refusals 10 to 12): a name or a read becomes one that is not allowed.

use crate::generate::random::Random;
use crate::reference::image::{Bounds, INNER};
use crate::reference::limits::{
    MOST_COMMANDS, MOST_EXPRESSIONS, MOST_PARAMETERS, PARAMETER_REGISTER,
};
use crate::table::{Family, Node, Table};

/// For each command its owner, or the state whose body it is.
pub struct Tree {
    owners: Vec<Owner>,
}

#[derive(Clone, Copy)]
enum Owner {
    State(usize),
    Command(usize),
}

impl Tree {
    /// Expects nodes that are used exactly once; others belong to the root.
    pub fn of(table: &mut Table) -> Tree {
        let mut owners = vec![Owner::State(0); table.commands.len()];
        for (number, state) in table.states.iter().enumerate() {
            owners[usize::from(state.command)] = Owner::State(number);
        }
        for (number, node) in table.commands.iter_mut().enumerate() {
            for part in node.own_parts(Family::Command) {
                owners[usize::from(*part)] = Owner::Command(number);
            }
        }
        Tree { owners }
    }

    pub fn state(&self, mut command: usize) -> usize {
        loop {
            match self.owners[command] {
                Owner::State(state) => return state,
                Owner::Command(owner) => command = owner,
            }
        }
    }

    /// The ifs around a command.
    fn ifs(&self, table: &Table, mut command: usize) -> Vec<usize> {
        let mut ifs = Vec::new();
        while let Owner::Command(owner) = self.owners[command] {
            if table.commands[owner].kind == 5 {
                ifs.push(owner);
            }
            command = owner;
        }
        ifs
    }
}

/// A command of a kind, rather one with an if around it.
fn choose(table: &Table, tree: &Tree, kind: u8, random: &mut Random) -> Option<usize> {
    let of_kind: Vec<usize> = (0..table.commands.len())
        .filter(|&number| table.commands[number].kind == kind)
        .collect();
    if of_kind.is_empty() {
        return None;
    }
    let inside = |number: &&usize| !tree.ifs(table, **number).is_empty();
    let picks: Vec<usize> = (0..8).map(|_| *random.pick(&of_kind)).collect();
    Some(*picks.iter().find(inside).unwrap_or(&picks[0]))
}

pub fn spoil_assign(table: &mut Table, random: &mut Random) {
    let tree = Tree::of(table);
    let Some(number) = choose(table, &tree, 1, random) else {
        return;
    };
    let written = table.label_of(table.commands[number].which);
    let scope = table.scope(tree.state(number));
    match random.below(3) {
        // Of a port 16 speaks.
        0 => {
            let mut writable = table.of_kind(INNER);
            writable.extend(in_scope(&scope));
            table.commands[number].which = *random.pick(&writable);
        }
        1 => {
            let value = usize::from(table.commands[number].a);
            read_too_much(table, value, &scope, written, random);
        }
        _ => condition_too_much(table, &tree, number, written, random),
    }
}

pub fn spoil_goto(table: &mut Table, random: &mut Random) {
    let tree = Tree::of(table);
    let Some(number) = choose(table, &tree, 4, random) else {
        return;
    };
    let own = tree.state(number);
    let Node { which, a, b, .. } = table.commands[number];
    let named = table.named_label(which, &[a, b].map(|field| field as u8));
    match random.below(4) {
        0 | 1 => {
            let siblings = table.children(usize::from(table.states[own].parent));
            let sibling = *random.pick(&siblings);
            pass_any(table, number, sibling, own, random);
        }
        // Another argument alone may do it.
        2 => pass_any(table, number, which, own, random),
        _ => condition_too_much(table, &tree, number, named, random),
    }
}

/// The goto names this state and passes what fits its parameters, so that 19 says nothing; where nothing
/// fits it stays as it was.
fn pass_any(table: &mut Table, goto: usize, named: u8, own: usize, random: &mut Random) {
    let record = table.states[usize::from(named)];
    let scope = table.scope(own);
    let mut fields = [0, 0];
    for (field, &bounds) in fields.iter_mut().zip(record.pairs()) {
        let fitting = table.fitting(&scope, bounds);
        if fitting.is_empty() {
            return;
        }
        *field = u16::from(*random.pick(&fitting));
    }
    let [a, b] = fields;
    table.commands[goto] = Node {
        kind: 4,
        which: named,
        a,
        b,
        c: 0,
    };
}

/// The register bytes of the parameters in scope.
fn in_scope(scope: &[Bounds]) -> impl Iterator<Item = u8> {
    (0..scope.len().min(MOST_PARAMETERS) as u8).map(|number| PARAMETER_REGISTER + number)
}

pub fn spoil_fall(table: &mut Table, random: &mut Random) {
    let tree = Tree::of(table);
    match random.below(3) {
        0 => goto_becomes_fall(table, &tree, random),
        1 => wrap_fall(table, random),
        _ => {
            if let Some(number) = choose(table, &tree, 3, random) {
                let own = table.states[tree.state(number)].label;
                condition_too_much(table, &tree, number, own, random);
            }
        }
    }
}

/// A goto to a higher sibling, perhaps under a high condition, becomes a fall.
fn goto_becomes_fall(table: &mut Table, tree: &Tree, random: &mut Random) {
    let higher: Vec<usize> = (0..table.commands.len())
        .filter(|&number| {
            let node = table.commands[number];
            node.kind == 4 && {
                let own = tree.state(number);
                let named = table.states[usize::from(node.which)].label;
                named != table.states[own].label && !table.children(own).is_empty()
            }
        })
        .collect();
    if !higher.is_empty() {
        table.commands[*random.pick(&higher)] = Node {
            kind: 3,
            ..Node::default()
        };
    }
}

/// A state that only falls: if r then fall else fall, or else goto a sibling above r.
fn wrap_fall(table: &mut Table, random: &mut Random) {
    let falling: Vec<usize> = (0..table.states.len())
        .filter(|&state| table.commands[usize::from(table.states[state].command)].kind == 3)
        .collect();
    let room =
        table.commands.len() + 2 <= MOST_COMMANDS && table.expressions.len() < MOST_EXPRESSIONS;
    if falling.is_empty() || !room {
        return;
    }
    let state = *random.pick(&falling);
    let own = table.states[state];
    let scope = table.scope(state);
    let Some(register) = too_high(table, &scope, own.label, random) else {
        return;
    };
    let label = table.label_of(register);
    let mut siblings = table.children(usize::from(own.parent));
    siblings.retain(|&sibling| {
        let named = table.states[usize::from(sibling)];
        let flows = |from: u8| table.always_flows(&scope, from, named.label);
        state != 0 && named.count == 0 && flows(label) && flows(own.label)
    });
    let condition = table.read(register);
    let otherwise = if siblings.is_empty() {
        table.fall()
    } else {
        let sibling = *random.pick(&siblings);
        table.goto(sibling)
    };
    table.states[state].command = table.branch(condition, own.command, otherwise);
}

/// Some if around the command reads a register that does not flow to the label.
fn condition_too_much(
    table: &mut Table,
    tree: &Tree,
    number: usize,
    label: u8,
    random: &mut Random,
) {
    let ifs = tree.ifs(table, number);
    if !ifs.is_empty() {
        let condition = table.commands[*random.pick(&ifs)].a;
        let scope = table.scope(tree.state(number));
        read_too_much(table, usize::from(condition), &scope, label, random);
    }
}

/// Some leaf of the expression becomes a register that does not flow to the label.
fn read_too_much(
    table: &mut Table,
    mut expression: usize,
    scope: &[Bounds],
    label: u8,
    random: &mut Random,
) {
    while let Node {
        kind: 2.., a, b, ..
    } = table.expressions[expression]
    {
        expression = usize::from(*random.pick(&[a, b]));
    }
    if let Some(register) = too_high(table, scope, label, random) {
        table.expressions[expression] = Node {
            kind: 1,
            which: register,
            ..Node::default()
        };
    }
}

/// A register or a parameter in scope that does not always flow to the label: above it, or not to be
/// compared with it, or so for some choice.
fn too_high(table: &Table, scope: &[Bounds], label: u8, random: &mut Random) -> Option<u8> {
    let flows = |register: u8| table.always_flows(scope, table.label_of(register), label);
    let of = |bytes: &mut dyn Iterator<Item = u8>| -> Vec<u8> {
        bytes.filter(|&register| !flows(register)).collect()
    };
    let registers = of(&mut (0..table.registers.len() as u8));
    let parameters = of(&mut in_scope(scope));
    if !parameters.is_empty() && random.percent(50) {
        return Some(*random.pick(&parameters));
    }
    (!registers.is_empty()).then(|| *random.pick(&registers))
}
