//! Writes bodies and expressions that keep shape and flow by construction.

use super::random::Random;
use crate::reference::image::{Bounds, INNER, LAST_OPERATION};
use crate::reference::limits::{self, PARAMETER_REGISTER};
use crate::table::{Node, Table};

const DEEPEST: u32 = limits::DEEPEST as u32;

/// An expression still to be written, and the registers that it may read.
pub struct Slot {
    pub command: usize,
    pub palette: Vec<u8>,
}

pub struct Author<'a> {
    table: &'a mut Table,
    random: &'a mut Random,
    slots: Vec<Slot>,
    scope: Scope,
}

/// What the state being written offers. Labels are label bytes, registers are register bytes: both may
/// stand for a parameter.
#[derive(Default)]
struct Scope {
    label: u8,
    parameters: Vec<Bounds>,
    may_fall: bool,
    gotos: Vec<Destination>,
    cut: Cut,
}

/// A state that a goto may name, what it passes, and the label that the goto then flows to.
#[derive(Clone)]
struct Destination {
    state: u8,
    arguments: Vec<u8>,
    label: u8,
}

/// So many lists of arguments are tried for a state with parameters.
const TRIES: usize = 3;

/// How sizes are cut in two: combs grow deep, halves stay shallow.
#[derive(Clone, Copy, Default)]
enum Cut {
    #[default]
    Anywhere,
    LeftComb,
    RightComb,
    Halves,
}

impl<'a> Author<'a> {
    pub fn new(table: &'a mut Table, random: &'a mut Random) -> Author<'a> {
        let mut author = Author {
            table,
            random,
            slots: Vec::new(),
            scope: Scope::default(),
        };
        author.scope.cut = author.choose_cut();
        author
    }

    /// The body of a state, of so many commands (an odd number).
    pub fn write_state(&mut self, state: usize, size: usize) {
        let own = self.table.states[state];
        self.scope.parameters = self.table.scope(state);
        self.scope = Scope {
            label: own.label,
            parameters: self.table.scope(state),
            may_fall: self.may_fall(state),
            gotos: self.gotos(state),
            cut: self.choose_cut(),
        };
        self.table.states[state].command = self.transfer(size, DEEPEST, &[own.label]);
    }

    /// There is a default child, and it is at or above the state.
    fn may_fall(&self, state: usize) -> bool {
        let label = |state: usize| self.table.states[state].label;
        let children = self.table.children(state);
        let default = children.first().copied().map(usize::from);
        default.is_some_and(|child| self.flows(&[label(state)], label(child)))
    }

    /// The siblings of a state and itself, each with arguments that it takes.
    fn gotos(&mut self, state: usize) -> Vec<Destination> {
        let mut gotos = Vec::new();
        if state == 0 {
            return gotos;
        }
        let parent = usize::from(self.table.states[state].parent);
        for sibling in self.table.children(parent) {
            let taken = self.table.states[usize::from(sibling)].count;
            if usize::from(sibling) == state {
                // Its own parameters passed on: so some transfer is always possible.
                let first = PARAMETER_REGISTER + self.table.first_own(state) as u8;
                let mut own: Vec<u8> = (first..first + taken).collect();
                self.add_goto(&mut gotos, sibling, own.clone());
                own.reverse();
                if taken == 2 && self.fit(sibling, &own) {
                    self.add_goto(&mut gotos, sibling, own);
                }
            } else if taken == 0 {
                self.add_goto(&mut gotos, sibling, Vec::new());
            }
            if taken > 0 {
                self.add_gotos(&mut gotos, sibling);
            }
        }
        gotos
    }

    /// To a state with parameters, where there is something to be passed.
    fn add_gotos(&mut self, gotos: &mut Vec<Destination>, state: u8) {
        let named = self.table.states[usize::from(state)];
        let of_each: Vec<Vec<u8>> = named.bounds[..usize::from(named.count)]
            .iter()
            .map(|&bounds| self.table.fitting(&self.scope.parameters, bounds))
            .collect();
        if of_each.iter().any(Vec::is_empty) {
            return;
        }
        for _ in 0..TRIES {
            let arguments = of_each.iter().map(|fitting| *self.random.pick(fitting));
            let arguments = arguments.collect();
            self.add_goto(gotos, state, arguments);
        }
    }

    /// Each argument always lies within the bounds it is given to.
    fn fit(&self, state: u8, arguments: &[u8]) -> bool {
        let pairs = self.table.states[usize::from(state)].bounds;
        let scope = &self.scope.parameters;
        let mut given = arguments.iter().zip(pairs);
        given.all(|(&argument, bounds)| self.table.always_within(scope, argument, bounds))
    }

    fn add_goto(&self, gotos: &mut Vec<Destination>, state: u8, arguments: Vec<u8>) {
        gotos.push(Destination {
            state,
            label: self.table.named_label(state, &arguments),
            arguments,
        });
    }

    pub fn finish(self) -> Vec<Slot> {
        self.slots
    }

    /// Makes the number of slots as odd or even as the number of expressions, if it can.
    pub fn fit_slots(&mut self, expressions: usize) {
        if self.slots.len() % 2 != expressions % 2 {
            let commands = &mut self.table.commands;
            let slots = &mut self.slots;
            if let Some(spare) = slots.iter().position(|s| commands[s.command].kind == 1) {
                let slot = slots.remove(spare);
                commands[slot.command] = super::design::EMPTY;
            }
        }
    }

    fn choose_cut(&mut self) -> Cut {
        *self.random.pick(&[
            Cut::Anywhere,
            Cut::Anywhere,
            Cut::LeftComb,
            Cut::RightComb,
            Cut::Halves,
        ])
    }

    fn push(&mut self, node: Node) -> u16 {
        self.table.commands.push(node);
        (self.table.commands.len() - 1) as u16
    }

    fn flows(&self, context: &[u8], to: u8) -> bool {
        let scope = &self.scope.parameters;
        let flows = |&from: &u8| self.table.always_flows(scope, from, to);
        context.iter().all(flows)
    }

    /// A command that transfers. Some transfer is always possible in the context.
    fn transfer(&mut self, size: usize, depth: u32, context: &[u8]) -> u16 {
        if size == 1 {
            return self.leave(context);
        }
        let (first, second) = self.cut(size, depth);
        if self.random.percent(50) {
            let first = self.plain(first, depth - 1, context);
            let second = self.transfer(second, depth - 1, context);
            return self.table.sequence(first, second);
        }
        // The condition may read only what flows to some destination that is left.
        let ceiling = *self.random.pick(&self.destinations(context));
        let readable = self.readable(Some(ceiling));
        let (palette, inner) = self.condition(readable, context);
        let then = self.transfer(first, depth - 1, &inner);
        let otherwise = self.transfer(second, depth - 1, &inner);
        self.branch(palette, then, otherwise)
    }

    /// A command that does not transfer.
    fn plain(&mut self, size: usize, depth: u32, context: &[u8]) -> u16 {
        if size == 1 {
            return self.act(context);
        }
        let (first, second) = self.cut(size, depth);
        if self.random.percent(60) {
            let first = self.plain(first, depth - 1, context);
            let second = self.plain(second, depth - 1, context);
            return self.table.sequence(first, second);
        }
        let readable = self.readable(None);
        let (palette, inner) = self.condition(readable, context);
        let then = self.plain(first, depth - 1, &inner);
        let otherwise = self.plain(second, depth - 1, &inner);
        self.branch(palette, then, otherwise)
    }

    fn leave(&mut self, context: &[u8]) -> u16 {
        let falls = self.scope.may_fall && self.flows(context, self.scope.label);
        let mut gotos = self.scope.gotos.clone();
        gotos.retain(|goto| self.flows(context, goto.label));
        if falls && (gotos.is_empty() || self.random.percent(60)) {
            self.table.fall()
        } else {
            let goto = self.random.pick(&gotos);
            self.table.goto_with(goto.state, &goto.arguments)
        }
    }

    /// The labels to which the context may still transfer: never none.
    fn destinations(&self, context: &[u8]) -> Vec<u8> {
        let mut labels: Vec<u8> = self.scope.gotos.iter().map(|goto| goto.label).collect();
        labels.push(self.scope.label);
        labels.retain(|&label| self.flows(context, label));
        labels
    }

    /// An assignment where one is allowed, otherwise a skip.
    fn act(&mut self, context: &[u8]) -> u16 {
        let mut writable = self.table.of_kind(INNER);
        writable.extend(self.parameters());
        writable.retain(|&register| self.flows(context, self.table.label_of(register)));
        if writable.is_empty() || self.random.percent(15) {
            return self.table.skip();
        }
        let register = *self.random.pick(&writable);
        let readable = self.readable(Some(self.table.label_of(register)));
        let palette = self.some(readable);
        let command = self.table.assign(register, 0);
        self.slots.push(Slot {
            command: usize::from(command),
            palette,
        });
        command
    }

    fn branch(&mut self, palette: Vec<u8>, then: u16, otherwise: u16) -> u16 {
        let command = self.push(Node {
            kind: 5,
            b: then,
            c: otherwise,
            ..Node::default()
        });
        self.slots.push(Slot {
            command: usize::from(command),
            palette,
        });
        command
    }

    /// A condition's registers, and the context inside it.
    fn condition(&mut self, readable: Vec<u8>, context: &[u8]) -> (Vec<u8>, Vec<u8>) {
        let palette = self.some(readable);
        let mut inner = context.to_vec();
        for &register in &palette {
            let label = self.table.label_of(register);
            if !inner.contains(&label) {
                inner.push(label);
            }
        }
        (palette, inner)
    }

    /// What flows to the label, if one is given: registers, and parameters in scope.
    fn readable(&self, ceiling: Option<u8>) -> Vec<u8> {
        let registers = 0..self.table.registers.len() as u8;
        let mut readable: Vec<u8> = registers.chain(self.parameters()).collect();
        readable.retain(|&register| {
            ceiling.is_none_or(|to| self.flows(&[self.table.label_of(register)], to))
        });
        readable
    }

    /// The register bytes that name the parameters in scope, each twice: what is made of parameters is to
    /// be met often.
    fn parameters(&self) -> impl Iterator<Item = u8> {
        let first = PARAMETER_REGISTER;
        let all = first..first + self.scope.parameters.len() as u8;
        all.clone().chain(all)
    }

    /// Up to three of the registers.
    fn some(&mut self, mut registers: Vec<u8>) -> Vec<u8> {
        self.random.shuffle(&mut registers);
        registers.truncate(self.random.between(0, 3));
        registers
    }

    /// An expression of so many nodes (an odd number) over the palette.
    pub fn write_expression(&mut self, palette: &[u8], size: usize) -> u16 {
        self.operation(palette, size, DEEPEST)
    }

    fn operation(&mut self, palette: &[u8], size: usize, depth: u32) -> u16 {
        if size == 1 {
            if palette.is_empty() || self.random.percent(35) {
                let value = self.random.value();
                return self.table.constant(value);
            }
            let register = *self.random.pick(palette);
            return self.table.read(register);
        }
        let (left, right) = self.cut(size, depth);
        let left = self.operation(palette, left, depth - 1);
        let right = self.operation(palette, right, depth - 1);
        let kind = self.random.between(2, LAST_OPERATION.into()) as u8;
        self.table.operation(kind, left, right)
    }

    /// Two odd sizes, one less together, each small enough for the depth that is left.
    fn cut(&mut self, size: usize, depth: u32) -> (usize, usize) {
        let most = (1 << (depth - 1).min(20)) - 1;
        let rest = size - 1;
        let lowest = rest.saturating_sub(most).max(1);
        let highest = (rest - 1).min(most);
        let first = match self.scope.cut {
            Cut::Anywhere => lowest + 2 * self.random.below((highest - lowest) / 2 + 1),
            Cut::LeftComb => highest,
            Cut::RightComb => lowest,
            Cut::Halves => lowest + 2 * ((highest - lowest) / 4),
        };
        (first, rest - first)
    }
}
