//! A cycle by the step rules, on an accepted image, values within their widths, sound targets and sound
//! bindings. The target area has the targets, and behind them two bindings for each state.

use super::image::*;
use super::labels::Labels;
use super::limits::*;
use super::operations;
use super::scopes::{lies_within, parameter};

#[derive(Clone, Copy)]
enum Command {
    Skip,
    Assign {
        register: u8,
        value: u16,
    },
    Sequence {
        first: u16,
        second: u16,
    },
    Fall,
    Goto {
        state: u8,
        arguments: [u8; MOST_PARAMETERS],
    },
    If {
        condition: u16,
        then: u16,
        otherwise: u16,
    },
}

#[derive(Clone, Copy)]
enum Expression {
    Constant(u32),
    Read(u8),
    Operation { kind: u8, left: u16, right: u16 },
}

/// A state as it ran.
#[derive(Clone, Copy, Debug, PartialEq, Eq)]
pub struct Ran {
    pub state: u8,
    /// Its label, which a binding may have given it.
    pub label: u8,
    /// The registers bound to its own parameters.
    pub bound: [Option<u8>; MOST_PARAMETERS],
}

/// What a cycle shows of itself to whoever looks on.
pub trait Watch {
    /// The next state of the walk.
    fn state(&mut self, _ran: Ran) {}

    /// An operation, with the values of its parts.
    fn operation(&mut self, _kind: u8, _left: u32, _right: u32) {}

    /// An assignment: the byte that names the register, the register, and the value before it is cut.
    fn assignment(&mut self, _byte: u8, _register: u8, _value: u32) {}

    /// The goto that ends the cycle, and its arguments as they are written.
    fn goto(&mut self, _state: u8, _arguments: [u8; MOST_PARAMETERS]) {}
}

/// Nobody looks on.
impl Watch for () {}

/// A walk, written down.
impl Watch for Vec<u8> {
    fn state(&mut self, ran: Ran) {
        self.push(ran.state);
    }
}

/// With labels and bindings.
impl Watch for Vec<Ran> {
    fn state(&mut self, ran: Ran) {
        self.push(ran);
    }
}

/// How a body ends.
enum Ending {
    Goto {
        state: u8,
        /// The registers that its parameters are to be bound to.
        bound: [u8; MOST_PARAMETERS],
    },
    Fall,
}

/// What a command comes to: it went through, or it transferred.
enum Outcome {
    Done,
    Transferred(Ending),
}

pub struct Machine {
    commands: Vec<Command>,
    expressions: Vec<Expression>,
    states: Vec<State>,
    /// The place among the bindings of each parameter in scope of a state, in the order of their numbers.
    scopes: Vec<Vec<usize>>,
    registers: Vec<Register>,
    labels: Labels,
    /// The default child of each state; a childless state's own number.
    defaults: Vec<u8>,
    /// Each state with all its descendants, one bit for each.
    families: Vec<u64>,
}

impl Machine {
    pub fn new(image: &Image) -> Machine {
        let states: Vec<State> = image.states().collect();
        let mut defaults: Vec<u8> = (0..states.len() as u8).collect();
        let mut families: Vec<u64> = (0..states.len()).map(|state| 1 << state).collect();
        // Downwards: a child is done before its parent, and the lowest child comes last.
        for child in (1..states.len()).rev() {
            let parent = usize::from(states[child].parent);
            defaults[parent] = child as u8;
            families[parent] |= families[child];
        }
        Machine {
            commands: image.commands().map(command).collect(),
            expressions: image.expressions().map(expression).collect(),
            scopes: scopes(&states),
            states,
            registers: image.registers().collect(),
            labels: Labels::judge(image).expect("a lattice"),
            defaults,
            families,
        }
    }

    /// Default children, and no binding but 0.
    pub fn reset_targets(&self) -> Vec<u8> {
        let mut targets = self.defaults.clone();
        targets.resize(TARGET_BYTES * self.states.len(), 0);
        targets
    }

    /// The lowest state whose target is neither its child nor, if it has none, itself.
    pub fn unsound_target(&self, targets: &[u8]) -> Option<usize> {
        (0..self.states.len()).find(|&state| {
            let target = targets[state];
            let sound = if self.is_childless(state) {
                usize::from(target) == state
            } else {
                target != 0
                    && self
                        .states
                        .get(usize::from(target))
                        .is_some_and(|child| usize::from(child.parent) == state)
            };
            !sound
        })
    }

    /// The lowest state with a binding that is neither 0 nor a register, or that is on the way along the
    /// current targets and has a parameter whose binding is unfit. Expects sound targets.
    pub fn unsound_binding(&self, targets: &[u8]) -> Option<usize> {
        let current = self.current(targets);
        let bindings = &targets[self.states.len()..];
        (0..self.states.len()).find(|&state| {
            let bound = &bindings[MOST_PARAMETERS * state..][..MOST_PARAMETERS];
            let is_none = |&register: &u8| usize::from(register) >= self.registers.len();
            let unknown = bound
                .iter()
                .any(|register| *register != 0 && is_none(register));
            let (pairs, _) = self.states[state].pairs();
            let mut own = bound.iter().zip(pairs);
            unknown
                || current.contains(&state)
                    && own.any(|(&register, bounds)| !self.fits(register, *bounds))
        })
    }

    /// It exists, is no port, and its label lies within the bounds.
    fn fits(&self, register: u8, bounds: Bounds) -> bool {
        let register = self.registers.get(usize::from(register));
        register.is_some_and(|register| {
            register.kind != PORT && lies_within(register.label, bounds, &self.labels)
        })
    }

    /// The states along the current targets: from the root to a childless one, whether or not those
    /// between hold a fall.
    pub fn current(&self, targets: &[u8]) -> Vec<usize> {
        let mut current = vec![0];
        let mut state = 0;
        while !self.is_childless(state) {
            state = usize::from(targets[state]);
            current.push(state);
        }
        current
    }

    fn is_childless(&self, state: usize) -> bool {
        usize::from(self.defaults[state]) == state
    }

    pub fn cycle(&self, registers: &mut [u32], targets: &mut [u8], watch: &mut impl Watch) {
        let (targets, bindings) = targets.split_at_mut(self.states.len());
        let mut state = 0;
        loop {
            let mut body = Body {
                machine: self,
                scope: &self.scopes[usize::from(state)],
                bindings,
                registers,
            };
            watch.state(body.ran(state));
            match body.execute(self.states[usize::from(state)].command, watch) {
                Outcome::Transferred(Ending::Goto { state, bound }) => {
                    self.bind(state, bound, bindings);
                    return self.go(state, targets);
                }
                Outcome::Transferred(Ending::Fall) => state = targets[usize::from(state)],
                Outcome::Done => unreachable!("every state's command transfers"),
            }
        }
    }

    /// The own parameters of the state; with one parameter the second byte stays.
    fn bind(&self, state: u8, bound: [u8; MOST_PARAMETERS], bindings: &mut [u8]) {
        let state = usize::from(state);
        let count = usize::from(self.states[state].count);
        bindings[MOST_PARAMETERS * state..][..count].copy_from_slice(&bound[..count]);
    }

    fn go(&self, to: u8, targets: &mut [u8]) {
        let mut family = self.families[usize::from(to)];
        while family != 0 {
            let state = family.trailing_zeros() as usize;
            targets[state] = self.defaults[state];
            family &= family - 1;
        }
        targets[usize::from(self.states[usize::from(to)].parent)] = to;
    }
}

/// A state's body as it runs.
struct Body<'a> {
    machine: &'a Machine,
    scope: &'a [usize],
    bindings: &'a [u8],
    registers: &'a mut [u32],
}

impl Body<'_> {
    fn ran(&self, state: u8) -> Ran {
        let record = &self.machine.states[usize::from(state)];
        let label = match parameter(record.label, PARAMETER_LABEL) {
            Some(number) => {
                let register = self.bindings[self.scope[number]];
                self.machine.registers[usize::from(register)].label
            }
            None => record.label,
        };
        let own = &self.bindings[MOST_PARAMETERS * usize::from(state)..];
        let bound = |number: usize| (number < usize::from(record.count)).then(|| own[number]);
        Ran {
            state,
            label,
            bound: [bound(0), bound(1)],
        }
    }

    /// The register that a byte names, at once or as a parameter.
    fn register(&self, byte: u8) -> u8 {
        match parameter(byte, PARAMETER_REGISTER) {
            Some(number) => self.bindings[self.scope[number]],
            None => byte,
        }
    }

    fn execute(&mut self, command: u16, watch: &mut impl Watch) -> Outcome {
        match self.machine.commands[usize::from(command)] {
            Command::Skip => Outcome::Done,
            Command::Assign { register, value } => {
                let value = self.evaluate(value, watch);
                let byte = register;
                let register = usize::from(self.register(byte));
                watch.assignment(byte, register as u8, value);
                // Modulo 2 to the power of the width: the bits above it are cut off.
                self.registers[register] = value & self.machine.registers[register].most();
                Outcome::Done
            }
            Command::Sequence { first, second } => match self.execute(first, watch) {
                Outcome::Done => self.execute(second, watch),
                transferred => transferred,
            },
            Command::Fall => Outcome::Transferred(Ending::Fall),
            Command::Goto { state, arguments } => {
                // All are read here, before any is set.
                let bound = arguments.map(|argument| self.register(argument));
                watch.goto(state, arguments);
                Outcome::Transferred(Ending::Goto { state, bound })
            }
            Command::If {
                condition,
                then,
                otherwise,
            } => {
                let taken = if self.evaluate(condition, watch) != 0 {
                    then
                } else {
                    otherwise
                };
                self.execute(taken, watch)
            }
        }
    }

    fn evaluate(&self, expression: u16, watch: &mut impl Watch) -> u32 {
        match self.machine.expressions[usize::from(expression)] {
            Expression::Constant(value) => value,
            Expression::Read(register) => self.registers[usize::from(self.register(register))],
            Expression::Operation { kind, left, right } => {
                let left = self.evaluate(left, watch);
                let right = self.evaluate(right, watch);
                watch.operation(kind, left, right);
                operations::value(kind, left, right)
            }
        }
    }
}

/// A parent has a lower number than its child; own parameters come last.
fn scopes(states: &[State]) -> Vec<Vec<usize>> {
    let mut scopes: Vec<Vec<usize>> = Vec::with_capacity(states.len());
    for (number, state) in states.iter().enumerate() {
        let mut scope = match number {
            0 => Vec::new(),
            _ => scopes[usize::from(state.parent)].clone(),
        };
        scope.extend((0..usize::from(state.count)).map(|own| MOST_PARAMETERS * number + own));
        scopes.push(scope);
    }
    scopes
}

fn command(node: Node) -> Command {
    match node.kind {
        ASSIGN => Command::Assign {
            register: node.which,
            value: node.a,
        },
        SEQUENCE => Command::Sequence {
            first: node.a,
            second: node.b,
        },
        FALL => Command::Fall,
        // On an accepted image both are bytes.
        GOTO => Command::Goto {
            state: node.which,
            arguments: [node.a as u8, node.b as u8],
        },
        IF => Command::If {
            condition: node.a,
            then: node.b,
            otherwise: node.c,
        },
        _ => Command::Skip,
    }
}

fn expression(node: Node) -> Expression {
    match node.kind {
        CONSTANT => Expression::Constant(node.constant()),
        READ => Expression::Read(node.which),
        kind => Expression::Operation {
            kind,
            left: node.a,
            right: node.b,
        },
    }
}
