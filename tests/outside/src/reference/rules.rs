//! Shape, ports that are assigned or passed, parameters, default children and flow (refusals 8, 16, 19
//! and 9 to 12), on an image whose nodes form one tree for each state.

use super::flow::Flow;
use super::image::*;
use super::labels::Labels;
use super::limits::*;
use super::refusal::Refusal;
use super::scopes::{choices, chosen, chosen_label, label_byte, source, Choice, Scopes, Sources};

/// For each node the state that holds it, and for each command the labels and parameters of its context.
pub struct Surroundings {
    pub state: [u8; MOST_COMMANDS],
    pub expression_state: [u8; MOST_EXPRESSIONS],
    pub context: [Sources; MOST_COMMANDS],
}

/// The states' parameters, and every choice of labels for those in scope of each.
pub struct Parameters {
    pub scopes: Scopes,
    pub choices: Vec<Vec<Choice>>,
}

/// The states' fields as tables, for reading by number.
pub struct States {
    count: usize,
    parent: [u8; MOST_STATES],
    pub label: [u8; MOST_STATES],
    /// The lowest-numbered child.
    default_child: [Option<u8>; MOST_STATES],
}

pub fn judge(image: &Image, labels: &Labels) -> Result<(), Refusal> {
    let (states, around, parameters) = judge_before_flow(image, labels)?;
    Flow::of(image, &states, &around, &parameters, labels).judge(image)
}

/// Refusals 8, 16, 19 and 9. Gives what the flow is judged by.
pub fn judge_before_flow(
    image: &Image,
    labels: &Labels,
) -> Result<(States, Surroundings, Parameters), Refusal> {
    let states = States::of(image);
    let around = Surroundings::of(image);
    judge_shape(image, &states, &around)?;
    judge_ports(image)?;
    let parameters = Parameters::judge(image, labels, &states, &around)?;
    judge_children(image, &states, &around, &parameters, labels)?;
    Ok((states, around, parameters))
}

/// Every fault of refusals 10 to 12, in the order of the nodes. Expects an image that passes the checks
/// before them.
pub fn flow_faults(image: &Image) -> Vec<Refusal> {
    let labels = Labels::judge(image).expect("a lattice");
    let states = States::of(image);
    let around = Surroundings::of(image);
    let parameters = Parameters::judge(image, &labels, &states, &around).expect("no 19");
    Flow::of(image, &states, &around, &parameters, &labels).faults(image)
}

/// For each choice of labels in the state that holds a command, whether the command's context flows to
/// what a label byte stands for. Expects an image that passes the checks up to 19.
pub fn context_flows(image: &Image, command: usize, to: u8) -> Vec<(Choice, bool)> {
    let labels = Labels::judge(image).expect("a lattice");
    let states = States::of(image);
    let around = Surroundings::of(image);
    let parameters = Parameters::judge(image, &labels, &states, &around).expect("no 19");
    let own = &parameters.choices[usize::from(around.state[command])];
    let context = around.context[command];
    let flows = |choice| labels.flow(chosen(context, choice), chosen_label(to, choice));
    own.iter().map(|&choice| (choice, flows(choice))).collect()
}

impl Parameters {
    /// Refusal 19.
    fn judge(
        image: &Image,
        labels: &Labels,
        states: &States,
        around: &Surroundings,
    ) -> Result<Parameters, Refusal> {
        let scopes = Scopes::judge(image, labels, states, around)?;
        let of_state = |state: usize| choices(scopes.of(state as u8), labels);
        let choices = (0..image.states().len()).map(of_state).collect();
        Ok(Parameters { scopes, choices })
    }

    /// In this state, for each choice of labels, the sources flow to what the label byte stands for.
    pub fn flow(&self, state: u8, sources: Sources, to: u8, labels: &Labels) -> bool {
        let mut choices = self.choices[usize::from(state)].iter();
        choices.all(|&choice| labels.flow(chosen(sources, choice), chosen_label(to, choice)))
    }
}

impl States {
    fn of(image: &Image) -> States {
        let mut states = States {
            count: image.states().len(),
            parent: [0; MOST_STATES],
            label: [0; MOST_STATES],
            default_child: [None; MOST_STATES],
        };
        for (number, state) in image.states().enumerate() {
            states.parent[number] = state.parent;
            states.label[number] = state.label;
            if number != 0 {
                states.default_child[usize::from(state.parent)].get_or_insert(number as u8);
            }
        }
        states
    }

    pub fn is_default_child(&self, state: usize) -> bool {
        let parent = usize::from(self.parent[state]);
        state != 0 && self.default_child[parent] == Some(state as u8)
    }

    /// A goto names a sibling or the state itself; the root holds no goto and is no sibling.
    fn may_go(&self, from: u8, to: u8) -> bool {
        let parent = |state: u8| self.parent[usize::from(state)];
        from != 0 && to != 0 && parent(from) == parent(to)
    }
}

impl Surroundings {
    /// Owners stand above their parts, so one pass downwards meets every owner first.
    fn of(image: &Image) -> Surroundings {
        let reads = reads(image);
        let mut around = Surroundings {
            state: [0; MOST_COMMANDS],
            expression_state: [0; MOST_EXPRESSIONS],
            context: [0; MOST_COMMANDS],
        };
        for (number, state) in image.states().enumerate() {
            around.set(state.command, number as u8, source(state.label));
        }
        for (number, node) in image.commands().enumerate().rev() {
            let (state, context) = (around.state[number], around.context[number]);
            if matches!(node.kind, ASSIGN | IF) {
                around.expression_state[usize::from(node.a)] = state;
            }
            match node.kind {
                // An assignment's flow is judged with what it reads, so keep that with it.
                ASSIGN => around.context[number] |= reads[usize::from(node.a)],
                SEQUENCE => {
                    around.set(node.a, state, context);
                    around.set(node.b, state, context);
                }
                IF => {
                    let inner = context | reads[usize::from(node.a)];
                    around.set(node.b, state, inner);
                    around.set(node.c, state, inner);
                }
                _ => {}
            }
        }
        for (number, node) in image.expressions().enumerate().rev() {
            if node.kind > READ {
                for part in [node.a, node.b] {
                    around.expression_state[usize::from(part)] = around.expression_state[number];
                }
            }
        }
        around
    }

    fn set(&mut self, command: u16, state: u8, context: Sources) {
        self.state[usize::from(command)] = state;
        self.context[usize::from(command)] = context;
    }
}

/// For each expression the labels of all registers read in it, and the parameters.
fn reads(image: &Image) -> [Sources; MOST_EXPRESSIONS] {
    let register_labels: Vec<u8> = image.registers().map(|register| register.label).collect();
    let mut reads = [0; MOST_EXPRESSIONS];
    for (number, node) in image.expressions().enumerate() {
        reads[number] = match node.kind {
            CONSTANT => 0,
            READ => source(label_byte(node.which, &register_labels)),
            _ => reads[usize::from(node.a)] | reads[usize::from(node.b)],
        };
    }
    reads
}

/// Refusal 8: the lowest node at which any shape rule fails.
fn judge_shape(image: &Image, states: &States, around: &Surroundings) -> Result<(), Refusal> {
    let mut heads_state = [false; MOST_COMMANDS];
    for state in image.states() {
        heads_state[usize::from(state.command)] = true;
    }
    let mut transfers = [false; MOST_COMMANDS];
    for (number, node) in image.commands().enumerate() {
        let state = around.state[number];
        let part = |part: u16| transfers[usize::from(part)];
        let (transfer, holds) = match node.kind {
            SEQUENCE => (part(node.b), !part(node.a)),
            IF => (part(node.b) && part(node.c), part(node.b) == part(node.c)),
            FALL => (true, states.default_child[usize::from(state)].is_some()),
            GOTO => (true, states.may_go(state, node.which)),
            _ => (false, true),
        };
        transfers[number] = transfer;
        if !holds || (heads_state[number] && !transfer) {
            return Err(Refusal::new(8, number));
        }
    }
    Ok(())
}

/// Refusal 16, requests E1 and E8: no assignment names a port, and no goto passes one for a parameter of
/// the state it names. Reading one is free.
fn judge_ports(image: &Image) -> Result<(), Refusal> {
    let ports: Vec<bool> = image
        .registers()
        .map(|register| register.kind == PORT)
        .collect();
    let is_port = |register: u16| ports.get(usize::from(register)) == Some(&true);
    let counts: Vec<u8> = image.states().map(|state| state.count).collect();
    for (number, node) in image.commands().enumerate() {
        let at_fault = match node.kind {
            ASSIGN => is_port(node.which.into()),
            GOTO => {
                let (arguments, _) = node.arguments(counts[usize::from(node.which)]);
                arguments.into_iter().any(is_port)
            }
            _ => false,
        };
        if at_fault {
            return Err(Refusal::new(16, number));
        }
    }
    Ok(())
}

/// Refusal 9, request E4: the default child of a state that holds a fall, anywhere in its body, is at
/// or above that state, request E8: for each choice of labels. Every other child may have any label.
fn judge_children(
    image: &Image,
    states: &States,
    around: &Surroundings,
    parameters: &Parameters,
    labels: &Labels,
) -> Result<(), Refusal> {
    let mut holds_fall = [false; MOST_STATES];
    for (number, node) in image.commands().enumerate() {
        if node.kind == FALL {
            holds_fall[usize::from(around.state[number])] = true;
        }
    }
    for child in 1..states.count {
        let parent = usize::from(states.parent[child]);
        let entered = holds_fall[parent] && states.is_default_child(child);
        // A default child has no parameters of its own, so what is in its scope is in its parent's.
        let rises = || {
            let from = source(states.label[parent]);
            parameters.flow(child as u8, from, states.label[child], labels)
        };
        if entered && !rises() {
            return Err(Refusal::new(9, child));
        }
    }
    Ok(())
}
