//! Parameters, request E8: which are in scope of each state, and every choice of labels for them
//! (refusal 19).

use super::image::*;
use super::labels::{only, LabelSet, Labels};
use super::limits::*;
use super::refusal::Refusal;
use super::rules::{States, Surroundings};

/// Labels and parameters in scope, one bit for each: the labels' bits, and above them the parameters'.
pub type Sources = u32;

/// A label for each parameter in scope; what is not in scope has none, here 0.
pub type Choice = [u8; MOST_PARAMETERS];

/// The number of the parameter in scope that this byte stands for, if it stands for one: 16 and 17 as a
/// label, 64 and 65 as a register.
pub fn parameter(byte: u8, first: u8) -> Option<usize> {
    let number = usize::from(byte.checked_sub(first)?);
    (number < MOST_PARAMETERS).then_some(number)
}

/// The label byte of what a register byte names.
pub fn label_byte(byte: u8, register_labels: &[u8]) -> u8 {
    match parameter(byte, PARAMETER_REGISTER) {
        Some(number) => PARAMETER_LABEL + number as u8,
        None => register_labels[usize::from(byte)],
    }
}

pub fn source(label_byte: u8) -> Sources {
    1 << label_byte
}

/// The labels that this choice makes of them.
pub fn chosen(sources: Sources, choice: Choice) -> LabelSet {
    let mut labels = sources as LabelSet;
    for (number, label) in choice.into_iter().enumerate() {
        if sources >> PARAMETER_LABEL >> number & 1 == 1 {
            labels |= only(label);
        }
    }
    labels
}

/// The label that this choice makes of a label byte.
pub fn chosen_label(label_byte: u8, choice: Choice) -> u8 {
    match parameter(label_byte, PARAMETER_LABEL) {
        Some(number) => choice[number],
        None => label_byte,
    }
}

/// A parameter of a state, the first or the second of its own.
#[derive(Clone, Copy, Debug, Default, PartialEq, Eq)]
pub struct Parameter {
    pub owner: u8,
    pub own: u8,
    pub bounds: Bounds,
}

/// The parameters in scope of one state, in the order of their numbers.
pub type Scope = Vec<Parameter>;

/// Those of every state.
pub struct Scopes(Vec<Scope>);

impl Scopes {
    /// Refusal 19 at the lowest state, else at the lowest node.
    pub fn judge(
        image: &Image,
        labels: &Labels,
        states: &States,
        around: &Surroundings,
    ) -> Result<Scopes, Refusal> {
        let mut scopes = Scopes(Vec::with_capacity(image.states().len()));
        for (number, state) in image.states().enumerate() {
            let scope = scopes.with_own(number, &state);
            if !state_holds(number, &state, &scope, states, labels) {
                return Err(Refusal::new(19, number));
            }
            scopes.0.push(scope);
        }
        scopes.judge_nodes(image, labels, around)?;
        Ok(scopes)
    }

    pub fn of(&self, state: u8) -> &[Parameter] {
        &self.0[usize::from(state)]
    }

    /// Those of the parent, which has a lower number, and then the state's own.
    fn with_own(&self, number: usize, state: &State) -> Scope {
        let mut scope = match number {
            0 => Scope::new(),
            _ => self.of(state.parent).to_vec(),
        };
        let own = state.pairs().0.iter().enumerate();
        scope.extend(own.map(|(own, bounds)| Parameter {
            owner: number as u8,
            own: own as u8,
            bounds: *bounds,
        }));
        scope
    }

    fn judge_nodes(
        &self,
        image: &Image,
        labels: &Labels,
        around: &Surroundings,
    ) -> Result<(), Refusal> {
        let named: Vec<State> = image.states().collect();
        let registers: Vec<u8> = image.registers().map(|register| register.label).collect();
        for (number, node) in image.commands().enumerate() {
            let scope = self.of(around.state[number]);
            let holds = match node.kind {
                ASSIGN => in_scope(node.which, scope),
                GOTO => arguments_hold(
                    node,
                    &named[usize::from(node.which)],
                    scope,
                    &registers,
                    labels,
                ),
                _ => true,
            };
            if !holds {
                return Err(Refusal::new(19, number));
            }
        }
        for (number, node) in image.expressions().enumerate() {
            let scope = self.of(around.expression_state[number]);
            if node.kind == READ && !in_scope(node.which, scope) {
                return Err(Refusal::new(19, EXPRESSION_PLACE + number));
            }
        }
        Ok(())
    }

    /// The label byte of the state that a goto names, as the state that holds the goto reads it: an own
    /// parameter of the named state has the label of its argument.
    pub fn named_label(&self, node: Node, named: &State, register_labels: &[u8]) -> u8 {
        let inherited = self.of(node.which).len() - usize::from(named.count);
        match parameter(named.label, PARAMETER_LABEL) {
            Some(number) if number >= inherited => {
                let argument = [node.a, node.b][number - inherited];
                label_byte(argument as u8, register_labels)
            }
            _ => named.label,
        }
    }
}

/// Every label between the bounds.
pub fn labels_between(bounds: Bounds, labels: &Labels) -> Vec<u8> {
    let between = |&label: &u8| lies_within(label, bounds, labels);
    labels.all().filter(between).collect()
}

/// Every choice of labels for the parameters in scope: all of them are tried.
pub fn choices(scope: &[Parameter], labels: &Labels) -> Vec<Choice> {
    let mut choices = vec![Choice::default()];
    for (number, parameter) in scope.iter().enumerate() {
        let with = |choice: &Choice| {
            let of_it = labels_between(parameter.bounds, labels).into_iter();
            let choice = *choice;
            of_it.map(move |label| {
                let mut larger = choice;
                larger[number] = label;
                larger
            })
        };
        choices = choices.iter().flat_map(with).collect();
    }
    choices
}

pub fn lies_within(label: u8, bounds: Bounds, labels: &Labels) -> bool {
    labels.flow(only(bounds.lower), label) && labels.flow(only(label), bounds.upper)
}

fn state_holds(
    number: usize,
    state: &State,
    scope: &Scope,
    states: &States,
    labels: &Labels,
) -> bool {
    let (used, unused) = state.pairs();
    let takes_none = number == 0 || states.is_default_child(number);
    let known = |label: u8| labels.contains(label);
    let ordered = |pair: &Bounds| {
        known(pair.lower) && known(pair.upper) && labels.flow(only(pair.lower), pair.upper)
    };
    let label = parameter(state.label, PARAMETER_LABEL);
    usize::from(state.count) <= MOST_PARAMETERS
        && !(takes_none && state.count > 0)
        && scope.len() <= MOST_PARAMETERS
        && used.iter().all(ordered)
        && unused.iter().all(|pair| *pair == Bounds::default())
        && label.is_none_or(|number| number < scope.len())
}

/// A register byte that names a register, or a parameter in scope.
fn in_scope(byte: u8, scope: &[Parameter]) -> bool {
    parameter(byte, PARAMETER_REGISTER).is_none_or(|number| number < scope.len())
}

/// Each argument within the bounds it is given to, and fields of no argument zero.
fn arguments_hold(
    node: Node,
    named: &State,
    scope: &[Parameter],
    register_labels: &[u8],
    labels: &Labels,
) -> bool {
    let (arguments, unused) = node.arguments(named.count);
    let holds = |(&argument, bounds): (&u16, &Bounds)| {
        let Ok(byte) = u8::try_from(argument) else {
            return false;
        };
        let may_have = match parameter(byte, PARAMETER_REGISTER) {
            Some(number) => {
                let given = scope.get(number);
                given.map(|given| labels_between(given.bounds, labels))
            }
            None => register_labels
                .get(usize::from(byte))
                .map(|&label| vec![label]),
        };
        may_have.is_some_and(|all| all.iter().all(|&label| lies_within(label, *bounds, labels)))
    };
    arguments.iter().zip(&named.bounds).all(holds) && unused.iter().all(|&field| field == 0)
}
