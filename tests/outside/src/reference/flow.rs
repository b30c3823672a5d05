//! Flow (refusals 10 to 12): which commands are faults, and which of them is shown.

use super::image::*;
use super::labels::Labels;
use super::refusal::Refusal;
use super::rules::{Parameters, States, Surroundings};
use super::scopes::label_byte;

/// What a command's flow is judged by.
pub struct Flow<'a> {
    states: &'a States,
    around: &'a Surroundings,
    parameters: &'a Parameters,
    labels: &'a Labels,
    register_labels: Vec<u8>,
    named: Vec<State>,
}

impl<'a> Flow<'a> {
    pub fn of(
        image: &Image,
        states: &'a States,
        around: &'a Surroundings,
        parameters: &'a Parameters,
        labels: &'a Labels,
    ) -> Flow<'a> {
        Flow {
            states,
            around,
            parameters,
            labels,
            register_labels: image.registers().map(|register| register.label).collect(),
            named: image.states().collect(),
        }
    }

    /// Request E7: of the lowest state that holds a fault the first command in the order it is written,
    /// a sequence's first part before its second and an if's first branch before its second.
    pub fn judge(&self, image: &Image) -> Result<(), Refusal> {
        // For each command the first fault in it. Parts stand below their owners, so theirs are known.
        let mut first: Vec<Option<Refusal>> = Vec::with_capacity(image.commands().len());
        for (number, node) in image.commands().enumerate() {
            let part = |part: u16| first[usize::from(part)];
            first.push(match node.kind {
                SEQUENCE => part(node.a).or(part(node.b)),
                IF => part(node.b).or(part(node.c)),
                _ => self.fault(number, node),
            });
        }
        let of_body = |state: State| first[usize::from(state.command)];
        image.states().find_map(of_body).map_or(Ok(()), Err)
    }

    /// Every fault, in the order of the nodes.
    pub fn faults(&self, image: &Image) -> Vec<Refusal> {
        let commands = image.commands().enumerate();
        commands
            .filter_map(|(number, node)| self.fault(number, node))
            .collect()
    }

    /// Whether the command itself, not a part of it, is a fault for some choice of labels.
    fn fault(&self, number: usize, node: Node) -> Option<Refusal> {
        let own = self.around.state[number];
        let (refusal, destination) = match node.kind {
            ASSIGN => (10, label_byte(node.which, &self.register_labels)),
            GOTO => {
                let named = &self.named[usize::from(node.which)];
                let scopes = &self.parameters.scopes;
                (11, scopes.named_label(node, named, &self.register_labels))
            }
            FALL => (12, self.states.label[usize::from(own)]),
            _ => return None,
        };
        let context = self.around.context[number];
        let flows = self.parameters.flow(own, context, destination, self.labels);
        (!flows).then_some(Refusal::new(refusal, number))
    }
}
