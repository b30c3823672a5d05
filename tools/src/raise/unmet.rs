//! Why there is no accepted raising: which flow cannot be met, and through which assignments the label came
//! there.

use super::chain::{chain, Begin};
use super::flows::{flows, flows_to, raised, Flow, To};
use crate::explain::{place, source};
use crate::library;
use crate::named::Named;
use crate::names::Names;
use crate::positions::Positions;
use crate::print::body::Reader;
use crate::print::layout;
use crate::table::node::Command;
use crate::table::place::Place;
use crate::table::{Table, PORT};

/// What the design was made from.
pub enum Source<'a> {
    Table,
    Text(&'a str, &'a Positions),
}

/// With the least labels that the assignments allow the library finds a goto or a fall at fault: no
/// raising has lower ones.
pub fn describe(table: &Table, names: &Names, source: &Source) -> String {
    let flows = flows(table);
    let raised = raised(table, &flows);
    let answer = library::check(&raised.image());
    let fault = (flows.iter()).find(|flow| usize::from(flow.command) == answer.place);
    let (Some(flow), 10..=12) = (fault, answer.number) else {
        return "The tool finds no flow that cannot be met.\n".to_string();
    };
    let teller = Teller {
        given: table,
        raised: &raised,
        names,
        source,
        flows: &flows,
    };
    teller.flow(flow)
}

struct Teller<'a> {
    given: &'a Table,
    /// With the least labels that meet all assignments.
    raised: &'a Table,
    names: &'a Names,
    source: &'a Source<'a>,
    flows: &'a [Flow],
}

impl Teller<'_> {
    fn named(&self) -> Named<'_> {
        Named {
            table: self.given,
            names: self.names,
        }
    }

    fn flow(&self, flow: &Flow) -> String {
        let To::State(target) = flow.to else {
            return String::new();
        };
        let label = self.given.states[usize::from(target)].label;
        let destination = format!("{} : {}", self.names.state(target), self.names.label(label));
        let state = self.names.state(flow.state);
        let what = match Command::of(self.given.commands[usize::from(flow.command)]) {
            Some(Command::Fall) => "fall".to_string(),
            _ => format!("goto {}", self.names.state(target)),
        };
        let mut text = format!("In state {state}, {what} cannot be met:\n");
        let mut chains = String::new();
        let own = self.given.states[usize::from(flow.state)].label;
        if !flows_to(self.given, own, label) {
            let own = self.names.label(own);
            text += &format!("    {state} : {own}, its state, does not flow to {destination}\n");
        }
        let mut told = Vec::new();
        for register in flow.registers() {
            let now = self.raised.registers[usize::from(register)].label;
            // A register may be read more than once.
            if !flows_to(self.given, now, label) && !told.contains(&register) {
                let source = self.source_of(register);
                text += &format!("    {source}, does not flow to {destination}\n");
                chains += &self.chain(register, label);
                told.push(register);
            }
        }
        format!("{text}{chains}\n{}", self.shown(flow))
    }

    /// A register of a condition, with the label that it has to have at the least.
    fn source_of(&self, register: u8) -> String {
        let [given, raised] = [self.given, self.raised].map(|table| {
            self.names
                .label(table.registers[usize::from(register)].label)
        });
        let name = self.names.register(register);
        if given == raised {
            format!("{name} : {given}, read in a condition")
        } else {
            format!("{name} : {raised}, raised from {given} and read in a condition")
        }
    }

    fn chain(&self, register: u8, target: u8) -> String {
        let Some(chain) = chain(self.given, self.flows, register, target) else {
            return String::new();
        };
        let name = self.names.register(register);
        let mut text = format!(
            "\nHow the label came to {name}:\n{}",
            self.begin(chain.begin)
        );
        let mut from = match chain.begin {
            Begin::Register(register) => Some(register),
            Begin::State(_) => None,
        };
        for link in chain.links {
            text += &self.link(link, from);
            from = match link.to {
                To::Register(written) => Some(written),
                To::State(_) => None,
            };
        }
        text
    }

    /// What has the label in the design as it is.
    fn begin(&self, begin: Begin) -> String {
        let (what, name, label) = match begin {
            Begin::Register(register) => {
                let record = self.given.registers[usize::from(register)];
                let what = match record.kind {
                    PORT => "port",
                    _ => "register",
                };
                (what, self.names.register(register), record.label)
            }
            Begin::State(state) => {
                let record = self.given.states[usize::from(state)];
                ("state", self.names.state(state), record.label)
            }
        };
        let label = self.names.label(label);
        format!("    {what} {name} : {label}, as the design has it\n")
    }

    /// An assignment, and how the label came into it: by a register, or by its state.
    fn link(&self, flow: &Flow, from: Option<u8>) -> String {
        let To::Register(written) = flow.to else {
            return String::new();
        };
        let written = self.names.register(written);
        let state = self.names.state(flow.state);
        let way = match from {
            None => format!("{written} is assigned there"),
            Some(from) if flow.reads.contains(&from) => {
                format!(
                    "{written} is assigned what reads {}",
                    self.names.register(from)
                )
            }
            Some(from) => {
                let from = self.names.register(from);
                format!("{written} is assigned in an if that reads {from}")
            }
        };
        format!("    {way}: {} in state {state}\n", self.at(flow))
    }

    /// Where a command stands.
    fn at(&self, flow: &Flow) -> String {
        match self.source {
            Source::Table => {
                let text = layout::flat(&Reader::new(&self.named()).command(flow.command));
                format!("command {}, `{text}`,", flow.command)
            }
            Source::Text(_, positions) => {
                let at = positions.at(Place::Command(flow.command.into()));
                format!("line {}, column {},", at.line, at.column)
            }
        }
    }

    /// The command itself, as `explain` shows it.
    fn shown(&self, flow: &Flow) -> String {
        let number = usize::from(flow.command);
        match self.source {
            Source::Table => place::command(&self.named(), number),
            Source::Text(text, positions) => {
                source::line(text, positions.at(Place::Command(number)))
            }
        }
    }
}
