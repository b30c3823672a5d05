//! Labels, registers and states, in any order.

use super::fault::{Fault, Position};
use super::lexer::Token;
use super::nesting::nested_within;
use super::parser::Parser;
use super::tree::{Design, Label, Name, Parameter, Register, State};
use crate::table::limits::{LABELS, PARAMETERS, REGISTERS, STATES, WIDTH};

/// What a state has before its body.
struct Head {
    name: Name,
    parameters: Vec<Parameter>,
    parent: Option<Name>,
    label: Name,
}

const DECLARATION: &str = "`label`, `register`, `port` or `state`";

impl Parser {
    /// What is wrong is kept as a fault, and the parser goes on at the next declaration.
    pub fn design(&mut self) -> Design {
        let mut design = Design {
            labels: Vec::new(),
            registers: Vec::new(),
            states: Vec::new(),
            loose: Vec::new(),
        };
        while *self.peek() != Token::End {
            let start = self.next;
            if let Err(fault) = self.declaration(&mut design) {
                self.record(fault);
                self.skip_declaration(start, None);
            }
        }
        // Of a text with other faults it is not known.
        if self.faults.is_empty() && design.labels.is_empty() {
            self.record(self.fault("at least one label"));
        }
        if self.faults.is_empty() && design.states.is_empty() {
            self.record(self.fault("at least one state"));
        }
        design
    }

    fn declaration(&mut self, design: &mut Design) -> Result<(), Fault> {
        let at = self.at();
        let word = match self.peek() {
            Token::Word(word) => word.clone(),
            _ => String::new(),
        };
        let words = self.words().declarations;
        let word = match words.iter().find(|one| **one == word) {
            Some(word) => word,
            None => self.meant_declaration(words)?,
        };
        self.advance();
        match word {
            "label" => {
                design.labels.push(self.label()?);
                self.bound(at, design.labels.len(), LABELS, "labels");
            }
            "state" => self.state(design, at)?,
            word => {
                design.registers.push(self.register(word == "port")?);
                self.bound(at, design.registers.len(), REGISTERS, "registers");
            }
        }
        Ok(())
    }

    /// What is nearly a word is taken for it, as a fault.
    fn meant_declaration(&mut self, words: &[&'static str]) -> Result<&'static str, Fault> {
        let meant = self.meant(words);
        let fault = match self.is_first() {
            true => self.fault(&format!("{DECLARATION}, or `gates` of a gate table")),
            false => self.fault(DECLARATION),
        };
        let fault = fault.did_you_mean(meant);
        let meant = meant.ok_or_else(|| fault.clone())?;
        self.record(fault);
        Ok(meant)
    }

    fn label(&mut self) -> Result<Label, Fault> {
        let name = self.declared("label", "the label's name")?;
        let mut flows_to = Vec::new();
        if self.take_symbol("->") {
            flows_to.push(self.name("the name of a label")?);
            while self.take_symbol(",") {
                flows_to.push(self.name("the name of a label")?);
            }
        }
        Ok(Label { name, flows_to })
    }

    fn register(&mut self, port: bool) -> Result<Register, Fault> {
        let name = self.declared("register", "the register's name")?;
        let label = self.labelled()?;
        let width = if self.take_word("width") {
            self.width()?
        } else if self.is_symbol("=") {
            WIDTH
        } else {
            return Err(self.fault("`width`, or `=` and the reset value"));
        };
        self.symbol("=", "`=` and the reset value")?;
        let reset = self.number("the reset value")?;
        Ok(Register {
            name,
            port,
            label,
            width,
            reset,
        })
    }

    /// A width out of its range has no form in the text.
    fn width(&mut self) -> Result<u8, Fault> {
        let fault = self.fault(&format!("a width from 1 to {WIDTH}"));
        match *self.peek() {
            Token::Number(width) if (1..=u32::from(WIDTH)).contains(&width) => {
                self.advance();
                Ok(width as u8)
            }
            Token::Wrong(_) => {
                self.advance();
                Ok(WIDTH)
            }
            _ => Err(fault),
        }
    }

    /// The body of a state with a wrong head is read too.
    fn state(&mut self, design: &mut Design, at: Position) -> Result<(), Fault> {
        let start = self.next;
        let root = !std::mem::replace(&mut self.has_state, true);
        let head = match self.head(root) {
            Ok(head) => head,
            Err(fault) => {
                self.record(fault);
                self.skip_declaration(start, Some("{"));
                if self.take_symbol("{") {
                    design.loose.push(self.sequence());
                }
                return Ok(());
            }
        };
        let body = nested_within(self.sequence());
        design.states.push(State {
            name: head.name,
            parameters: head.parameters,
            parent: head.parent,
            label: head.label,
            body,
        });
        self.bound(at, design.states.len(), STATES, "states");
        Ok(())
    }

    fn head(&mut self, root: bool) -> Result<Head, Fault> {
        let name = self.declared("state", "the state's name")?;
        let parameters = self.parameters()?;
        let parent = if self.take_word("in") {
            Some(self.name("the name of the parent")?)
        } else if root {
            None
        } else {
            let fault = self.fault("`in` and the parent (only the first state goes without)");
            return Err(match self.peek() {
                Token::Word(parent) => fault.hint(format!("write `in {parent}`")),
                _ => fault,
            });
        };
        let label = self.labelled()?;
        self.symbol("{", "`{` and the state's body")?;
        Ok(Head {
            name,
            parameters,
            parent,
            label,
        })
    }

    /// In parentheses, or none. A record has room for no more than two.
    fn parameters(&mut self) -> Result<Vec<Parameter>, Fault> {
        let mut parameters = Vec::new();
        if !self.take_symbol("(") {
            return Ok(parameters);
        }
        loop {
            let count = parameters.len() + 1;
            self.bound(self.at(), count, PARAMETERS, "parameters of a state");
            parameters.push(self.parameter()?);
            if !self.take_symbol(",") {
                self.symbol(")", "`,` or `)`")?;
                return Ok(parameters);
            }
        }
    }

    fn parameter(&mut self) -> Result<Parameter, Fault> {
        let name = self.declared("register", "the parameter's name")?;
        let lower = self.labelled()?;
        self.symbol("..", "`..` and the upper label")?;
        let upper = self.name("the name of a label")?;
        Ok(Parameter { name, lower, upper })
    }

    fn labelled(&mut self) -> Result<Name, Fault> {
        self.symbol(":", "`:` and a label")?;
        self.name("the name of a label")
    }
}
