//! Gate tables as text: inputs, flip-flops and gates, in any order, behind the word `gates`.

use super::fault::Fault;
use super::lexer::Token;
use super::parser::{Parser, Words};
use super::tree::Name;
use crate::table::limits::{FLIPFLOPS, GATES, INPUTS};

/// The first word of a gate table's text. No design begins with it.
pub const FIRST: &str = "gates";

pub const WORDS: Words = Words {
    reserved: &[
        FIRST,
        "input",
        "flipflop",
        "gate",
        "nand",
        "start",
        "trusted",
        "untrusted",
    ],
    declarations: &["input", "flipflop", "gate"],
};

/// A gate table by names.
#[derive(Debug, Default)]
pub struct GateText {
    pub inputs: Vec<Input>,
    pub flipflops: Vec<FlipFlop>,
    pub gates: Vec<Gate>,
}

#[derive(Debug)]
pub struct Input {
    pub name: Name,
    pub untrusted: bool,
}

#[derive(Debug)]
pub struct FlipFlop {
    pub name: Name,
    pub next: Name,
    pub value: u8,
    pub untrusted: bool,
}

#[derive(Debug)]
pub struct Gate {
    pub name: Name,
    pub reads: [Name; 2],
}

const A_WIRE: &str = "the name of an input, a flip-flop or a gate";

impl Parser {
    /// What is wrong is kept as a fault, and the parser goes on at the next declaration.
    pub fn gates(&mut self) -> GateText {
        let mut text = GateText::default();
        if let Err(fault) = self.word(FIRST, "`gates`") {
            self.record(fault);
        }
        while *self.peek() != Token::End {
            let start = self.next;
            if let Err(fault) = self.wire(&mut text) {
                self.record(fault);
                self.skip_declaration(start, None);
            }
        }
        text
    }

    fn wire(&mut self, text: &mut GateText) -> Result<(), Fault> {
        let at = self.at();
        let expected = "`input`, `flipflop` or `gate`";
        let words = self.words().declarations;
        let meant = self.meant(words);
        if let Some(word) = meant {
            self.word(word, expected)?;
        }
        if meant == Some("input") || self.take_word("input") {
            text.inputs.push(self.input()?);
            self.bound(at, text.inputs.len(), INPUTS, "inputs");
        } else if meant == Some("flipflop") || self.take_word("flipflop") {
            text.flipflops.push(self.flipflop()?);
            self.bound(at, text.flipflops.len(), FLIPFLOPS, "flip-flops");
        } else if meant == Some("gate") || self.take_word("gate") {
            text.gates.push(self.gate()?);
            self.bound(at, text.gates.len(), GATES, "gates");
        } else {
            return Err(self.fault(expected));
        }
        Ok(())
    }

    fn input(&mut self) -> Result<Input, Fault> {
        let name = self.declared(FIRST, "the input's name")?;
        let untrusted = self.untrusted()?;
        Ok(Input { name, untrusted })
    }

    fn flipflop(&mut self) -> Result<FlipFlop, Fault> {
        let name = self.declared(FIRST, "the flip-flop's name")?;
        self.symbol("=", "`=` and the wire that it takes next")?;
        let next = self.name(A_WIRE)?;
        self.word("start", "`start` and the value it starts with")?;
        let value = self.start_value()?;
        let untrusted = self.untrusted()?;
        Ok(FlipFlop {
            name,
            next,
            value,
            untrusted,
        })
    }

    fn gate(&mut self) -> Result<Gate, Fault> {
        let name = self.declared(FIRST, "the gate's name")?;
        self.symbol("=", "`= nand` and two wires")?;
        self.word("nand", "`nand` and two wires")?;
        let reads = [self.name(A_WIRE)?, self.name(A_WIRE)?];
        Ok(Gate { name, reads })
    }

    /// A value out of its range has no form in the text.
    fn start_value(&mut self) -> Result<u8, Fault> {
        match *self.peek() {
            Token::Number(value) if value <= 1 => {
                self.advance();
                Ok(value as u8)
            }
            Token::Wrong(_) => {
                self.advance();
                Ok(0)
            }
            _ => Err(self.fault("a value, 0 or 1")),
        }
    }

    fn untrusted(&mut self) -> Result<bool, Fault> {
        let expected = "`trusted` or `untrusted`";
        if self.is_word("trusted") || self.meant(&["trusted", "untrusted"]) == Some("trusted") {
            self.word("trusted", expected)?;
            return Ok(false);
        }
        self.word("untrusted", expected)?;
        Ok(true)
    }
}
