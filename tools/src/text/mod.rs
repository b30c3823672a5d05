//! The text forms of designs and of gate tables: text to tokens to a tree of names. Numbers come later.

mod bounds;
pub mod characters;
mod commands;
mod declarations;
pub mod excerpt;
mod expressions;
pub mod fault;
pub mod faults;
pub mod gates;
pub mod habits;
mod lexer;
pub mod nesting;
mod parser;
mod recovery;
pub mod tree;

use crate::gates::numbering as wires;
use crate::numbering;
use faults::Faults;
use gates::GateText;
use lexer::Token;
use parser::Parser;
pub use parser::DESIGN;
use tree::Design;

/// Where the text is wrong its names are looked up all the same, so that all faults come at once.
pub fn parse(source: &str) -> Result<Design, Faults> {
    let mut parser = Parser::new(lexer::tokens(source), DESIGN);
    let design = parser.design();
    if !parser.faults.is_empty() && !parser.stopped {
        let more = numbering::faults(&design, &parser.skipped);
        parser.faults.extend(more);
    }
    Faults::or(parser.faults, design)
}

pub fn parse_gates(source: &str) -> Result<GateText, Faults> {
    let mut parser = Parser::new(lexer::tokens(source), gates::WORDS);
    let gates = parser.gates();
    if !parser.faults.is_empty() {
        let more = wires::faults(&gates, &parser.skipped);
        parser.faults.extend(more);
    }
    Faults::or(parser.faults, gates)
}

/// None where the text begins with something else, or is none.
pub fn first_word(source: &str) -> Option<String> {
    match lexer::first(source)? {
        Token::Word(word) => Some(word),
        _ => None,
    }
}
