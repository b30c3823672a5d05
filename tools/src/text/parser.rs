//! What all parts of the parser need: the next token, names, and bounds.

use super::fault::{Fault, Position};
use super::lexer::{Token, Tokens};
use super::tree::Name;
use crate::near::near;
use std::collections::HashSet;

pub struct Parser {
    pub(super) tokens: Vec<(Token, Position)>,
    words: Words,
    pub(super) next: usize,
    pub(super) nesting: usize,
    pub commands: usize,
    pub expressions: usize,
    pub faults: Vec<Fault>,
    /// Where a fault is known: another one there comes of it.
    known: HashSet<Position>,
    /// Names in what was skipped. They may have been declared there, so that nobody is told that they are not.
    pub skipped: HashSet<String>,
    /// The text is out of the limits, and nothing more of it is read.
    pub stopped: bool,
    /// Elses that will be met where none may stand, as a fault before has it.
    pub(super) owed: usize,
    /// First branches of ifs that are now read.
    pub(super) open: usize,
    /// Whether a state was read, also a wrong one.
    pub(super) has_state: bool,
}

/// The words of one of the text forms.
#[derive(Clone, Copy)]
pub struct Words {
    /// Those that are no names.
    pub reserved: &'static [&'static str],
    /// Those that begin a declaration.
    pub declarations: &'static [&'static str],
}

/// Of a design.
pub const DESIGN: Words = Words {
    reserved: &[
        "label", "register", "port", "width", "state", "in", "skip", "fall", "goto", "if", "then",
        "else",
    ],
    declarations: &["label", "register", "port", "state"],
};

/// How far a number may go below 0: 32 bits in two's complement reach no further.
const MOST_BELOW: u32 = 1 << 31;

impl Parser {
    pub fn new(read: Tokens, words: Words) -> Parser {
        let wrong = |(token, _): &&(Token, Position)| matches!(token, Token::Wrong(_));
        let known = read.tokens.iter().filter(wrong).map(|(_, at)| *at);
        Parser {
            known: known
                .chain(read.faults.iter().map(|fault| fault.at))
                .collect(),
            tokens: read.tokens,
            words,
            next: 0,
            nesting: 0,
            commands: 0,
            expressions: 0,
            faults: read.faults,
            skipped: HashSet::new(),
            stopped: false,
            owed: 0,
            open: 0,
            has_state: false,
        }
    }

    pub fn peek(&self) -> &Token {
        &self.tokens[self.next].0
    }

    /// The token so many behind the next one.
    pub(super) fn ahead(&self, count: usize) -> &Token {
        let last = self.tokens.len() - 1;
        &self.tokens[(self.next + count).min(last)].0
    }

    pub fn at(&self) -> Position {
        self.tokens[self.next].1
    }

    /// Whether nothing has been taken yet.
    pub fn is_first(&self) -> bool {
        self.next == 0
    }

    /// The end stays the next token.
    pub fn advance(&mut self) {
        if self.next + 1 < self.tokens.len() {
            self.next += 1;
        }
    }

    pub fn fault(&self, expected: &str) -> Fault {
        Fault::new(self.at(), expected, self.peek().to_string())
    }

    /// Keeps a fault, unless one is known at its place, and the parser goes on.
    pub fn record(&mut self, fault: Fault) {
        if !self.stopped && self.known.insert(fault.at) {
            self.faults.push(fault);
        }
    }

    pub fn is_symbol(&self, symbol: &str) -> bool {
        matches!(self.peek(), Token::Symbol(next) if *next == symbol)
    }

    pub fn is_word(&self, word: &str) -> bool {
        matches!(self.peek(), Token::Word(next) if next == word)
    }

    /// Takes the symbol if it is the next token.
    pub fn take_symbol(&mut self, symbol: &str) -> bool {
        let found = self.is_symbol(symbol);
        if found {
            self.advance();
        }
        found
    }

    pub fn take_word(&mut self, word: &str) -> bool {
        let found = self.is_word(word);
        if found {
            self.advance();
        }
        found
    }

    pub fn symbol(&mut self, symbol: &str, expected: &str) -> Result<(), Fault> {
        let found = self.take_symbol(symbol);
        found.then_some(()).ok_or_else(|| self.fault(expected))
    }

    /// What is nearly the word is taken for it, as a fault.
    pub fn word(&mut self, word: &'static str, expected: &str) -> Result<(), Fault> {
        if self.take_word(word) {
            return Ok(());
        }
        let meant = self.meant(&[word]);
        let fault = self.fault(expected).did_you_mean(meant);
        if meant.is_none() {
            return Err(fault);
        }
        self.record(fault);
        self.advance();
        Ok(())
    }

    /// The word that the next token nearly is. What is assigned to is a name.
    pub fn meant(&self, words: &[&'static str]) -> Option<&'static str> {
        match (self.peek(), self.ahead(1)) {
            (_, Token::Symbol(":=")) => None,
            (Token::Word(word), _) if !self.words.reserved.contains(&word.as_str()) => {
                near(word, words.iter().copied())
            }
            _ => None,
        }
    }

    pub fn name(&mut self, expected: &str) -> Result<Name, Fault> {
        let Token::Word(text) = self.peek() else {
            return Err(self.fault(expected));
        };
        if self.words.reserved.contains(&text.as_str()) {
            return Err(self.fault(expected).hint(format!("`{text}` is no name")));
        }
        let name = Name {
            text: text.clone(),
            at: self.at(),
        };
        self.advance();
        Ok(name)
    }

    /// Whether a number, with or without a sign, may be taken.
    pub fn is_number(&self) -> bool {
        matches!(self.peek(), Token::Number(_)) || self.is_symbol("-")
    }

    /// A number. With `-` before it it is its two's complement.
    pub fn number(&mut self, expected: &str) -> Result<u32, Fault> {
        self.skip_wrong();
        let negative = self.take_symbol("-");
        let number = match *self.peek() {
            Token::Number(number) if !negative => number,
            Token::Number(number) if number <= MOST_BELOW => number.wrapping_neg(),
            Token::Number(_) => {
                let expected = format!("a number from 0 to {MOST_BELOW} behind `-`");
                return Err(self.fault(&expected));
            }
            Token::Wrong(_) => 0,
            _ if negative => {
                let expected = "a number behind `-` (what is no number is negated as `0 - x`)";
                return Err(self.fault(expected));
            }
            _ => return Err(self.fault(expected)),
        };
        self.advance();
        Ok(number)
    }

    pub(super) fn words(&self) -> Words {
        self.words
    }
}
