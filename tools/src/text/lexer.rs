//! Text to tokens. Space, line ends and comments only part them. What is no token is a fault, and a token that the
//! parser knows to be one already.

use super::characters::{is_blank, is_odd_blank, odd, shown};
use super::fault::{Fault, Position};
use super::habits::{self, habit};
use std::fmt;

#[derive(Clone, Debug, PartialEq, Eq)]
pub enum Token {
    Word(String),
    Number(u32),
    Symbol(&'static str),
    /// A piece of text that is no token; its fault is known.
    Wrong(String),
    End,
}

/// The longer ones first, so that `:=` is not taken for `:`.
const SYMBOLS: [&str; 21] = [
    ">>$", "->", ":=", "==", "<$", "/$", "..", ":", "=", ",", ";", "{", "}", "(", ")", "+", "-",
    "&", "|", "^", "<",
];

const ANY_TOKEN: &str = "a name, a number or a symbol";

pub struct Tokens {
    /// The last one is the end.
    pub tokens: Vec<(Token, Position)>,
    pub faults: Vec<Fault>,
}

pub fn tokens(source: &str) -> Tokens {
    let mut lexer = Lexer {
        tokens: Vec::new(),
        faults: Vec::new(),
        in_comment: false,
    };
    let mut end = Position { line: 1, column: 1 };
    let lines: Vec<&str> = source.lines().collect();
    let last_close = lines.iter().rposition(|line| line.contains("*/"));
    for (number, text) in lines.iter().enumerate() {
        let at = Position {
            line: number + 1,
            column: 1,
        };
        let closed = last_close.is_some_and(|last| last > number);
        end = lexer.line(text, at, closed);
    }
    lexer.tokens.push((Token::End, end));
    Tokens {
        tokens: lexer.tokens,
        faults: lexer.faults,
    }
}

struct Lexer {
    tokens: Vec<(Token, Position)>,
    faults: Vec<Fault>,
    /// Within what begins with `/*`, which is a fault, and ends in a later line.
    in_comment: bool,
}

impl Lexer {
    /// Gives where the line's text ends. A later line may close a comment of other languages.
    fn line(&mut self, text: &str, mut at: Position, closed: bool) -> Position {
        let mut rest = text;
        while !rest.is_empty() && !rest.starts_with('#') {
            let length = match self.in_comment {
                true => self.comment(rest, 0, closed),
                false => self.piece(rest, at, closed),
            };
            at.column += rest[..length].chars().count();
            rest = &rest[length..];
        }
        at
    }

    /// Takes a token, a blank or what is neither, and gives its length in bytes.
    fn piece(&mut self, rest: &str, at: Position, closed: bool) -> usize {
        let first = rest.chars().next().expect("the rest is not empty");
        if is_blank(first) {
            return first.len_utf8();
        }
        if is_odd_blank(first) {
            self.faults.push(odd(first, at));
            return first.len_utf8();
        }
        if rest.starts_with("//") {
            self.faults.push(wrong(rest, at).0);
            return rest.len();
        }
        if rest.starts_with("/*") {
            self.faults.push(wrong(rest, at).0);
            return self.comment(rest, 2, closed);
        }
        match token(rest) {
            Some((token, length)) => {
                self.tokens.push((token, at));
                length
            }
            None => {
                let (fault, length) = wrong(rest, at);
                self.faults.push(fault);
                let piece = rest[..length].to_string();
                self.tokens.push((Token::Wrong(piece), at));
                length
            }
        }
    }

    /// How far a comment of other languages goes in this line.
    fn comment(&mut self, rest: &str, start: usize, closed: bool) -> usize {
        match rest[start..].find("*/") {
            Some(end) => {
                self.in_comment = false;
                start + end + "*/".len()
            }
            None => {
                self.in_comment = closed;
                rest.len()
            }
        }
    }
}

/// The first token, whatever is wrong behind it.
pub fn first(source: &str) -> Option<Token> {
    let blank = |one: char| is_blank(one) || is_odd_blank(one);
    let mut lines = source.lines().map(|line| line.trim_start_matches(blank));
    let line = lines.find(|line| !line.is_empty() && !line.starts_with('#'))?;
    Some(token(line)?.0)
}

/// The letters, digits and `_` that a text begins with, those of other alphabets too.
fn word(text: &str) -> &str {
    let end = text.find(|one: char| !one.is_alphanumeric() && one != '_');
    &text[..end.unwrap_or(text.len())]
}

/// The token at the start of the text, and its length in bytes.
fn token(text: &str) -> Option<(Token, usize)> {
    let word = word(text);
    if !word.is_ascii() {
        return None;
    }
    if word.starts_with(|one: char| one.is_ascii_digit()) {
        return Some((Token::Number(word.parse().ok()?), word.len()));
    }
    if !word.is_empty() {
        return Some((Token::Word(word.to_string()), word.len()));
    }
    let symbol = SYMBOLS.into_iter().find(|one| text.starts_with(one))?;
    // `&&` is not two times `&`.
    let longer = habit(text).is_some_and(|habit| habit.symbol.len() > symbol.len());
    (!longer).then_some((Token::Symbol(symbol), symbol.len()))
}

/// What is wrong at the start of a text that begins with no token, and how long that is.
fn wrong(text: &str, at: Position) -> (Fault, usize) {
    let word = word(text);
    if word.is_ascii() && !word.is_empty() {
        let expected = format!("a decimal number from 0 to {}", u32::MAX);
        let mut fault = Fault::new(at, expected, format!("`{word}`"));
        fault.hint = habits::number(word);
        return (fault, word.len());
    }
    if let Some(habit) = habit(text) {
        let expected = habit.expected.unwrap_or(ANY_TOKEN);
        let fault = Fault::new(at, expected, format!("`{}`", habit.symbol));
        return (fault.hint(habit.hint), quoted(text, habit.symbol));
    }
    let before = word.chars().take_while(char::is_ascii).count();
    let place = Position {
        line: at.line,
        column: at.column + before,
    };
    let found = text.chars().nth(before).expect("the text is not empty");
    let fault = Fault::new(place, ANY_TOKEN, shown(found));
    match word.is_empty() {
        true => (fault, found.len_utf8()),
        false => (fault.hint(NAMES), word.len()),
    }
}

const NAMES: &str = "a name has letters from a to z, digits and `_` alone";

/// A quote goes to the next one in the line, and a bracket to the one that closes it.
fn quoted(text: &str, symbol: &str) -> usize {
    let close = match symbol {
        "\"" | "'" => symbol,
        "[" => "]",
        _ => return symbol.len(),
    };
    let end = text[symbol.len()..].find(close);
    end.map_or(symbol.len(), |end| symbol.len() + end + close.len())
}

impl fmt::Display for Token {
    fn fmt(&self, out: &mut fmt::Formatter) -> fmt::Result {
        match self {
            Token::Word(word) => write!(out, "`{word}`"),
            Token::Number(number) => write!(out, "`{number}`"),
            Token::Symbol(symbol) => write!(out, "`{symbol}`"),
            Token::Wrong(piece) => write!(out, "`{piece}`"),
            Token::End => write!(out, "the end of the text"),
        }
    }
}
