//! How the parser goes on behind a fault: where the next command or declaration begins.

use super::fault::Fault;
use super::lexer::Token;
use super::parser::Parser;
use super::tree::Name;

pub fn is_else(token: &Token) -> bool {
    matches!(token, Token::Word(word) if word == "else")
}

impl Parser {
    /// The name that is declared. Where there is none, any name that is not known may be it: the kind is kept, by a
    /// word that is no name.
    pub fn declared(&mut self, kind: &'static str, expected: &str) -> Result<Name, Fault> {
        let name = self.name(expected);
        if name.is_err() {
            self.skipped.insert(kind.to_string());
        }
        name
    }

    /// Whether a declaration begins here, or the text ends.
    pub fn is_outside(&self) -> bool {
        match self.peek() {
            Token::Word(word) => self.words().declarations.contains(&word.as_str()),
            Token::End => true,
            _ => false,
        }
    }

    /// Whether a command may begin with the next token.
    pub fn is_command(&self) -> bool {
        match self.peek() {
            Token::Word(word) => {
                let own = matches!(word.as_str(), "skip" | "fall" | "goto" | "if");
                let name = !self.words().reserved.contains(&word.as_str());
                own || name && matches!(self.ahead(1), Token::Symbol(":=" | "=" | "=="))
            }
            _ => self.is_symbol("{"),
        }
    }

    /// Skips to the `;` or the `}` that ends the command, to the next declaration, or to the `else` of the if whose
    /// first branch is read.
    pub fn skip_command(&mut self, up_to_else: bool) {
        let (mut braces, mut ifs) = (0, 0);
        while !self.is_outside() {
            match self.peek() {
                Token::Symbol(";" | "}") if braces == 0 => return,
                Token::Symbol("{") => braces += 1,
                Token::Symbol("}") => braces -= 1,
                Token::Word(word) if word == "if" && braces == 0 => ifs += 1,
                Token::Word(word) if word == "else" && braces == 0 => {
                    if up_to_else && ifs == 0 {
                        return;
                    }
                    ifs = usize::saturating_sub(ifs, 1);
                }
                _ => {}
            }
            self.advance();
        }
    }

    /// Whether an else follows in the same block that no if before it has, or behind the `}` of a block that has not
    /// been opened.
    pub fn else_follows(&self) -> bool {
        let (mut braces, mut ifs) = (0, 0);
        for count in 0.. {
            match self.ahead(count) {
                Token::End => return false,
                Token::Symbol("}") if braces == 0 => {
                    return self.open == 0 && is_else(self.ahead(count + 1));
                }
                Token::Symbol("{") => braces += 1,
                Token::Symbol("}") => braces -= 1,
                Token::Word(word) if self.words().declarations.contains(&word.as_str()) => {
                    return false
                }
                Token::Word(word) if word == "if" && braces == 0 => ifs += 1,
                Token::Word(word) if word == "else" && braces == 0 && ifs == 0 => return true,
                Token::Word(word) if word == "else" && braces == 0 => ifs -= 1,
                _ => {}
            }
        }
        false
    }

    /// Skips to the next declaration, or to a symbol if one is given, and keeps the names from where a wrong
    /// declaration began.
    pub fn skip_declaration(&mut self, start: usize, symbol: Option<&str>) {
        while !self.is_outside() && !symbol.is_some_and(|symbol| self.is_symbol(symbol)) {
            self.advance();
        }
        let end = self.next;
        self.next = start;
        while self.next < end {
            if let Token::Word(word) = self.peek() {
                let word = word.clone();
                if !self.words().reserved.contains(&word.as_str()) {
                    self.skipped.insert(word);
                }
            }
            self.next += 1;
        }
    }
}
