//! Commands. A fault in one is kept, and the parser goes on behind it.

use super::fault::Fault;
use super::parser::Parser;
use super::recovery::is_else;
use super::tree::{Command, Name, Placed};
use crate::near::near;
use crate::table::limits::{COMMANDS, PARAMETERS};

const COMMAND: &str = "a command: `skip`, `fall`, `goto`, `if`, `{` or the name of a register";

const ELSE: &str = "`else` (a sequence in a branch stands in braces)";

impl Parser {
    /// Commands up to and with the closing brace. `a; b; c` is `a; { b; c }`.
    pub fn sequence(&mut self) -> Placed<Command> {
        let at = self.at();
        let owed = std::mem::take(&mut self.owed);
        let mut commands = Vec::new();
        loop {
            if self.has_no_command(commands.is_empty()) {
                break;
            }
            let (command, _) = self.recovered(false);
            commands.push(command);
            if !self.goes_on() {
                break;
            }
        }
        self.owed = owed;
        let Some(last) = commands.pop() else {
            let node = Command::Skip;
            return Placed { at, node };
        };
        commands.into_iter().rfold(last, |second, first| Placed {
            at: first.at,
            node: Command::Sequence(Box::new(first), Box::new(second)),
        })
    }

    /// Where a `}` stands in the place of a command it is taken.
    fn has_no_command(&mut self, first: bool) -> bool {
        let hint = match first {
            true => "a block has a command: write `{ skip }`",
            false => "no `;` stands before `}`",
        };
        while self.is_symbol(";") {
            let fault = self.fault(COMMAND);
            self.record(fault.hint("one `;` stands between two commands"));
            self.advance();
        }
        let closed = self.is_symbol("}");
        if closed {
            let fault = self.fault(COMMAND);
            self.record(fault.hint(hint));
            self.advance();
        }
        closed
    }

    /// Whether another command of the sequence follows. Takes what parts the two, or the closing brace.
    fn goes_on(&mut self) -> bool {
        if self.owed > 0 && self.open == 0 && self.is_symbol("}") && is_else(self.ahead(1)) {
            self.advance();
        }
        while self.owed > 0 && self.take_word("else") {
            self.owed -= 1;
            self.recovered(false);
        }
        if self.is_symbol(";") {
            let within = self.count_command().is_ok();
            self.advance();
            return within;
        }
        if self.take_symbol("}") {
            return false;
        }
        let fault = self.fault("`;` or `}`");
        if self.is_word("else") && self.open > 0 {
            self.record(fault.hint("the block before `else` ends with `}`"));
            return false;
        }
        if self.is_command() {
            self.record(fault.hint("commands are parted by `;`"));
            return true;
        }
        self.record(fault);
        self.skip_command(false);
        !self.is_outside() && self.goes_on()
    }

    /// A command, and whether it is whole. The rest of a wrong one is skipped.
    fn recovered(&mut self, up_to_else: bool) -> (Placed<Command>, bool) {
        let at = self.at();
        match self.command() {
            Ok(command) => (command, true),
            Err(fault) => {
                self.record(fault);
                self.skip_command(up_to_else);
                let node = Command::Skip;
                (Placed { at, node }, false)
            }
        }
    }

    fn command(&mut self) -> Result<Placed<Command>, Fault> {
        if self.take_symbol("{") {
            return self.nested(|parser| Ok(parser.sequence()));
        }
        self.count_command()?;
        let at = self.at();
        let node = if self.take_word("skip") {
            Command::Skip
        } else if self.take_word("fall") {
            Command::Fall
        } else if self.take_word("goto") {
            Command::Goto(self.name("the name of a state")?, self.arguments()?)
        } else if self.take_word("if") {
            self.nested(Parser::choice)?
        } else {
            self.assign()?
        };
        Ok(Placed { at, node })
    }

    /// In parentheses, or none.
    fn arguments(&mut self) -> Result<Vec<Name>, Fault> {
        let mut arguments = Vec::new();
        if !self.take_symbol("(") {
            return Ok(arguments);
        }
        loop {
            self.bound(self.at(), arguments.len() + 1, PARAMETERS, "arguments");
            arguments.push(self.name("the name of a register or a parameter")?);
            if !self.take_symbol(",") {
                self.symbol(")", "`,` or `)`")?;
                return Ok(arguments);
            }
        }
    }

    fn choice(&mut self) -> Result<Command, Fault> {
        let condition = self.expression()?;
        if self.meant(&["then"]).is_none() && !self.is_word("then") && self.is_command() {
            let fault = self.fault("an operator or `then`");
            self.record(fault.hint("write `then` before the first branch"));
        } else {
            self.word("then", "an operator or `then`")?;
        }
        self.open += 1;
        let (then, whole) = self.recovered(true);
        self.open -= 1;
        let otherwise = match self.take_else(whole)? {
            true => self.recovered(false).0,
            false => Placed {
                at: self.at(),
                node: Command::Skip,
            },
        };
        Ok(Command::If(condition, Box::new(then), Box::new(otherwise)))
    }

    /// Whether the second branch follows. Behind a wrong first one nobody is told that it does not.
    fn take_else(&mut self, whole: bool) -> Result<bool, Fault> {
        if self.take_word("else") {
            return Ok(true);
        }
        if !whole {
            return Ok(false);
        }
        let fault = self.fault(ELSE);
        let follows = is_else(self.ahead(1));
        if self.is_symbol(";") && follows {
            self.record(fault.hint("no `;` stands before `else`"));
            self.advance();
            self.advance();
            return Ok(true);
        }
        if self.is_symbol("}") && follows && self.open == 0 {
            self.record(fault.hint("one `}` too many stands before `else`"));
            self.advance();
            self.advance();
            return Ok(true);
        }
        if self.meant(&["else"]).is_some() {
            self.word("else", ELSE)?;
            return Ok(true);
        }
        if !self.is_symbol(";") && !self.is_symbol("}") && !self.is_command() && !self.is_outside()
        {
            return Err(fault);
        }
        if self.else_follows() {
            self.owed += 1;
            self.record(fault.hint("a sequence in a branch stands in braces: `{ a; b }`"));
        } else {
            self.record(fault.hint("every if has an else: write `else skip`"));
        }
        Ok(false)
    }

    fn assign(&mut self) -> Result<Command, Fault> {
        let register = self.name(COMMAND)?;
        if !self.take_symbol(":=") {
            let fault = self.fault("`:=` and an expression");
            if !self.is_symbol("=") && !self.is_symbol("==") {
                let Some(meant) = near(&register.text, ["skip", "fall", "goto", "if"]) else {
                    return Err(fault);
                };
                let fault = Fault::new(register.at, COMMAND, format!("`{}`", register.text));
                return Err(fault.did_you_mean(Some(meant)));
            }
            self.record(fault.hint("an assignment is written with `:=`"));
            self.advance();
        }
        Ok(Command::Assign(register, self.expression()?))
    }

    fn count_command(&mut self) -> Result<(), Fault> {
        self.commands += 1;
        self.limit(self.commands, COMMANDS, "commands")
    }
}
