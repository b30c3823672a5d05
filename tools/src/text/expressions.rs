//! Expressions, by how tightly each operator binds.

use super::fault::Fault;
use super::habits::{usage, Use};
use super::lexer::Token;
use super::parser::Parser;
use super::tree::{Expression, Placed};
use crate::operator::{Operator, COMPARISON};
use crate::table::limits::EXPRESSIONS;

impl Parser {
    pub fn expression(&mut self) -> Result<Placed<Expression>, Fault> {
        let expression = self.binding(COMPARISON)?;
        if self.operator().is_some() {
            return Err(self.fault("parentheses, as comparisons do not chain"));
        }
        Ok(expression)
    }

    /// An expression whose outer operators bind at least so tightly.
    fn binding(&mut self, least: u8) -> Result<Placed<Expression>, Fault> {
        let mut left = self.operand()?;
        let mut most = u8::MAX;
        loop {
            if self.take_wrong_operator() {
                self.operand()?;
                continue;
            }
            let Some(operator) = self.operator() else {
                break;
            };
            if operator.binding() < least || operator.left_binding() > most {
                break;
            }
            self.count_expression()?;
            self.advance();
            let right = self.binding(operator.right_binding())?;
            left = Placed {
                at: left.at,
                node: Expression::Operation(operator, Box::new(left), Box::new(right)),
            };
            most = operator.binding();
        }
        Ok(left)
    }

    /// One that there is not, which is a fault. What follows it is read as if there were.
    fn take_wrong_operator(&mut self) -> bool {
        let assign = self.is_symbol("=") || self.is_symbol(":=");
        if assign {
            let fault = self.fault("an operator");
            self.record(fault.hint("to compare write `==`"));
        }
        let wrong = assign || self.wrong_use() == Some(Use::Between);
        if wrong {
            self.advance();
        }
        wrong
    }

    fn wrong_use(&self) -> Option<Use> {
        match self.peek() {
            Token::Wrong(piece) => Some(usage(piece)),
            _ => None,
        }
    }

    /// Skips what is no token before what may be a part of an expression.
    pub(super) fn skip_wrong(&mut self) {
        while self.wrong_use() == Some(Use::Before) && self.is_part_ahead() {
            self.advance();
        }
    }

    fn is_part_ahead(&self) -> bool {
        match self.ahead(1) {
            Token::Word(word) => !self.words().reserved.contains(&word.as_str()),
            Token::Symbol(symbol) => matches!(*symbol, "(" | "-"),
            Token::Number(_) | Token::Wrong(_) => true,
            Token::End => false,
        }
    }

    fn operand(&mut self) -> Result<Placed<Expression>, Fault> {
        self.skip_wrong();
        if self.take_symbol("(") {
            let inner = self.nested(Parser::expression)?;
            self.symbol(")", "an operator or `)`")?;
            return Ok(inner);
        }
        self.count_expression()?;
        let at = self.at();
        let expected = "an expression: a number, the name of a register or `(`";
        // What is no token may have been meant for a number.
        let wrong = matches!(self.wrong_use(), Some(Use::Part | Use::Before));
        let node = if self.is_number() || wrong {
            Expression::Constant(self.number(expected)?)
        } else {
            Expression::Register(self.name(expected)?)
        };
        Ok(Placed { at, node })
    }

    fn operator(&self) -> Option<Operator> {
        Operator::ALL
            .into_iter()
            .find(|operator| self.is_symbol(operator.symbol()))
    }

    fn count_expression(&mut self) -> Result<(), Fault> {
        self.expressions += 1;
        self.limit(self.expressions, EXPRESSIONS, "expressions")
    }
}
