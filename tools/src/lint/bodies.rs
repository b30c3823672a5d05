//! Conditions that are always the same, and assignments that lose bits or change nothing.

use super::bindings::Bindings;
use super::range::{Range, Ranges};
use super::uses::{each_command, each_read};
use super::Warning;
use crate::named::Named;
use crate::operator::{Operator, COMPARISON};
use crate::table::largest;
use crate::table::node::{Command, Expression};
use crate::table::place::Place;

pub fn warnings(named: &Named, bindings: &Bindings, state: usize) -> Vec<Warning> {
    let body = Body {
        named,
        bindings,
        state,
        ranges: Ranges {
            table: named.table,
            bindings,
            state,
        },
    };
    let mut warnings = Vec::new();
    each_command(named.table, state, &mut |number, command| {
        let found = match command {
            Command::If { condition, .. } => body
                .condition(condition)
                .map(|words| (Place::Expression(condition.into()), words)),
            Command::Assign { register, value } => body
                .assignment(register, value)
                .map(|words| (Place::Command(number.into()), words)),
            _ => None,
        };
        warnings.extend(found.map(|(place, words)| Warning {
            place,
            record: Place::State(state),
            words,
        }));
    });
    warnings
}

struct Body<'a> {
    named: &'a Named<'a>,
    bindings: &'a Bindings<'a>,
    state: usize,
    ranges: Ranges<'a>,
}

impl Body<'_> {
    fn condition(&self, condition: u16) -> Option<String> {
        let range = self.ranges.of(condition);
        let (holds, dead) = match range {
            Range { low: 0, high: 0 } => ("false", "then"),
            Range { low: 1.., .. } => ("true", "else"),
            _ => return None,
        };
        let text = self.named.expression(self.state, condition);
        let why = self.why(condition);
        Some(format!(
            "the condition `{text}` is always {holds}{why}: what stands behind `{dead}` never runs"
        ))
    }

    /// In parentheses, where there is something short to say.
    fn why(&self, condition: u16) -> String {
        if !self.reads(condition) {
            return " (it has no register)".to_string();
        }
        let node = self.named.table.expressions[usize::from(condition)];
        let Some(Expression::Operation(operator, left, right)) = Expression::of(node) else {
            return String::new();
        };
        if self.ranges.same(left, right) {
            return " (both sides are the same)".to_string();
        }
        if operator.binding() != COMPARISON {
            return String::new();
        }
        let signed = operator == Operator::SignedLess;
        let [left, right] = [left, right].map(|side| self.ranges.of(side).words(signed));
        format!(" (the left side is {left}, the right side {right})")
    }

    fn reads(&self, expression: u16) -> bool {
        let mut reads = false;
        each_read(self.named.table, expression, &mut |_| reads = true);
        reads
    }

    fn assignment(&self, register: u8, value: u16) -> Option<String> {
        let table = self.named.table;
        let name = self.named.operand(self.state, register.into());
        let node = Expression::of(table.expressions[usize::from(value)])?;
        if node == Expression::Register(register) {
            return Some(format!("`{name}` is assigned to itself: nothing changes"));
        }
        let constant = self.ranges.of(value);
        if self.reads(value) || constant.low != constant.high {
            return None;
        }
        self.too_wide(&name, register, value, constant.low)
    }

    /// Of a parameter where no register that it can stand for has room.
    fn too_wide(&self, name: &str, register: u8, value: u16, constant: u32) -> Option<String> {
        let registers = self.bindings.registers(self.state, register.into());
        let widths = (registers.iter())
            .map(|&register| self.named.table.registers[usize::from(register)].width);
        let widths: Vec<u8> = widths.collect();
        let (least, most) = (*widths.iter().min()?, *widths.iter().max()?);
        let largest_value = largest(most)?;
        if constant <= largest_value {
            return None;
        }
        let text = self.named.expression(self.state, value);
        let shown = match text == constant.to_string() {
            true => format!("the constant {constant}"),
            false => format!("the constant `{text}`, which is {constant},"),
        };
        let bits = match most {
            1 => "1 bit".to_string(),
            bits => format!("{bits} bits"),
        };
        Some(match least == most {
            true => {
                let stored = constant & largest_value;
                format!("{shown} is too wide for `{name}`, which has {bits}: {stored} is stored")
            }
            false => format!(
                "{shown} is too wide for every register that `{name}` can stand for: \
                 these have {bits} at the most, and the bits above are lost"
            ),
        })
    }
}
