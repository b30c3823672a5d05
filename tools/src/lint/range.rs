//! Between which values an expression lies, whatever registers hold. Never too narrow; where nothing is known,
//! all 32 bits.

use super::bindings::Bindings;
use crate::operator::Operator;
use crate::table::node::Expression;
use crate::table::{largest, Table};

/// Unsigned, both ends included.
#[derive(Clone, Copy, Debug, PartialEq, Eq)]
pub struct Range {
    pub low: u32,
    pub high: u32,
}

const ALL: Range = Range {
    low: 0,
    high: u32::MAX,
};

/// Of the expressions in the body of a state.
pub struct Ranges<'a> {
    pub table: &'a Table,
    pub bindings: &'a Bindings<'a>,
    pub state: usize,
}

impl Ranges<'_> {
    pub fn of(&self, number: u16) -> Range {
        match self.node(number) {
            Some(Expression::Constant(value)) => Range::one(value),
            Some(Expression::Register(byte)) => self.register(byte),
            Some(Expression::Operation(operator, left, right)) => {
                let parts = (self.of(left), self.of(right));
                match self.same(left, right) {
                    true => of_same(operator, parts.0),
                    false => of_parts(operator, parts.0, parts.1),
                }
            }
            None => ALL,
        }
    }

    /// As wide as the widest that a parameter can stand for.
    fn register(&self, byte: u8) -> Range {
        let registers = self.bindings.registers(self.state, byte.into());
        let widths = registers
            .iter()
            .map(|&one| self.table.registers[usize::from(one)].width);
        let high = widths.max().and_then(largest).unwrap_or(u32::MAX);
        Range { low: 0, high }
    }

    /// Whether two expressions are the same tree, and so have the same value.
    pub fn same(&self, one: u16, other: u16) -> bool {
        match (self.node(one), self.node(other)) {
            (
                Some(Expression::Operation(operator, left, right)),
                Some(Expression::Operation(other, other_left, other_right)),
            ) => operator == other && self.same(left, other_left) && self.same(right, other_right),
            (Some(one), Some(other)) => one == other,
            _ => false,
        }
    }

    fn node(&self, number: u16) -> Option<Expression> {
        Expression::of(self.table.expressions[usize::from(number)])
    }
}

/// Where both parts have the same value.
fn of_same(operator: Operator, part: Range) -> Range {
    match operator {
        Operator::Subtract | Operator::Xor | Operator::Less | Operator::SignedLess => Range::one(0),
        Operator::Equal => Range::one(1),
        Operator::And | Operator::Or => part,
        // By 0 it gives 0.
        Operator::SignedDivide if part.low > 0 => Range::one(1),
        Operator::SignedDivide => Range { low: 0, high: 1 },
        Operator::Add | Operator::ShiftRight => of_parts(operator, part, part),
    }
}

fn of_parts(operator: Operator, left: Range, right: Range) -> Range {
    match operator {
        Operator::Add => between(
            i64::from(left.low) + i64::from(right.low),
            i64::from(left.high) + i64::from(right.high),
        ),
        Operator::Subtract => between(
            i64::from(left.low) - i64::from(right.high),
            i64::from(left.high) - i64::from(right.low),
        ),
        Operator::And if left.is_one() && right.is_one() => Range::one(left.low & right.low),
        Operator::And => Range {
            low: 0,
            high: left.high.min(right.high),
        },
        Operator::Or if left.is_one() && right.is_one() => Range::one(left.low | right.low),
        Operator::Or => Range {
            low: left.low.max(right.low),
            high: filled(left.high | right.high),
        },
        Operator::Xor if left.is_one() && right.is_one() => Range::one(left.low ^ right.low),
        Operator::Xor => Range {
            low: 0,
            high: filled(left.high | right.high),
        },
        Operator::Equal if left.is_one() && left == right => Range::one(1),
        Operator::Equal => match left.high < right.low || right.high < left.low {
            true => Range::one(0),
            false => EITHER,
        },
        Operator::Less => less(
            (left.low.into(), left.high.into()),
            (right.low.into(), right.high.into()),
        ),
        Operator::SignedLess => less(left.signed(), right.signed()),
        Operator::ShiftRight => shifted(left.signed(), right),
        Operator::SignedDivide => divided(left.signed(), right.signed()),
    }
}

const EITHER: Range = Range { low: 0, high: 1 };

/// A comparison of what lies between such ends.
fn less(left: (i64, i64), right: (i64, i64)) -> Range {
    if left.1 < right.0 {
        Range::one(1)
    } else if left.0 >= right.1 {
        Range::one(0)
    } else {
        EITHER
    }
}

fn shifted((low, high): (i64, i64), count: Range) -> Range {
    match count.is_one() {
        true => between(low >> (count.low & 31), high >> (count.low & 31)),
        // Each shift brings a value nearer to 0, or to -1.
        false => between(low.min(0), high.max(-1)),
    }
}

fn divided((low, high): (i64, i64), (least, most): (i64, i64)) -> Range {
    if least == most && least != 0 {
        let ends = [low / least, high / least];
        return between(ends[0].min(ends[1]), ends[0].max(ends[1]));
    }
    if least == most {
        return Range::one(0);
    }
    match low >= 0 && least >= 0 {
        true => between(0, high),
        false => ALL,
    }
}

/// Modulo 2 to the power of 32, where that leaves one range.
fn between(low: i64, high: i64) -> Range {
    match low >> 32 == high >> 32 {
        true => Range {
            low: low as u32,
            high: high as u32,
        },
        false => ALL,
    }
}

/// All bits up to the highest one.
fn filled(value: u32) -> u32 {
    u32::MAX.checked_shr(value.leading_zeros()).unwrap_or(0)
}

impl Range {
    fn one(value: u32) -> Range {
        Range {
            low: value,
            high: value,
        }
    }

    fn is_one(self) -> bool {
        self.low == self.high
    }

    /// The same as signed values.
    fn signed(self) -> (i64, i64) {
        match (self.low as i32, self.high as i32) {
            (low, high) if low <= high => (low.into(), high.into()),
            _ => (i32::MIN.into(), i32::MAX.into()),
        }
    }

    pub fn words(self, signed: bool) -> String {
        let (low, high) = match signed {
            true => self.signed(),
            false => (self.low.into(), self.high.into()),
        };
        match low == high {
            true => low.to_string(),
            false => format!("from {low} to {high}"),
        }
    }
}

#[cfg(test)]
#[path = "range_tests.rs"]
mod tests;
