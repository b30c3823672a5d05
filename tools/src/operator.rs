//! The operators: what parser, numbering and printer have to agree on.

#[derive(Clone, Copy, Debug, PartialEq, Eq)]
pub enum Operator {
    Add,
    Subtract,
    And,
    Or,
    Xor,
    Equal,
    Less,
    SignedLess,
    ShiftRight,
    SignedDivide,
}

impl Operator {
    /// In the order of the node kinds 2 to 11.
    pub const ALL: [Operator; 10] = [
        Operator::Add,
        Operator::Subtract,
        Operator::And,
        Operator::Or,
        Operator::Xor,
        Operator::Equal,
        Operator::Less,
        Operator::SignedLess,
        Operator::ShiftRight,
        Operator::SignedDivide,
    ];

    pub fn kind(self) -> u8 {
        2 + self as u8
    }

    pub fn of_kind(kind: u8) -> Option<Operator> {
        Operator::ALL.into_iter().find(|one| one.kind() == kind)
    }

    /// A `$` says that the parts are read as signed.
    pub fn symbol(self) -> &'static str {
        match self {
            Operator::Add => "+",
            Operator::Subtract => "-",
            Operator::And => "&",
            Operator::Or => "|",
            Operator::Xor => "^",
            Operator::Equal => "==",
            Operator::Less => "<",
            Operator::SignedLess => "<$",
            Operator::ShiftRight => ">>$",
            Operator::SignedDivide => "/$",
        }
    }

    /// Which of its two parts are read as signed. The count of a shift is not.
    pub fn signed_parts(self) -> (bool, bool) {
        match self {
            Operator::SignedLess | Operator::SignedDivide => (true, true),
            Operator::ShiftRight => (true, false),
            _ => (false, false),
        }
    }

    /// The higher, the tighter it binds. `COMPARISON` is the loosest.
    pub fn binding(self) -> u8 {
        match self {
            Operator::SignedDivide => 7,
            Operator::Add | Operator::Subtract => 6,
            Operator::ShiftRight => 5,
            Operator::And => 4,
            Operator::Xor => 3,
            Operator::Or => 2,
            Operator::Equal | Operator::Less | Operator::SignedLess => COMPARISON,
        }
    }

    /// What its left part must bind at least. Comparisons do not chain, all others go to the left.
    pub fn left_binding(self) -> u8 {
        self.binding() + u8::from(self.binding() == COMPARISON)
    }

    pub fn right_binding(self) -> u8 {
        self.binding() + 1
    }
}

pub const COMPARISON: u8 = 1;

/// Constants, registers and what stands in parentheses.
pub const TIGHTEST: u8 = u8::MAX;
