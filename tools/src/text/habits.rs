//! What people write from habit, and what there is here.

/// How a symbol that there is not would be used, so that the parser can go on behind it.
#[derive(Clone, Copy, Debug, PartialEq, Eq)]
pub enum Use {
    /// Between two parts of an expression.
    Between,
    /// Before one.
    Before,
    /// As one.
    Part,
    Elsewhere,
}

/// A symbol of other languages.
pub struct Habit {
    pub symbol: &'static str,
    pub usage: Use,
    /// None where any token might stand there.
    pub expected: Option<&'static str>,
    pub hint: &'static str,
}

const fn between(symbol: &'static str, hint: &'static str) -> Habit {
    Habit {
        symbol,
        usage: Use::Between,
        expected: None,
        hint,
    }
}

const COMMENT: &str = "`#` before a comment";

/// The longer ones first, so that `>=` is not taken for `>`.
const HABITS: [Habit; 23] = [
    between("!=", "there is no `!=`: write `(a == b) == 0`"),
    between(">=", "there is no `>=`: write `(a < b) == 0`"),
    between("<=", "there is no `<=`: write `(b < a) == 0`"),
    between("&&", "there is no `&&`: write `(a == 1) & (b == 2)`"),
    between("||", "there is no `||`: write `(a == 1) | (b == 2)`"),
    between("**", "there is no `**`, and no multiplication"),
    between("<<", "there is no `<<`: `a + a` is a shift by 1"),
    Habit {
        symbol: ">>",
        usage: Use::Between,
        expected: Some("`>>$`, arithmetic right shift"),
        hint: "write `a >>$ b`",
    },
    Habit {
        symbol: "//",
        usage: Use::Elsewhere,
        expected: Some(COMMENT),
        hint: "a comment begins with `#` and goes to the end of the line",
    },
    Habit {
        symbol: "/*",
        usage: Use::Elsewhere,
        expected: Some(COMMENT),
        hint: "a comment begins with `#` and goes to the end of the line; each line has its own",
    },
    Habit {
        symbol: "++",
        usage: Use::Elsewhere,
        expected: None,
        hint: "there is no `++`: write `a := a + 1`",
    },
    Habit {
        symbol: "+=",
        usage: Use::Elsewhere,
        expected: None,
        hint: "there is no `+=`: write `a := a + b`",
    },
    Habit {
        symbol: "-=",
        usage: Use::Elsewhere,
        expected: None,
        hint: "there is no `-=`: write `a := a - b`",
    },
    between(">", "there is no `>`: write `b < a`"),
    between("*", "there is no `*`: write `a + a` for `2 * a`"),
    between(
        "%",
        "there is no `%`: write `a & 7` for the rest of a division by 8",
    ),
    Habit {
        symbol: "/",
        usage: Use::Between,
        expected: Some("`/$`, signed division"),
        hint: "write `a /$ b`",
    },
    Habit {
        symbol: "!",
        usage: Use::Before,
        expected: None,
        hint: "there is no `!`: write `a == 0`",
    },
    Habit {
        symbol: "~",
        usage: Use::Before,
        expected: None,
        hint: "there is no `~`: write `a ^ -1`",
    },
    Habit {
        symbol: "\"",
        usage: Use::Part,
        expected: None,
        hint: "there are no strings: values are numbers, and names stand without quotes",
    },
    Habit {
        symbol: "'",
        usage: Use::Part,
        expected: None,
        hint: "there are no characters: values are numbers, and names stand without quotes",
    },
    Habit {
        symbol: "[",
        usage: Use::Part,
        expected: None,
        hint: "what a print has in square brackets has no form in the text",
    },
    Habit {
        symbol: ".",
        usage: Use::Elsewhere,
        expected: None,
        hint: "there are no fractions and no fields: numbers are whole",
    },
];

/// The habit that a text begins with.
pub fn habit(text: &str) -> Option<&'static Habit> {
    HABITS.iter().find(|habit| text.starts_with(habit.symbol))
}

/// How a piece of text that is no token would be used.
pub fn usage(piece: &str) -> Use {
    let habit = HABITS.iter().find(|habit| habit.symbol == piece);
    let part = piece.starts_with(|one: char| one.is_alphanumeric() || "_'\"[".contains(one));
    match (habit, part) {
        (_, true) => Use::Part,
        (Some(habit), _) => habit.usage,
        (None, _) => Use::Before,
    }
}

/// Of a word that begins with a digit and is no number.
pub fn number(word: &str) -> Option<String> {
    for (prefix, radix) in [("0x", 16), ("0X", 16), ("0b", 2), ("0B", 2), ("0o", 8)] {
        let digits = word
            .strip_prefix(prefix)
            .map(|digits| digits.replace('_', ""));
        let value = digits.and_then(|digits| u32::from_str_radix(&digits, radix).ok());
        if let Some(value) = value {
            return Some(format!("numbers are decimal: {word} is {value}"));
        }
    }
    let plain = word.replace('_', "");
    let value: Option<u32> = plain.parse().ok();
    value.map(|value| format!("digits stand together: write {value}"))
}

/// Of a name that is none of the text.
pub fn name(name: &str) -> Option<&'static str> {
    match name {
        "true" | "True" | "TRUE" => Some("there is no `true`: write 1"),
        "false" | "False" | "FALSE" => Some("there is no `false`: write 0"),
        _ => None,
    }
}
