//! The limits and lengths of a design's table and of a gate table: those of `include/caisson.h`, where each
//! stands once.

const HEADER: &[u8] = include_bytes!("../../../include/caisson.h");

pub const LABELS: usize = defined(b"CAISSON_LABELS");
pub const REGISTERS: usize = defined(b"CAISSON_REGISTERS");
pub const STATES: usize = defined(b"CAISSON_STATES");
pub const COMMANDS: usize = defined(b"CAISSON_COMMANDS");
pub const EXPRESSIONS: usize = defined(b"CAISSON_EXPRESSIONS");

/// The most bits of a register; the least is 1.
pub const WIDTH: u8 = defined(b"CAISSON_WIDTH") as u8;

/// The most parameters of a state, and of all that are in scope of one.
pub const PARAMETERS: usize = defined(b"CAISSON_PARAMETERS");

/// The byte that names the first parameter in the place of a register, and of a state's label.
pub const PARAMETER_REGISTER: u8 = defined(b"CAISSON_PARAMETER_REGISTER") as u8;
pub const PARAMETER_LABEL: u8 = defined(b"CAISSON_PARAMETER_LABEL") as u8;

/// An expression's place is this plus its number.
pub const EXPRESSION_PLACE: usize = defined(b"CAISSON_EXPRESSION_PLACE");

pub const DIRECTORY: usize = defined(b"CAISSON_DIRECTORY_LENGTH");

/// The most labels, registers, states, commands and expressions.
pub const COUNTS: [usize; 5] = [LABELS, REGISTERS, STATES, COMMANDS, EXPRESSIONS];

/// Bytes of a label row, register, state, command and expression.
pub const RECORDS: [usize; 5] = [
    defined(b"CAISSON_LABEL_LENGTH"),
    defined(b"CAISSON_REGISTER_LENGTH"),
    defined(b"CAISSON_STATE_LENGTH"),
    defined(b"CAISSON_NODE_LENGTH"),
    defined(b"CAISSON_NODE_LENGTH"),
];

pub const INPUTS: usize = defined(b"CAISSON_GATES_INPUTS");
pub const FLIPFLOPS: usize = defined(b"CAISSON_GATES_FLIPFLOPS");
pub const GATES: usize = defined(b"CAISSON_GATES_GATES");

pub const GATES_DIRECTORY: usize = defined(b"CAISSON_GATES_DIRECTORY_LENGTH");

/// The most inputs, flip-flops and gates.
pub const GATES_COUNTS: [usize; 3] = [INPUTS, FLIPFLOPS, GATES];

/// Bytes of an input, flip-flop and gate.
pub const GATES_RECORDS: [usize; 3] = [
    defined(b"CAISSON_GATES_INPUT_LENGTH"),
    defined(b"CAISSON_GATES_FLIPFLOP_LENGTH"),
    defined(b"CAISSON_GATES_GATE_LENGTH"),
];

/// The number that the header defines a name as. A name that it lacks stops the compiler.
const fn defined(name: &[u8]) -> usize {
    let mut at = 0;
    while at < HEADER.len() {
        if stands(b"#define ", at) && stands(name, at + 8) && HEADER[at + 8 + name.len()] == b' ' {
            return number(at + 8 + name.len() + 1);
        }
        at += 1;
    }
    panic!("include/caisson.h does not define a limit")
}

const fn stands(text: &[u8], at: usize) -> bool {
    let mut i = 0;
    while i < text.len() {
        if at + i >= HEADER.len() || HEADER[at + i] != text[i] {
            return false;
        }
        i += 1;
    }
    true
}

const fn number(mut at: usize) -> usize {
    assert!(HEADER[at].is_ascii_digit());
    let mut value = 0;
    while HEADER[at].is_ascii_digit() {
        value = 10 * value + (HEADER[at] - b'0') as usize;
        at += 1;
    }
    value
}
