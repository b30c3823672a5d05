//! The numbers of document 01, and those that document 02 puts in their place.

pub const DIRECTORY_BYTES: usize = 20;

pub const ROW_BYTES: usize = 2;
pub const REGISTER_BYTES: usize = 7;
pub const STATE_BYTES: usize = 9;
pub const NODE_BYTES: usize = 8;

pub const MOST_LABELS: usize = 16;
pub const MOST_REGISTERS: usize = 64;
pub const MOST_STATES: usize = 64;
pub const MOST_COMMANDS: usize = 1_024;
pub const MOST_EXPRESSIONS: usize = 2_048;

/// The parameters of a state, and those in scope along a line from the root: request E8.
pub const MOST_PARAMETERS: usize = 2;
/// The register byte that names the first parameter in scope; the second has the next.
pub const PARAMETER_REGISTER: u8 = 64;
/// The label byte that stands for the label of the first parameter in scope.
pub const PARAMETER_LABEL: u8 = 16;

/// A state in the target area: its target, and behind all targets its two bindings.
pub const TARGET_BYTES: usize = 1 + MOST_PARAMETERS;

/// The number of saved cycles at the start of a journal: request E9.
pub const COUNT_BYTES: usize = 4;

/// The bits of the widest register; the narrowest has one.
pub const WIDEST: u8 = 32;

pub const DEEPEST: u8 = 64;
pub const MOST_CYCLES: u32 = 1_000_000;

/// An expression's place in an answer is this plus its number.
pub const EXPRESSION_PLACE: usize = 1_024;

/// The largest image that can be accepted.
pub const LARGEST_IMAGE: usize = DIRECTORY_BYTES
    + MOST_LABELS * ROW_BYTES
    + MOST_REGISTERS * REGISTER_BYTES
    + MOST_STATES * STATE_BYTES
    + (MOST_COMMANDS + MOST_EXPRESSIONS) * NODE_BYTES;

// Gate tables, request E13.

pub const GATES_DIRECTORY_BYTES: usize = 12;

pub const INPUT_BYTES: usize = 1;
pub const FLIPFLOP_BYTES: usize = 4;
pub const GATE_BYTES: usize = 4;

pub const MOST_INPUTS: usize = 256;
pub const MOST_FLIPFLOPS: usize = 256;
pub const MOST_GATES: usize = 4_096;

/// A flip-flop in its area: a value and a mark.
pub const PAIR_BYTES: usize = 2;
