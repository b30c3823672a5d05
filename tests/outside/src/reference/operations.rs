//! What an operation gives for the values of its two parts.

use super::image::{SHIFT, SIGNED_LESS};

/// Expects one of the kinds 2 to 11.
pub fn value(kind: u8, left: u32, right: u32) -> u32 {
    match kind {
        2 => left.wrapping_add(right),
        3 => left.wrapping_sub(right),
        4 => left & right,
        5 => left | right,
        6 => left ^ right,
        7 => u32::from(left == right),
        8 => u32::from(left < right),
        SIGNED_LESS => u32::from(left.cast_signed() < right.cast_signed()),
        // An i32 takes copies of its sign in from the left; the count is its low five bits.
        SHIFT => (left.cast_signed() >> (right % 32)).cast_unsigned(),
        _ => quotient(left.cast_signed(), right.cast_signed()).cast_unsigned(),
    }
}

/// Rounded toward zero, as Rust has it, and 0 for a zero divisor. Only the lowest value divided by
/// minus one wraps, to itself.
fn quotient(left: i32, right: i32) -> i32 {
    if right == 0 {
        0
    } else {
        left.wrapping_div(right)
    }
}
