//! Signed readings, request E3.

use super::{computed, listed};
use crate::designs::{level, one_operation, with_width};
use crate::examples::values::{DIVIDE, SHIFT, SIGNED, SIGNED_LESS};

const MINUS_SEVEN: u32 = 4_294_967_289;

#[test]
fn results() {
    for operation in &SIGNED {
        let table = one_operation(operation.kind);
        for &(left, right, expected) in operation.results {
            let value = computed(&table, left.cast_unsigned(), right.cast_unsigned());
            let sentence = operation.sentence;
            assert_eq!(value.cast_signed(), expected, "{sentence}: {left} {right}");
        }
    }
}

/// The same numbers without a sign, as an area has them.
#[test]
fn results_in_an_area() {
    let result = |kind, left, right| computed(&one_operation(kind), left, right);
    assert_eq!(result(SIGNED_LESS, 2_147_483_647, 2_147_483_648), 0);
    assert_eq!(result(SIGNED_LESS, 2_147_483_648, 2_147_483_647), 1);
    assert_eq!(result(SHIFT, 2_147_483_648, 31), 4_294_967_295);
    assert_eq!(result(SHIFT, 2_147_483_648, 32), 2_147_483_648);
    assert_eq!(result(SHIFT, 2_147_483_648, 33), 3_221_225_472);
    assert_eq!(result(DIVIDE, MINUS_SEVEN, 2), 4_294_967_293);
    assert_eq!(result(DIVIDE, 2_147_483_648, 4_294_967_295), 2_147_483_648);
    assert_eq!(result(DIVIDE, 1, 2_147_483_648), 0);
}

/// The sign is the highest of 32 bits: a narrow register has none.
#[test]
fn a_narrow_reading_is_not_below_zero() {
    let result = |kind| computed(&with_width(one_operation(kind), 1, 10), 1_023, 1);
    assert_eq!(result(SIGNED_LESS), 0);
    assert_eq!(result(SHIFT), 511);
    assert_eq!(result(DIVIDE), 1_023);
}

#[test]
fn a_value_below_zero_is_cut() {
    let stored = |kind| computed(&with_width(one_operation(kind), 0, 10), MINUS_SEVEN, 1);
    assert_eq!(stored(SIGNED_LESS), 1);
    assert_eq!(stored(SHIFT), 1_020);
    assert_eq!(stored(DIVIDE), 1_017);
}

#[test]
fn the_level() {
    let expected = "cycle;walk;registers\n\
                    1;0 1;4294967276 4294967286 4294967291 0 1\n\
                    2;0 1;4294967276 4294967281 4294967294 0 2\n\
                    3;0 1;4294967276 4294967278 4294967295 0 3\n\
                    4;0 2;4294967276 4294967278 4294967295 1 4\n\
                    5;0 1;4294967276 4294967277 0 1 5\n\
                    6;0 2;4294967276 4294967277 0 2 6\n";
    assert_eq!(listed(&level(), 6), expected);
}
