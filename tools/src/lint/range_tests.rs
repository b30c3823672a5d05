//! That no value lies outside its range, for every operator.

use super::*;

/// By the rules of the operators, apart from the ranges above.
fn value(operator: Operator, left: u32, right: u32) -> u32 {
    let (signed_left, signed_right) = (left as i32, right as i32);
    match operator {
        Operator::Add => left.wrapping_add(right),
        Operator::Subtract => left.wrapping_sub(right),
        Operator::And => left & right,
        Operator::Or => left | right,
        Operator::Xor => left ^ right,
        Operator::Equal => u32::from(left == right),
        Operator::Less => u32::from(left < right),
        Operator::SignedLess => u32::from(signed_left < signed_right),
        Operator::ShiftRight => (signed_left >> (right & 31)) as u32,
        Operator::SignedDivide if right == 0 => 0,
        Operator::SignedDivide => signed_left.wrapping_div(signed_right) as u32,
    }
}

const EDGES: [u32; 18] = [
    0,
    1,
    2,
    3,
    5,
    31,
    32,
    33,
    1_023,
    1_024,
    0x7fff_fffe,
    0x7fff_ffff,
    0x8000_0000,
    0x8000_0001,
    0xffff_fc00,
    0xffff_fff0,
    0xffff_fffe,
    0xffff_ffff,
];

fn ranges() -> Vec<Range> {
    let pairs = EDGES
        .iter()
        .flat_map(|&low| EDGES.map(|high| Range { low, high }));
    pairs.filter(|range| range.low <= range.high).collect()
}

fn within(range: Range) -> impl Iterator<Item = u32> {
    let edges = EDGES.into_iter();
    edges.filter(move |&edge| range.low <= edge && edge <= range.high)
}

fn holds(range: Range, value: u32) -> bool {
    range.low <= value && value <= range.high
}

#[test]
fn no_value_lies_outside() {
    for operator in Operator::ALL {
        for left in ranges() {
            for right in ranges() {
                let range = of_parts(operator, left, right);
                for (one, other) in
                    within(left).flat_map(|one| within(right).map(move |other| (one, other)))
                {
                    let value = value(operator, one, other);
                    assert!(
                        holds(range, value),
                        "{one} {} {other} is {value}: {left:?} {right:?} {range:?}",
                        operator.symbol()
                    );
                }
            }
            let range = of_same(operator, left);
            for one in within(left) {
                let value = value(operator, one, one);
                assert!(holds(range, value), "{one} {}", operator.symbol());
            }
        }
    }
}

/// A range of one value from ranges of one value.
#[test]
fn constants_are_known() {
    for operator in Operator::ALL {
        for one in EDGES {
            for other in EDGES {
                let expected = Range::one(value(operator, one, other));
                let found = of_parts(operator, Range::one(one), Range::one(other));
                assert_eq!(found, expected, "{one} {} {other}", operator.symbol());
            }
        }
    }
}
