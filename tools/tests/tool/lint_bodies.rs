//! Each warning about conditions and assignments: a body that has it, and one that only just does not.

use crate::lint::{assert_warned, warned, with};

/// A state with this body, in the fifth line from column 26 on, and one beside it.
fn with_body(body: &str) -> String {
    with(&format!(
        "state s in root : low {{ {body}; goto t }}\nstate t in root : low {{ goto s }}"
    ))
}

#[test]
fn conditions_that_are_always_the_same() {
    for (condition, expected) in [
        ("0", "false (it has no register)"),
        ("1 + 2 == 3", "true (it has no register)"),
        ("a == a", "true (both sides are the same)"),
        ("a + c < a + c", "false (both sides are the same)"),
        ("a <$ a", "false (both sides are the same)"),
        ("a - a", "false (both sides are the same)"),
        ("a ^ a", "false (both sides are the same)"),
        ("a | 1", "true"),
        ("a & 0", "false"),
        (
            "a < 0",
            "false (the left side is from 0 to 1023, the right side 0)",
        ),
        (
            "a < 1024",
            "true (the left side is from 0 to 1023, the right side 1024)",
        ),
        (
            "a == 1024",
            "false (the left side is from 0 to 1023, the right side 1024)",
        ),
        (
            "1023 < a",
            "false (the left side is 1023, the right side from 0 to 1023)",
        ),
        (
            "a <$ 0",
            "false (the left side is from 0 to 1023, the right side 0)",
        ),
        (
            "-1 <$ a",
            "true (the left side is -1, the right side from 0 to 1023)",
        ),
        (
            "a + c < 2047",
            "true (the left side is from 0 to 2046, the right side 2047)",
        ),
        (
            "a >>$ 10 == 0",
            "true (the left side is 0, the right side 0)",
        ),
        (
            "a /$ 4 < 256",
            "true (the left side is from 0 to 255, the right side 256)",
        ),
    ] {
        let dead = if expected.starts_with("true") {
            "else"
        } else {
            "then"
        };
        let words = format!(
            "5:28: the condition `{condition}` is always {expected}: what stands behind `{dead}` never runs"
        );
        let source = with_body(&format!("if {condition} then skip else skip"));
        assert_warned(&source, &[&words]);
    }
}

/// Each beside one above, by as little as can be.
#[test]
fn conditions_that_may_be_either() {
    for condition in [
        "a",
        "a + c < c + a",
        "a - c",
        "a & 1",
        "a < 1",
        "a < 1023",
        "a == 1023",
        "1022 < a",
        "a <$ 1",
        "0 <$ a",
        "a - c <$ 0",
        "a + c < 2046",
        "a >>$ 9 == 0",
        "a /$ 4 < 255",
    ] {
        assert_warned(
            &with_body(&format!("if {condition} then skip else skip")),
            &[],
        );
    }
}

#[test]
fn assignments_that_lose_or_change_nothing() {
    for (body, expected) in [
        ("a := 1024", Some("the constant 1024 is too wide for `a`, which has 10 bits: 0 is stored")),
        ("a := 1023", None),
        ("a := 1500", Some("the constant 1500 is too wide for `a`, which has 10 bits: 476 is stored")),
        ("a := -1", Some("the constant 4294967295 is too wide for `a`, which has 10 bits: 1023 is stored")),
        (
            "a := 1000 + 24",
            Some("the constant `1000 + 24`, which is 1024, is too wide for `a`, which has 10 bits: 0 is stored"),
        ),
        ("a := 1000 + 23", None),
        // Only what has no register in it is a constant.
        ("a := 1024 + (a & 0)", None),
        ("a := a", Some("`a` is assigned to itself: nothing changes")),
        ("a := a + 0", None),
        ("a := c", None),
    ] {
        let expected: Vec<String> = expected.into_iter().map(|words| format!("5:25: {words}")).collect();
        assert_eq!(warned(&with_body(body)), expected, "{body}");
    }
    let one_bit =
        with("register f : low width 1 = 0\nstate s in root : low { f := 2; a := f; goto s }");
    let words = "6:25: the constant 2 is too wide for `f`, which has 1 bit: 0 is stored";
    assert_warned(&one_bit, &[words]);
}
