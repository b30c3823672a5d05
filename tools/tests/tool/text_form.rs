//! The text form: what binds how, what is numbered how, and what each fault says.

use crate::common::{on_large_stack, with_body};
use caisson_tools::assemble;

fn assert_same(one: &str, other: &str) {
    let tables = [one, other].map(|body| assemble(&with_body(body)).unwrap());
    assert!(tables[0] == tables[1], "{one} is not {other}");
}

fn assert_differ(one: &str, other: &str) {
    let tables = [one, other].map(|body| assemble(&with_body(body)).unwrap());
    assert!(tables[0] != tables[1], "{one} is {other}");
}

fn value(expression: &str) -> String {
    format!("a := {expression}; goto s")
}

#[test]
fn operators_bind() {
    for (one, other) in [
        ("a + b & c", "(a + b) & c"),
        ("a & b - c", "a & (b - c)"),
        ("a & b ^ c & a", "(a & b) ^ (c & a)"),
        ("a ^ b | c ^ a", "(a ^ b) | (c ^ a)"),
        ("a | b == c | 1", "(a | b) == (c | 1)"),
        ("a + 1 < b - 1", "(a + 1) < (b - 1)"),
        ("a - b - c", "(a - b) - c"),
        ("a - b + c", "(a - b) + c"),
        ("a | b | c", "(a | b) | c"),
        ("((a))", "a"),
    ] {
        assert_same(&value(one), &value(other));
    }
    assert_differ(&value("a - b - c"), &value("a - (b - c)"));
    assert_differ(&value("a & b + c"), &value("(a & b) + c"));
}

/// Each two operators: the tighter one first, of equals the left one, and comparisons do not chain.
#[test]
fn every_two_operators_bind() {
    let levels: [&[&str]; 7] = [
        &["/$"],
        &["+", "-"],
        &[">>$"],
        &["&"],
        &["^"],
        &["|"],
        &["==", "<", "<$"],
    ];
    let operators = (0..7).flat_map(|level| levels[level].iter().map(move |one| (level, *one)));
    let operators: Vec<(usize, &str)> = operators.collect();
    for &(first_level, first) in &operators {
        for &(second_level, second) in &operators {
            let plain = value(&format!("a {first} b {second} c"));
            let left = value(&format!("(a {first} b) {second} c"));
            let right = value(&format!("a {first} (b {second} c)"));
            assert_differ(&left, &right);
            if (first_level, second_level) == (6, 6) {
                let found = fault(&with_body(&plain));
                let expected = "expected parentheses, as comparisons do not chain, found ";
                assert!(found.ends_with(&format!("{expected}`{second}`")), "{found}");
            } else if second_level < first_level {
                assert_same(&plain, &right);
            } else {
                assert_same(&plain, &left);
            }
        }
    }
}

/// The expressions of a body with one assignment.
fn expressions(text: &str) -> Vec<u8> {
    let image = assemble(&with_body(&value(text))).unwrap();
    let at = usize::from(u16::from_le_bytes([image[16], image[17]]));
    image[at..].to_vec()
}

#[test]
fn signed_operators_have_their_kinds() {
    for (symbol, kind) in [("<$", 9), (">>$", 10), ("/$", 11)] {
        let expected = [
            [1, 0, 0, 0, 0, 0, 0, 0],
            [1, 1, 0, 0, 0, 0, 0, 0],
            [kind, 0, 0, 0, 1, 0, 0, 0],
        ];
        assert_eq!(expressions(&format!("a {symbol} b")), expected.concat());
        assert_eq!(expressions(&format!("a{symbol}b")), expected.concat());
    }
}

/// One constant each; behind an operand `-` is the operator.
#[test]
fn numbers_below_zero() {
    for (text, bytes) in [
        ("-40", [216, 255, 255, 255]),
        ("- 40", [216, 255, 255, 255]),
        ("(-1)", [255, 255, 255, 255]),
        ("-0", [0, 0, 0, 0]),
        ("-2147483648", [0, 0, 0, 128]),
        ("-2147483647", [1, 0, 0, 128]),
    ] {
        assert_eq!(expressions(text), [[0, 0, 0, 0], bytes].concat(), "{text}");
    }
    for (one, other) in [
        ("a -40", "a - 40"),
        ("a-40", "a - 40"),
        ("(a)-40", "a - 40"),
        ("3 -40", "3 - 40"),
        ("a - -40", "a - 4294967256"),
        ("a--40", "a - 4294967256"),
        ("a <$-40", "a <$ 4294967256"),
        ("-40 - a", "4294967256 - a"),
        ("-6 /$ -3 - 1", "(4294967290 /$ 4294967293) - 1"),
        ("b & -1 >>$ 1", "b & (4294967295 >>$ 1)"),
    ] {
        assert_same(&value(one), &value(other));
    }
    assert_differ(&value("-40"), &value("0 - 40"));
}

/// The library judges whether it is within the width.
#[test]
fn reset_values_below_zero() {
    let declared = |register: &str| {
        let source = format!("label low {register} state root : low {{ fall }}");
        assemble(&source).unwrap()
    };
    for (one, other) in [
        ("port r : low = -40", "port r : low = 4294967256"),
        (
            "register r : low = -2147483648",
            "register r : low = 2147483648",
        ),
        (
            "port r : low width 10=-1",
            "port r : low width 10 = 4294967295",
        ),
    ] {
        assert_eq!(declared(one), declared(other));
    }
}

#[test]
fn commands_bind() {
    assert_same("skip; skip; goto s", "skip; { skip; goto s }");
    assert_differ("skip; skip; goto s", "{ skip; skip }; goto s");
    let (one, other) = (
        "if a then skip else skip; goto s",
        "{ if a then skip else skip }; goto s",
    );
    assert_same(one, other);
    let (one, other) = (
        "if a then if b then goto s else goto root else goto s",
        "if a then { if b then goto s else goto root } else goto s",
    );
    assert_same(one, other);
    assert_same("{ { goto s } }", "goto s # a comment\n");
}

/// Comments end a line only, and the order of the kinds of declarations does not matter.
#[test]
fn layout_does_not_matter() {
    let other = "state root:low{fall} # the root\n\n\tstate s in root:low{a:=c+1;goto s}\n\
                 register a:low=0 register b:low=0\r\nport c:low=0 label low";
    let expected = assemble(&with_body("a := c + 1; goto s")).unwrap();
    assert_eq!(assemble(other).unwrap(), expected);
}

/// The width is the last byte of the record, 32 where it is left out.
#[test]
fn widths_are_taken() {
    let record = |declared: &str| {
        let source = format!("label low {declared} state root : low {{ fall }}");
        let image = assemble(&source).unwrap();
        image[22..29].to_vec()
    };
    assert_eq!(record("register r : low = 258"), [0, 0, 2, 1, 0, 0, 32]);
    assert_eq!(
        record("register r : low width 32 = 258"),
        [0, 0, 2, 1, 0, 0, 32]
    );
    assert_eq!(
        record("port r : low width 10 = 258"),
        [0, 1, 2, 1, 0, 0, 10]
    );
    // The library judges the reset value.
    assert_eq!(record("port r:low width 1=258"), [0, 1, 2, 1, 0, 0, 1]);
}

/// Names of labels, registers and states are apart.
#[test]
fn one_name_may_serve_three_kinds() {
    let source = "label x register x : x = 1 state x : x { x := x; fall } \
                  state y in x : x { goto y }";
    assert!(assemble(source).is_ok());
}

fn fault(source: &str) -> String {
    assemble(source).unwrap_err().to_string()
}

#[test]
fn faults_of_declarations() {
    for (source, message) in [
        ("", "line 1, column 1: expected at least one label, found the end of the text"),
        ("label a", "line 1, column 8: expected at least one state, found the end of the text"),
        (
            "lable a",
            "line 1, column 1: expected `label`, `register`, `port` or `state`, or `gates` of a gate table, found `lable`",
        ),
        ("label a lable b", "line 1, column 9: expected `label`, `register`, `port` or `state`, found `lable`"),
        ("label if", "line 1, column 7: expected the label's name, found `if`"),
        ("label a -> b\nstate r : a { fall }", "line 1, column 12: expected the name of a label, found `b`"),
        ("label a\nlabel a\nstate r : a { fall }", "line 2, column 7: expected a name that no label above has, found `a`"),
        ("label a register r = 3", "line 1, column 20: expected `:` and a label, found `=`"),
        (
            "label a\n  register r : a",
            "line 2, column 17: expected `width`, or `=` and the reset value, found the end of the text",
        ),
        (
            "label a register r : a width 10",
            "line 1, column 32: expected `=` and the reset value, found the end of the text",
        ),
        ("label a register r : a width = 0", "line 1, column 30: expected a width from 1 to 32, found `=`"),
        ("label a port r : a width 0 = 0", "line 1, column 26: expected a width from 1 to 32, found `0`"),
        ("label a port r : a width 33 = 0", "line 1, column 26: expected a width from 1 to 32, found `33`"),
        ("label a port r : a [width 33] = 0", "line 1, column 20: expected a name, a number or a symbol, found `[`"),
        ("label a register width : a = 0", "line 1, column 18: expected the register's name, found `width`"),
        ("label a\nport é : a = 0", "line 2, column 6: expected a name, a number or a symbol, found `é`"),
        (
            "label a register r : a = 4294967296",
            "line 1, column 26: expected a decimal number from 0 to 4294967295, found `4294967296`",
        ),
        (
            "label a port r : a = -2147483649",
            "line 1, column 23: expected a number from 0 to 2147483648 behind `-`, found `2147483649`",
        ),
        (
            "label a port r : a = -b",
            "line 1, column 23: expected a number behind `-` (what is no number is negated as `0 - x`), found `b`",
        ),
        ("label a port r : a width -1 = 0", "line 1, column 26: expected a width from 1 to 32, found `-`"),
        (
            "label a state r : a { fall } state s : a { fall }",
            "line 1, column 38: expected `in` and the parent (only the first state goes without), found `:`",
        ),
        ("label a state r : a fall", "line 1, column 21: expected `{` and the state's body, found `fall`"),
    ] {
        assert_eq!(fault(source), message);
    }
}

#[test]
fn faults_of_bodies() {
    for (body, message) in [
        ("goto t", "expected the name of a state, found `t`"),
        ("d := 1", "expected the name of a register, found `d`"),
        ("a = 1", "expected `:=` and an expression, found `=`"),
        ("a := d", "expected the name of a register, found `d`"),
        ("a := 1 == 2 == 3", "expected parentheses, as comparisons do not chain, found `==`"),
        ("a := 1 < 2 == 3", "expected parentheses, as comparisons do not chain, found `==`"),
        ("a := (1", "expected an operator or `)`, found `}`"),
        ("a := 1x", "expected a decimal number from 0 to 4294967295, found `1x`"),
        ("a := + 1", "expected an expression: a number, the name of a register or `(`, found `+`"),
        ("a := -b", "expected a number behind `-` (what is no number is negated as `0 - x`), found `b`"),
        ("a := 1 + -(b)", "expected a number behind `-` (what is no number is negated as `0 - x`), found `(`"),
        ("a := --1", "expected a number behind `-` (what is no number is negated as `0 - x`), found `-`"),
        ("a := b -", "expected an expression: a number, the name of a register or `(`, found `}`"),
        ("a := -2147483649", "expected a number from 0 to 2147483648 behind `-`, found `2147483649`"),
        ("a := -4294967296", "expected a decimal number from 0 to 4294967295, found `4294967296`"),
        ("a := b / 2", "expected `/$`, signed division, found `/`"),
        ("a := b >> 2", "expected `>>$`, arithmetic right shift, found `>>`"),
        ("a := b > 2", "expected a name, a number or a symbol, found `>`"),
        ("a := b < $ 2", "expected a name, a number or a symbol, found `$`"),
        ("if a fall else fall", "expected an operator or `then`, found `fall`"),
        (
            "if a then a := 1; fall else fall",
            "expected `else` (a sequence in a branch stands in braces), found `;`",
        ),
        (
            "fall;",
            "expected a command: `skip`, `fall`, `goto`, `if`, `{` or the name of a register, found `}`",
        ),
        ("fall fall", "expected `;` or `}`, found `fall`"),
        ("[command 3]", "expected a name, a number or a symbol, found `[`"),
    ] {
        let found = fault(&with_body(body));
        assert!(found.starts_with("line 6, column "), "{found}");
        assert!(found.ends_with(message), "{found}");
    }
}

#[test]
fn counts_are_kept() {
    let many = |count: usize, one: &dyn Fn(usize) -> String| -> String {
        (0..count).map(one).collect::<Vec<_>>().join("\n")
    };
    let state = "\nlabel low\nstate root : low { fall }";
    let labels = |count| many(count, &|n| format!("label l{n}")) + "\nstate root : l0 { fall }";
    assert!(assemble(&labels(16)).is_ok());
    assert!(fault(&labels(17)).ends_with("expected at most 16 labels, found one more"));
    let registers = |count| many(count, &|n| format!("port r{n} : low = 0")) + state;
    assert!(assemble(&registers(64)).is_ok());
    assert!(fault(&registers(65)).ends_with("expected at most 64 registers, found one more"));
    let states = |count| {
        format!(
            "{state}\n{}",
            many(count, &|n| format!("state s{n} in root : low {{ fall }}"))
        )
    };
    assert!(assemble(&states(63)).is_ok());
    assert!(fault(&states(64)).ends_with("expected at most 64 states, found one more"));
    let commands = |count| with_body(&(vec!["skip"; count].join(";") + "; fall"));
    assert!(assemble(&commands(511)).is_ok());
    assert!(fault(&commands(512)).ends_with("expected at most 1024 commands, found one more"));
    let sums = |count| with_body(&value(&vec!["1"; count].join("+")));
    assert!(assemble(&sums(1_024)).is_ok());
    assert!(fault(&sums(1_025)).ends_with("expected at most 2048 expressions, found one more"));
}

/// However deep the text, the answer is a fault and not an exhausted stack.
#[test]
fn nesting_is_bounded() {
    on_large_stack(|| {
        let parentheses = |count| value(&("(".repeat(count) + "1" + &")".repeat(count)));
        assert!(assemble(&with_body(&parentheses(1_024))).is_ok());
        let braces = "{".repeat(100_000);
        for body in [parentheses(1_025), parentheses(100_000), braces] {
            let found = fault(&with_body(&body));
            let expected = "expected at most 1024 levels of nesting, found one more";
            assert!(found.ends_with(expected), "{found}");
        }
        let found = fault(&with_body(&"if a then ".repeat(100_000)));
        assert!(
            found.ends_with("expected at most 1024 commands, found one more"),
            "{found}"
        );
    });
}
