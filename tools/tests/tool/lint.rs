//! Each warning about states and registers: a design that has it, and one that only just does not.

use caisson_tools::lint::{lint_text, Linted};

/// `LINE:COLUMN: words` for each warning of a text.
pub fn warned(source: &str) -> Vec<String> {
    let Linted::Warnings(words) = lint_text("x", source).unwrap() else {
        panic!("refused: {source}");
    };
    let each = words.lines().filter_map(|line| line.strip_prefix("x:"));
    each.map(|line| line.replace(" warning:", "")).collect()
}

/// A register that is read and assigned, a port that is read, and these lines from the fifth on.
pub fn with(lines: &str) -> String {
    format!(
        "label low\nregister a : low width 10 = 0\nport c : low width 10 = 0\n\
         state root : low {{ a := a + c; fall }}\n{lines}\n"
    )
}

pub fn assert_warned(source: &str, expected: &[&str]) {
    assert_eq!(warned(source), expected, "{source}");
}

#[test]
fn states_that_are_never_reached() {
    let all: &[(&str, &[&str])] = &[
        (
            "state s in root : low { goto s }\nstate t in root : low { goto s }",
            &[
                "5:7: state `s` is never left: it goes to no other state, and nothing above it goes anywhere",
                "6:7: state `t` is never reached: no state goes to it",
            ],
        ),
        ("state s in root : low { goto t }\nstate t in root : low { goto s }", &[]),
        // A goto in a branch that no value takes counts as it is written.
        (
            "state s in root : low { if 0 then goto t else goto s }\nstate t in root : low { goto s }",
            &["5:28: the condition `0` is always false (it has no register): what stands behind `then` never runs"],
        ),
        (
            "state s in root : low { goto s }\nstate t in s : low { goto u }\nstate u in s : low { goto t }",
            &[
                "6:7: state `t` is never reached: its parent, state `s`, holds no fall",
                "7:7: state `u` is never reached: its parent, state `s`, holds no fall",
            ],
        ),
        (
            "state s in root : low { fall }\nstate t in s : low { goto u }\nstate u in s : low { goto t }",
            &[],
        ),
        (
            "state s in root : low { goto t }\nstate t in root : low { goto s }\n\
             state u in root : low { goto v }\nstate v in root : low { if a then fall else goto u }\n\
             state w in root : low { if a then goto u else goto v }\nstate x in v : low { goto x }",
            &[
                "7:7: state `u` is never reached: only states `v` and `w` go to it, which are never reached either",
                "8:7: state `v` is never reached: only states `u` and `w` go to it, which are never reached either",
                "9:7: state `w` is never reached: no state goes to it",
                "10:7: state `x` is never reached: its parent, state `v`, is never reached either",
            ],
        ),
    ];
    for (states, expected) in all {
        assert_warned(&with(states), expected);
    }
    assert_warned(
        &with("state s in root : low { goto s }\nstate t in root : low { goto u }\nstate u in root : low { goto u }"),
        &[
            "5:7: state `s` is never left: it goes to no other state, and nothing above it goes anywhere",
            "6:7: state `t` is never reached: no state goes to it",
            "7:7: state `u` is never reached: only state `t` goes to it, which is never reached either",
        ],
    );
}

#[test]
fn states_that_are_never_left() {
    let never = |at: &str, name: &str| {
        vec![format!(
            "{at}: state `{name}` is never left: it goes to no other state, and nothing above it goes anywhere"
        )]
    };
    for (states, expected) in [
        ("state s in root : low { goto t }\nstate t in root : low { goto t }", never("6:7", "t")),
        (
            "state s in root : low { goto t }\nstate t in root : low { if a then goto t else { a := 1; goto t } }",
            never("6:7", "t"),
        ),
        ("state s in root : low { goto t }\nstate t in root : low { if a then goto t else goto s }", vec![]),
        // A state alone in its group has nowhere to go.
        ("state s in root : low { goto s }", vec![]),
        // One that falls for ever is not left either.
        (
            "state s in root : low { goto t }\nstate t in root : low { fall }\nstate u in t : low { goto u }",
            never("6:7", "t"),
        ),
        // A goto above ends it: the group is left, or begins again with its default child.
        (
            "state g in root : low { fall }\nstate s in g : low { goto t }\nstate t in g : low { goto t }",
            never("7:7", "t"),
        ),
        (
            "state g in root : low { if a then fall else goto g }\nstate s in g : low { goto t }\n\
             state t in g : low { goto t }",
            vec![],
        ),
        (
            "state g in root : low { fall }\nstate h in g : low { if a then fall else goto h }\n\
             state s in h : low { goto t }\nstate t in h : low { goto t }",
            vec![],
        ),
    ] {
        assert_eq!(warned(&with(states)), expected, "{states}");
    }
}

#[test]
fn registers_of_no_use() {
    let spare = "state t in root : low { goto s }\nstate spare in root : low { BODY; goto spare }";
    let unreached = "7:7: state `spare` is never reached: no state goes to it";
    for (declared, body, spare_body, expected) in [
        ("register r : low = 7", "skip", "skip", Some("register `r` is neither read nor assigned")),
        ("register r : low = 7", "r := 1", "skip", Some("register `r` is assigned and never read: only the host sees it")),
        ("register r : low = 7", "a := r", "skip", Some("register `r` is never assigned: it always has its reset value 7")),
        ("register r : low = 7", "r := r + 1", "skip", None),
        ("register r : low = 7", "if r then r := 0 else skip", "skip", None),
        ("register r : low = 7", "skip", "r := r + 1", Some("register `r` is read and assigned only in states that are never reached")),
        ("register r : low = 7", "r := 1", "a := r", Some("register `r` is read only in states that are never reached")),
        (
            "register r : low = 7",
            "a := r",
            "r := 1",
            Some("register `r` is assigned only in states that are never reached: it always has its reset value 7"),
        ),
        ("register r : low = 7", "skip", "r := 1", Some("register `r` is never read, and assigned only in states that are never reached")),
        ("register r : low = 7", "skip", "a := r", Some("register `r` is never assigned, and read only in states that are never reached")),
        ("port r : low = 7", "skip", "skip", Some("port `r` is never read")),
        ("port r : low = 7", "skip", "if r then skip else a := 1", Some("port `r` is read only in states that are never reached")),
        ("port r : low = 7", "a := 1 + r", "skip", None),
    ] {
        let states = spare.replace("BODY", spare_body);
        let source = with(&format!("state s in root : low {{ {body}; goto t }}\n{states}\n{declared}"));
        let column = declared.find(" r ").unwrap() + 2;
        let mut all = vec![unreached.to_string()];
        all.extend(expected.map(|words| format!("8:{column}: {words}")));
        assert_eq!(warned(&source), all, "{declared} {body} {spare_body}");
    }
}

/// A state `t` with two parameters, which gives them on to itself; `r` and `q` are given in the first.
fn with_parameters(body: &str) -> String {
    with(&format!(
        "register r : low width 4 = 7\nregister q : low width 8 = 1\n\
         state s in root : low {{ goto t(r, q) }}\n\
         state t(x : low..low, y : low..low) in root : low {{ {body}; if a then goto s else goto t(y, x) }}"
    ))
}

/// What a parameter stands for is read and assigned by it, also where it is given on.
#[test]
fn parameters_stand_for_registers() {
    let all: &[(&str, &[&str])] = &[
        ("x := x + y", &[]),
        ("x := y", &[]),
        (
            "skip",
            &[
                "5:10: register `r` is neither read nor assigned",
                "6:10: register `q` is neither read nor assigned",
            ],
        ),
        (
            "x := a",
            &[
                "5:10: register `r` is assigned and never read: only the host sees it",
                "6:10: register `q` is assigned and never read: only the host sees it",
            ],
        ),
        (
            "a := y",
            &[
                "5:10: register `r` is never assigned: it always has its reset value 7",
                "6:10: register `q` is never assigned: it always has its reset value 1",
            ],
        ),
        // As wide as the widest that it can stand for.
        (
            "x := x + 1; if y < 256 then skip else skip",
            &["8:68: the condition `y < 256` is always true (the left side is from 0 to 255, the right side 256): \
               what stands behind `else` never runs"],
        ),
        ("x := x + 1; if y < 255 then skip else skip", &[]),
        (
            "x := x + y; x := 256",
            &["8:65: the constant 256 is too wide for every register that `x` can stand for: \
               these have 8 bits at the most, and the bits above are lost"],
        ),
        ("x := x + y; x := 255", &[]),
        ("x := x + y; y := y", &["8:65: `y` is assigned to itself: nothing changes"]),
    ];
    for (body, expected) in all {
        assert_warned(&with_parameters(body), expected);
    }
    // Given on twice, by states that stand before the one that is given to first.
    let through = |last: &str| {
        with(&format!(
            "register r : low = 7\nstate s in root : low {{ goto v(r) }}\n\
             state t(x : low..low) in root : low {{ {last}; goto s }}\n\
             state u(x : low..low) in root : low {{ goto t(x) }}\n\
             state v(x : low..low) in root : low {{ goto u(x) }}"
        ))
    };
    assert_warned(&through("x := x + 1"), &[]);
    assert_warned(
        &through("x := 1"),
        &["5:10: register `r` is assigned and never read: only the host sees it"],
    );
    // A register that gives a state its label is of use, though nothing reads it.
    let label = |label: &str| {
        with(&format!(
            "register r : low = 7\nstate s in root : low {{ goto t(r) }}\n\
             state t(x : low..low) in root : {label} {{ goto s }}"
        ))
    };
    assert_warned(&label("x"), &[]);
    assert_warned(
        &label("low"),
        &["5:10: register `r` is neither read nor assigned"],
    );
}
